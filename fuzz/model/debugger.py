"""What a session of the debugger tells where a run stands at its end (docs/DEBUGGING.md).

Turns are left out: a session here is one command that passes enough turns for the whole run, and questions behind it.
"""
import dataclasses

from model import frames
from model.run import Run, memory_line, register_lines
from model.state import LOCALS

TURNS = 1000000
# Lines of a session that tell turns, which have no counterpart here.
WITH_TURNS = ("#turn", "#raw ")
ASKED_BYTES = 64


@dataclasses.dataclass(frozen=True)
class Questions:
    """Addresses of which bytes are asked for, and addresses whose last change is."""

    areas: tuple
    watched: tuple

    def script(self):
        lines = ["turn %d" % TURNS, "held", "raw", "regs"]
        for area in self.areas:
            lines += ["mem %X %d" % (area, ASKED_BYTES), "rawmem %X %d" % (area, ASKED_BYTES)]
        return "\n".join(lines + ["who %X" % address for address in self.watched]) + "\n"


class Session(Run):
    """A run to its end, which keeps the last instruction that changed each watched byte as the program sees it."""

    def __init__(self, image, plan, length, asked_sets, questions):
        super().__init__(image, plan, length, asked_sets=asked_sets)
        self.questions = questions
        self.changed = dict.fromkeys(questions.watched)

    def watched_bytes(self):
        return {address: frames.compared_byte(self.state, address) for address in self.questions.watched}

    def instruct(self):
        before, place = self.watched_bytes(), self.state.ip
        super().instruct()
        for address, byte in self.watched_bytes().items():
            if byte != before[address]:
                self.changed[address] = (self.state.count, place)

    def session_text(self):
        """The lines of the run and of the answers, without those that tell turns."""
        lines = [self.text(), self.held_line(), *self.raw_lines(), *self.view_lines()]
        for area in self.questions.areas:
            lines += [memory_line(self.state, area, ASKED_BYTES), self.raw_memory_line(area)]
        lines += [self.who_line(address) for address in self.questions.watched]
        return "".join(line if line.endswith("\n") else line + "\n" for line in lines)

    def held_line(self):
        held = ["%08X" % frame.address for frame in self.state.held]
        return " ".join(["#held %d %d" % (self.state.sets, len(held)), *held])

    def raw_lines(self):
        """The words of all registers, marked ones too: at the end all results have landed."""
        words = ["%08X" % value for value in self.state.values]
        return ["#rg " + " ".join(words[LOCALS:]), "#rl " + " ".join(words[:LOCALS])]

    def view_lines(self):
        state = self.state
        return ["#view %d %08X %08X %08X" % (state.count, state.ip, state.ac, state.pc), *register_lines(state)]

    def raw_memory_line(self, start):
        found = [self.state.memory.raw.get(start + place, 0) for place in range(ASKED_BYTES)]
        return "#rawmem %08X %s" % (start, " ".join("%02X" % byte for byte in found))

    def who_line(self, address):
        found = self.changed[address]
        return "#who %d %08X" % found if found else "#who none"


def without_turns(text):
    """The lines of a session that are compared."""
    return "".join(line for line in text.splitlines(keepends=True) if not line.startswith(WITH_TURNS))
