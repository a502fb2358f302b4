"""A run: what comes next between two instructions, and its text (docs/COMMAND.md, "What is printed").

While fewer instructions are done than the length, the first of these comes next that applies: an interrupt that is
chosen; the next event, where its count is reached; one instruction. The entry of a fault belongs to the instruction
that raised it, and comes even where the length is reached.
"""
import dataclasses

from model import controls, dma, faults, frames, interrupts, step
from model.memory import Hazard
from model.state import LOCALS, State


@dataclasses.dataclass(frozen=True)
class Event:
    """A line of a schedule by counts: after `count` instructions, these words."""

    count: int
    words: tuple

    @property
    def line(self):
        return "at %d %s" % (self.count, " ".join(self.words))


def shown_word(state, number):
    return "--------" if state.marks[number] else "%08X" % state.values[number]


def register_lines(state):
    """The globals and the locals, eight dashes for a marked one."""
    yield "#g " + " ".join(shown_word(state, number) for number in range(LOCALS, 2 * LOCALS))
    yield "#l " + " ".join(shown_word(state, number) for number in range(LOCALS))


def memory_line(state, address, size):
    """Bytes as a `show` event tells them, two dashes for one that is not compared."""
    found = [frames.compared_byte(state, address + place) for place in range(size)]
    shown = ["--" if byte is None else "%02X" % byte for byte in found]
    return "#mem %08X %s" % (address, " ".join(shown))


class Run:
    """The run of an image, a dictionary of bytes by addresses, under a plan, a list of events. `asked_sets` is a number
    of register sets, or None for that of the PRCB; the text is the same in any number."""

    def __init__(self, image, plan, length, version=1, asked_sets=None):
        self.state = State(image, asked_sets)
        controls.boot(self.state)
        self.plan, self.length = list(plan), length
        self.lines = ["schedule 2"] if version == 2 else []
        self.fault = self.exit = self.end = None

    def text(self):
        """Runs to the end, and gives all lines."""
        while self.end is None:
            self.go_on()
        self.point("end")
        self.lines.append("#end " + self.end)
        return "".join(line + "\n" for line in self.lines)

    def go_on(self):
        """One step; where it meets a hazard or a dead entry, the run ends with the state before it."""
        kept = self.state.keep()
        try:
            self.next_step()
        except Hazard as hazard:
            self.end = "hazard %08X" % hazard.address
        except faults.Dead as dead:
            self.end = "dead %d %08X" % (dead.code, dead.address)
        if self.end is not None:
            self.state.go_back(kept)

    def next_step(self):
        state = self.state
        if self.exit is not None:
            self.end = "exit %08X" % self.exit
        elif self.fault:
            faults.enter(state, self.fault)
            self.fault = None
            self.point("fault")
        elif state.count == self.length:
            self.end = "limit"
        elif interrupt := interrupts.choose(state):
            interrupts.enter(state, interrupt)
            self.point("int")
        elif self.plan and self.plan[0].count <= state.count:
            self.meet(self.plan.pop(0))
        else:
            self.instruct()

    def instruct(self):
        done = step.instruct(self.state)
        if done.console is not None:
            self.lines.append("#out %02X" % done.console)
        if done.point:
            self.point(done.point)
        self.fault, self.exit = done.fault, done.exit

    def meet(self, event):
        """The line of an event is printed even where it meets a hazard."""
        self.lines.append(dataclasses.replace(event, count=self.state.count).line)
        state, name, operands = self.state, event.words[0], event.words[1:]
        if name == "nmi":
            state.nmi = True
        elif name == "show":
            self.lines.append(memory_line(state, int(operands[0], 16), int(operands[1])))
        else:
            EVENTS[name](state, int(operands[0]), *operands[1:])
        self.point("event")

    def point(self, kind):
        """A drained point: the controls and the registers."""
        state = self.state
        self.lines.append("#point %d %s %08X %08X %08X" % (state.count, kind, state.ip, state.ac, state.pc))
        self.lines += register_lines(state)


# Events of a pin or a channel.
EVENTS = {
    "pin": interrupts.post,
    "low": interrupts.post_low,
    "high": interrupts.go_high,
    "dma": dma.unit,
    "feed": lambda state, number, digits: dma.unit(state, number, bytes.fromhex(digits)),
}
