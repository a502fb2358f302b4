#!/usr/bin/env python3
"""Makes a waveform of a run, for GTKWave: a value change dump with one time unit a turn.

    scripts/wave.py IMAGE SCHEDULE SETS FIRST COUNT >OUT.vcd

IMAGE, SCHEDULE and SETS are those of `./i960 debug`, which it runs: it passes to turn FIRST, 1 or more, and then goes on turn
by turn for COUNT turns, 1 to 24,000, or to the end of the run. It computes nothing of the machine: each value is one that
the debugger printed, but for `issued`, which is the difference of two.

The signals at a turn, with what they are worth as it begins:

    run     ip, ac, pc          the next instruction address and the controls, as the program sees them
            count               how many instructions have issued before the turn
            issued              how many issue in the turn
            console             the byte that is printed in the turn
            events              points, events, console bytes and the end that come in the turn, or -
    raw     pfp .. fp           the registers as they stand
    busy    pfp .. fp           1 where a register is to be written by what is not yet done
    seen    pfp .. fp           the registers as the program sees them
    frames  sets, held          the register sets, and how many of them hold a frame
            frame0 .. frame14   to which addresses their frames are saved, the youngest first

Limits: a script of the debugger has at most 100,000 commands, and a turn takes four, so a longer run needs several files.
Memory is not in it. A run of 20,000 turns takes some seconds and some 2 MB; `vcd2fst OUT.vcd OUT.fst` makes a tenth of it.
PROGRAM in the environment names the program in the place of ./i960. Ends with the status of a run that is refused.
"""
import itertools
import os
import pathlib
import subprocess
import sys
import tempfile

TELL = "raw\nheld\nregs\n"
LOCALS = ["pfp", "sp", "rip", *[f"r{number}" for number in range(3, 16)]]
GLOBALS = [*[f"g{number}" for number in range(15)], "fp"]
REGISTERS = LOCALS + GLOBALS
MOST_SETS = 15
MOST_TURNS = 24000
MOST_PASSED = 1000000
# The statuses of a session that was done: its run has not ended, or ended with a hazard and the like.
DONE = (0, 4)
# What stands for a register that is marked.
MARKED = "-" * 8


class Place:
    """What the debugger tells at a turn (`values`, by scope and name; None is unknown or marked), and what came up to it."""

    def __init__(self):
        self.turn, self.values, self.events, self.console = None, {}, [], None

    def put(self, scope, names, words, base=16):
        self.values.update(((scope, name), None if word == MARKED else int(word, base)) for name, word in zip(names, words))

    def take(self, word, rest):
        """Takes a line of the debugger, of which `word` is the first word."""
        if word == "#raw":
            self.turn = int(rest[0])
            busy = int(rest[1], 16)
            self.values.update((("busy", name), busy >> bit & 1) for bit, name in enumerate(REGISTERS))
        elif word in ("#rl", "#rg"):
            self.put("raw", LOCALS if word == "#rl" else GLOBALS, rest)
        elif word in ("#l", "#g"):
            self.put("seen", LOCALS if word == "#l" else GLOBALS, rest)
        elif word == "#view":
            self.put("run", ["count"], rest[:1], 10)
            self.put("run", ["ip", "ac", "pc"], rest[1:])
        elif word == "#held":
            self.put("frames", ["sets", "held"], rest[:2], 10)
            self.values.update((("frames", f"frame{number}"), None) for number in range(MOST_SETS))
            self.put("frames", [f"frame{number}" for number in range(MOST_SETS)], rest[2:])
        else:
            self.take_event(word, rest)

    def take_event(self, word, rest):
        if word == "#out":
            self.console = int(rest[0], 16)
            self.events.append("out_" + rest[0])
        elif word == "#point":
            self.events.append("_".join(rest[1:3]))
        elif word == "#end":
            self.events.append("_".join(["end", *rest]))
        elif word in ("at", "turn"):
            self.events.append("_".join(rest[1:]))


def script(first, count):
    """The commands that pass to the turn `first` and tell each of the `count` turns from there on."""
    passed = [min(MOST_PASSED, first - 1 - start) for start in range(0, first - 1, MOST_PASSED)]
    return "".join(f"turn {turns}\n" for turns in passed) + TELL + ("turn 1\n" + TELL) * count


def told(program, image, schedule, sets, commands):
    """The lines of a session."""
    with tempfile.NamedTemporaryFile("w", suffix=".dbg") as file:
        file.write(commands)
        file.flush()
        words = [program, "debug", image, schedule, sets, file.name]
        ran = subprocess.run(words, stdout=subprocess.PIPE, text=True, check=False)
    if ran.returncode not in DONE:
        sys.stderr.write(ran.stdout)
        sys.exit(ran.returncode)
    return ran.stdout.splitlines()


def places(lines):
    """The places that the lines of a session tell, each ended by its registers as the program sees them."""
    place, seen = Place(), False
    for line in lines:
        word, *rest = line.split()
        if word in ("#view", "#point"):
            # Both have the same two lines behind them.
            seen = word == "#view"
        if word in ("#g", "#l") and not seen:
            continue
        place.take(word, rest)
        if word == "#l":
            yield place
            place = Place()


def turns(found):
    """The places before the run's end, each with what the turn itself brings, which the next place tells."""
    for place, after in itertools.pairwise(found):
        place.values["run", "issued"] = after.values["run", "count"] - place.values["run", "count"]
        place.values["run", "console"] = after.console
        place.events = after.events
        yield place
        if after.turn == place.turn:
            return


def signals():
    """The scope, the name and the width in bits of each signal; a text has no width."""
    yield from (("run", name, 32) for name in ("ip", "ac", "pc"))
    yield from (("run", "count", 64), ("run", "issued", 2), ("run", "console", 8), ("run", "events", None))
    for scope, width in (("raw", 32), ("busy", 1), ("seen", 32)):
        yield from ((scope, name, width) for name in REGISTERS)
    yield from (("frames", name, 4) for name in ("sets", "held"))
    yield from (("frames", f"frame{number}", 32) for number in range(MOST_SETS))


def code(number):
    """The name of a signal in the dump: one or two printable characters."""
    high, low = divmod(number, 94)
    return (chr(32 + high) if high else "") + chr(33 + low)


def header(codes):
    lines = ["$version i960 debugger, one unit a turn $end", "$timescale 1 ns $end", "$scope module i960 $end"]
    for scope, group in itertools.groupby(signals(), key=lambda signal: signal[0]):
        lines.append(f"$scope module {scope} $end")
        for _, name, width in group:
            kind = "string 1" if width is None else f"wire {width}"
            lines.append(f"$var {kind} {codes[scope, name]} {name} $end")
        lines.append("$upscope $end")
    return lines + ["$upscope $end", "$enddefinitions $end"]


def changes(place, last, codes):
    """The lines of what is not as it was, which `last` keeps."""
    texts = {key: "bx " if value is None else f"b{value:b} " for key, value in place.values.items()}
    texts["run", "events"] = f"s{','.join(place.events) or '-'} "
    changed = [text + codes[key] for key, text in texts.items() if last.get(key) != text]
    last.update(texts)
    return changed


def dump(found, write):
    codes = {(scope, name): code(number) for number, (scope, name, _) in enumerate(signals())}
    write("\n".join(header(codes)) + "\n")
    last, turn = {}, 0
    for place in turns(found):
        turn = place.turn
        write("\n".join([f"#{turn}", *changes(place, last, codes)]) + "\n")
    write(f"#{turn + 1}\n")


def main():
    if len(sys.argv) != 6:
        sys.exit(__doc__)
    image, schedule, sets, first, count = sys.argv[1:]
    if not (first.isdigit() and int(first) >= 1 and count.isdigit() and 1 <= int(count) <= MOST_TURNS):
        sys.exit(f"scripts/wave.py: FIRST is 1 or more, and COUNT is 1 to {MOST_TURNS}")
    program = os.environ.get("PROGRAM", pathlib.Path(__file__).resolve().parent.parent / "i960")
    dump(places(told(program, image, schedule, sets, script(int(first), int(count)))), sys.stdout.write)


if __name__ == "__main__":
    main()
