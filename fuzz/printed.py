"""What the forms of the command print, read piece by piece; at the first piece that is not as it should be `Wrong` is
raised."""
import re

from forms import Wrong

H = rb"[0-9A-F]{8}"
WORDS = rb"(?: " + H + rb"){16}\n"
MARKED = rb"(?: (?:" + H + rb"|-{8})){16}\n"
REGISTERS = rb"#g" + MARKED + rb"#l" + MARKED
POINT = re.compile(rb"#point (\d+) (flush|sync|event|int|fault|end)((?: " + H + rb"){3}\n" + REGISTERS + rb")")
OUT = re.compile(rb"#out [0-9A-F]{2}\n")
HEADING = re.compile(rb"schedule 2\n")
EVENT = re.compile(
    rb"at (\d+) (?:(?:pin|low|high) [0-7]|nmi|dma [0-3]|feed [0-3] (?:[0-9A-F]{2}|[0-9A-F]{4}|" + H + rb"|[0-9A-F]{32})"
    rb"|show (" + H + rb") (\d+))\n"
)
MEM = re.compile(rb"#mem (" + H + rb")((?: (?:[0-9A-F]{2}|--))+)\n")
RAWMEM = re.compile(rb"#rawmem (" + H + rb")((?: [0-9A-F]{2})+)\n")
END = re.compile(rb"#end (?:(exit|hazard|imprecise) (" + H + rb")|(limit)|(dead) [123] (" + H + rb"))\n")
TOLD = re.compile(rb"#t (\d+) (" + H + rb") (\.word 0x" + H + rb"|[a-z]+(?:\.f)?(?: [!-~]+)*)\n")
TURN = re.compile(rb"#turn (\d+) (\d+)\n")
VIEW = re.compile(rb"#view (\d+)((?: (" + H + rb"))(?: " + H + rb"){2}\n" + REGISTERS + rb")")
RAW = re.compile(rb"#raw (\d+) " + H + rb"\n#rg" + WORDS + rb"#rl" + WORDS)
HELD = re.compile(rb"#held (\d+) (\d+)((?: " + H + rb")*)\n")
GEN = re.compile(rb"#gen (\d+) (\d+) (\d+) (.*\n)")


class Reader:
    """A text, and the place up to which it was read."""

    def __init__(self, text):
        self.text, self.place = text, 0

    def take(self, form):
        found = form.match(self.text, self.place)
        if found:
            self.place = found.end()
        return found

    def need(self, form, what):
        return self.take(form) or self.fail("no " + what)

    def fail(self, why):
        piece = self.text[self.place : self.place + 120]
        raise Wrong("%s at byte %d: %r" % (why, self.place, piece))


class Run:
    """The lines of a run, as they come. `end` is the kind of its end once that was read, and `final` the last drained
    point; `plain` has the text without the lines of traced instructions."""

    def __init__(self, text, length, traced=None, version=1):
        self.reader, self.length, self.traced, self.version = Reader(text), length, traced, version
        self.count, self.end, self.final, self.end_line, self.last = 0, None, None, None, None
        self.told, self.plain = [], []

    def reach(self, count):
        if not self.count <= count <= self.length:
            self.reader.fail("the count %d after %d" % (count, self.count))
        self.count = count

    def shown(self, event):
        """The bytes of a `show` event."""
        found = self.reader.need(MEM, "#mem of a show event")
        if found[1] != event[2] or len(found[2]) != 3 * int(event[3]) or not 1 <= int(event[3]) <= 64:
            self.reader.fail("other bytes than the event asks for")

    def step(self):
        """Reads one piece of the run, and answers whether there was one."""
        begin = self.reader.place
        if found := self.reader.take(POINT):
            self.reach(int(found[1]))
            self.final = found if found[2] == b"end" else None
        elif self.reader.take(OUT):
            pass
        elif found := self.reader.take(EVENT):
            self.reach(int(found[1]))
            if found[2]:
                self.shown(found)
        elif found := self.reader.take(END):
            self.finish(found)
        elif self.traced and (found := self.reader.take(TOLD)):
            return self.trace(found)
        else:
            return False
        self.plain.append(self.reader.text[begin : self.reader.place])
        return True

    def trace(self, found):
        self.told.append((int(found[1]), int(found[2], 16)))
        if not self.traced[0] <= self.told[-1][1] <= self.traced[1] or self.told[-1][0] >= self.length:
            self.reader.fail("a traced instruction out of the range")
        return True

    def finish(self, found):
        self.end, self.end_line = (found[1] or found[3] or found[4]).decode(), found[0]
        if (self.final is None) != (self.end == "imprecise"):
            self.reader.fail("the end has a drained point, or lacks one")
        if self.end == "limit" and self.count != self.length:
            self.reader.fail("the limit at another count")

    def whole(self):
        """Reads the whole text of `run` or `trace`, in front of which the version stands where it is not the first."""
        if self.version == 2:
            self.plain.append(self.reader.need(HEADING, "line of the version")[0])
        while self.end is None and self.step():
            pass
        if self.end is None or self.reader.place != len(self.reader.text):
            self.reader.fail("no line of a run")
        if self.traced == (0, 0xFFFFFFFF):
            self.check_counts()
        return self

    def check_counts(self):
        """Where all addresses are traced, each instruction has its line."""
        if [count for count, _ in self.told] != list(range(len(self.told))):
            raise Wrong("the counts of traced instructions have a gap")
        if self.final and len(self.told) != self.count:
            raise Wrong("%d instructions were traced of %d" % (len(self.told), self.count))

    def status(self):
        return 4 if self.end in ("hazard", "dead", "imprecise") else 0

    def front(self):
        """The text before the end and its drained point."""
        return b"".join(self.plain[: -1 if self.end == "imprecise" else -2] if self.end else self.plain)


class Session:
    """What `debug` prints for these commands."""

    def __init__(self, text, commands, length):
        self.run, self.reader = Run(text, length), None
        self.reader = self.run.reader
        self.commands, self.turn, self.count, self.turns = commands, 1, 0, []
        self.until, self.sets, self.first = None, None, None

    def whole(self):
        for command in self.commands:
            getattr(self, "do_" + command[0])(*command[1:])
            if command[0] != "until":
                self.until = None
        if self.reader.place != len(self.reader.text):
            self.reader.fail("no answer of a command")
        return self

    def drive(self, most):
        """Reads the lines of a run, and then the turn."""
        was_over = self.run.end is not None
        while self.run.end is None and self.run.step():
            pass
        found = self.reader.need(TURN, "#turn")
        turn, count = int(found[1]), int(found[2])
        over = self.run.end is not None
        if count < max(self.count, self.run.count) or turn < self.turn or (was_over and turn != self.turn):
            self.reader.fail("the turn or the count falls, or moves behind the end")
        if most and (turn > self.turn + most or (turn < self.turn + most and not over)):
            self.reader.fail("other turns than were asked for")
        self.turn, self.count = turn, count
        self.turns.append(found[0])

    def do_turn(self, turns):
        self.drive(turns)

    def do_until(self, address):
        self.drive(None)
        self.until = None if self.run.end else address

    def do_regs(self):
        found = self.reader.need(VIEW, "#view")
        if int(found[1]) != self.count or (self.until is not None and int(found[3], 16) != self.until):
            self.reader.fail("a view of another place")
        if self.run.final and found[2] != self.run.final[3]:
            self.reader.fail("a view of other registers than the end has")

    def do_raw(self):
        if int(self.reader.need(RAW, "#raw")[1]) != self.turn:
            self.reader.fail("raw registers of another turn")

    def do_held(self):
        found = self.reader.need(HELD, "#held")
        size, count = int(found[1]), int(found[2])
        if not count <= size <= 15 or size < 1 or len(found[3]) != 9 * count or (self.sets and size != self.sets):
            self.reader.fail("a wrong number of frames or sets")

    def told(self, form, what, start, size):
        found = self.reader.need(form, what)
        if int(found[1], 16) != start or len(found[2]) != 3 * size:
            self.reader.fail("other bytes than were asked for")
        return found[2]

    def do_mem(self, start, size):
        found = self.told(MEM, "#mem", start, size)
        self.first = self.first or found

    def do_rawmem(self, start, size):
        self.told(RAWMEM, "#rawmem", start, size)


LISTED = re.compile(
    rb"\.org 0x(" + H + rb")\n|(?:\.byte 0x[0-9A-F]{2}|\.word 0x" + H + rb"|[a-z]+(?:\.f)?(?: [!-~]+)*)"
    rb" # (" + H + rb")((?: " + H + rb"){1,2}|(?: [0-9A-F]{2}))\n"
)


def listed(text):
    """The bytes of a listing by their addresses, of what its comments tell."""
    reader, image, here, last = Reader(text), {}, None, -1
    while reader.place < len(text):
        found = reader.need(LISTED, "line of a listing")
        if found[1]:
            here = int(found[1], 16)
            if 0 <= last >= here - 1:
                reader.fail("an address that does not rise")
            continue
        if here is None or int(found[2], 16) != here:
            reader.fail("another address than that of the location")
        for word in found[3].split():
            for byte in reversed(bytes.fromhex(word.decode())):
                image[here], last, here = byte, here, here + 1
    return image


def check_job(number, out):
    """The line of `gen`, and the status that it asks for."""
    found = GEN.fullmatch(out)
    end = found and END.fullmatch(b"#end " + found[4])
    if not end or int(found[1]) != number or int(found[2]) > 10000000 or int(found[3]) > 2000:
        raise Wrong("gen prints %r" % out[:100])
    return 0 if end[1] == b"exit" or end[3] else 4
