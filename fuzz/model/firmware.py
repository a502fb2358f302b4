"""Random firmware that saves frames and leans on them, with a schedule: the jobs on which the two machines are
compared.

A firmware has a start-up with tables, six procedures, which call those behind them, and a handler for most vectors. Its
stacks are in the area that its loads and stores reach. AC bit 15 is set, so that no fault is imprecise.
"""
import dataclasses

from model import instructions
from model.debugger import Questions
from model.instructions import BASE, MESSAGE, NEW_PRCB, POINTERS, RETURN, SPARE, STAY, Maker, load_address, register
from model.memory import EXIT
from model.numbers import wrap
from model.run import Event

BOOT = 0xFFFFFF10
PRCB, SECOND_PRCB, FAULTS, CONTROL, PROCEDURE_TABLE, VECTORS = 0x800, 0xC00, 0x900, 0xA00, 0xB00, 0x2000
CODE, PROCEDURES, DATA = 0x1000, [0x1800 + 0x80 * number for number in range(6)], 0x3000
# Where the stacks and frames of a big-endian region are: region 1.
BIG_REGION, BIG_ENDIAN = 0x10000000, 0x400000
# ICON with a falling edge for each pin.
ALL_EDGES = 0x3FC
SYSTEM_WORD, NO_IMPRECISE, UNALIGNED_MASKED = 0x27F, 0x8000, 0x40000000
FAULT_KINDS = (1, 2, 3, 5, 7, 10)
SAVED_AT = (0, 0x40, 0x80, 0xC0, 0x100, 0x800)
# A session is compared where the run ends by itself after so many instructions at most.
LONGEST_SESSION = 150


@dataclasses.dataclass(frozen=True)
class Shape:
    """`is_big`: the frames are in a big-endian region. `is_dense`: there are many stale bytes from the start on.
    `ends`: the code ends by an exit in place of a loop."""

    is_big: bool = False
    is_dense: bool = False
    ends: bool = False


@dataclasses.dataclass(frozen=True)
class Job:
    """An image as its segments, each an address and bytes; a plan of events; a length, and the version of the plan."""

    segments: list
    plan: list
    length: int
    version: int
    questions: Questions

    @property
    def image(self):
        return {wrap(start + place): byte for start, body in self.segments for place, byte in enumerate(body)}

    @property
    def schedule(self):
        lines = ["schedule 2"] if self.version == 2 else []
        return "".join(line + "\n" for line in lines + [event.line for event in self.plan])


class Firmware:
    """The segments of an image, made with the numbers of `chance`, a `random.Random`."""

    def __init__(self, chance, shape):
        self.chance, self.shape = chance, shape
        self.data = DATA | (BIG_REGION if shape.is_big else 0)
        self.is_traced = chance.random() < 0.2
        self.segments = []

    def put(self, start, words):
        self.segments.append((start, b"".join(word.to_bytes(4, "little") for word in words)))

    def near(self, *offsets):
        return [self.data - DATA + offset for offset in offsets]

    def made(self):
        self.put(BOOT, [CODE, PRCB])
        self.put_prcbs()
        self.put_faults()
        self.put_procedure_table()
        self.put(CONTROL, self.control_table())
        self.put(VECTORS + 36, [self.handler() for _ in range(8, 256)])
        self.put(CODE, self.code())
        for number, start in enumerate(PROCEDURES):
            self.put(start, self.procedure(number, start))
        return self.segments

    def put_prcbs(self):
        """The PRCB, and one for a restart, with another stack and number of register sets."""
        ac = NO_IMPRECISE | self.chance.choice([0, 0x1000, 0x1000])
        configuration = self.chance.choice([UNALIGNED_MASKED, UNALIGNED_MASKED, 0])
        tables = [FAULTS, CONTROL, ac, configuration, VECTORS, PROCEDURE_TABLE, 0]
        first_stack = self.chance.choice(self.near(0x3000, 0x3000, 0x30C0, 0x5000))
        self.put(PRCB, [*tables, first_stack, 0, 0])
        self.put(SECOND_PRCB, [*tables, self.chance.choice([0x3100, 0x5000]), 0, self.chance.randrange(16)])

    def put_faults(self):
        """Local entries, system entries, and some that are dead."""
        for kind in FAULT_KINDS:
            sort = self.chance.random()
            if sort < 0.6:
                words = [self.chance.choice(PROCEDURES), 0]
            elif sort < 0.9:
                words = [self.chance.choice([1, 2, 3]) * 4 + 2, SYSTEM_WORD]
            else:
                words = [self.chance.choice([1, 3, 6, 0x41A]), self.chance.choice([SYSTEM_WORD, SYSTEM_WORD - 1])]
            self.put(FAULTS + 8 * kind, words)

    def put_procedure_table(self):
        stack = self.chance.choice([*self.near(0x3200, 0x3080, 0x3000), 0x6000])
        self.put(PROCEDURE_TABLE + 12, [stack | self.chance.choice([0, 0, 1])])
        entries = [self.chance.choice(PROCEDURES) | self.chance.choice([0, 2, 2, 1]) for _ in range(3)]
        self.put(PROCEDURE_TABLE + 52, entries)

    def control_table(self):
        """Vectors of pins and channels, edges or levels of pins; now and then trace modes and breakpoints, and another
        byte order of region 1, which has the frames where the shape is big."""
        chance = self.chance
        breaks, vectors, regions, last = [0] * 4, [0x8765] * 4, [0] * 16, [0] * 4
        vectors[0], vectors[2] = chance.choice([0x1, 0x4321, 0xF1]), chance.choice([0x5432, 0x1111])
        vectors[3] = chance.choice([0, ALL_EDGES])
        if self.is_traced:
            breaks = [CODE + 4 * chance.randrange(40, 100) | 1 for _ in range(2)]
            breaks += [self.data + 4 * chance.randrange(0x40) for _ in range(2)]
            last[1:3] = chance.randrange(4), chance.choice([0, 0, 2, 4, 8, 16, 0x90, 0x70])
        if self.shape.is_big:
            regions[1] = BIG_ENDIAN | chance.choice([0, 0x1000, 0x20])
        elif chance.random() < 0.1:
            regions[1] = BIG_ENDIAN
        return [*breaks, *vectors, *regions, *last]

    def handler(self):
        return self.chance.choice(PROCEDURES) | (self.chance.random() < 0.3)

    def maker(self, procedures):
        return Maker(self.chance, procedures, self.data, self.shape.is_dense)

    def code(self):
        """The start-up of the registers, saved frames to begin with, and random instructions."""
        words = self.first_channel() + self.first_registers() + self.first_controls()
        saved = []
        if self.shape.is_dense:
            saved = [place for place in SAVED_AT if self.chance.random() < 0.85]
        for place in saved:
            words += self.frame_at(self.data + place)
            words.append(self.call_last(words))
        if self.shape.is_dense:
            words += self.frame_at(self.data + 0x180)
        elif self.chance.random() < 0.8:
            words.append(self.call_last(words))
        maker = self.maker(PROCEDURES)
        for _ in range(self.chance.randrange(20, 60)):
            words += maker.words(CODE + 4 * len(words))
        return words + (instructions.absolute_words("st", 0, EXIT) if self.shape.ends else [STAY])

    def first_channel(self):
        """A channel that is set up and on, or none."""
        chance = self.chance
        if chance.random() < 0.5:
            return []
        source = chance.choice([self.data + 0x800, self.data, CODE])
        target = chance.choice([self.data + 0x400, self.data + 0x800, self.data, 0x2003, 0xE0000FF8])
        control = chance.choice([0, 0, 0x10]) | chance.choice([0, 0, 4, 8, 0x40, 0x40, 0x44]) | chance.randrange(4)
        words = load_address(4, chance.choice([1, 2, 3, 5, 8, 16, 20, 40]))
        words += load_address(5, source + chance.randrange(32)) + load_address(6, target) + load_address(8, control)
        number = instructions.literal(chance.randrange(4))
        words.append(instructions.register_word("sdma", number, register(8), register(4)))
        enabled = instructions.literal(15)
        return [*words, instructions.register_word("mov", enabled, None, instructions.special(2))]

    def first_registers(self):
        """What the registers with a part to play have."""
        chance = self.chance
        words = load_address(BASE, self.data)
        words += load_address(POINTERS[0], self.data + 4 * chance.randrange(0x40))
        words += load_address(POINTERS[1], self.data + 0x800 + 4 * chance.randrange(8))
        messages = [0x300, 0x300, 0x400, 0x401, 0x402, 0x403, 0x406, 0x12, 0x2A, 0x63, 0xFA, 0x7, 0x100]
        words += load_address(MESSAGE, chance.choice(messages)) + load_address(NEW_PRCB, SECOND_PRCB)
        places = [CODE + 4 * chance.randrange(20, 60), 0x1F0000, 0x1F2000, 0x1F2000]
        words += load_address(SPARE, chance.choice(places))
        for number in chance.sample(range(4, 12), 4):
            values = [chance.randrange(64), self.data + chance.randrange(0x100), chance.getrandbits(32)]
            values += [4, 16, self.data + 0x800]
            words += load_address(number, chance.choice(values))
        return words

    def first_controls(self):
        """Interrupts allowed or not, a low priority, user mode, tracing."""
        words = []
        if self.chance.random() < 0.5:
            words += load_address(20, 0xFFF)
            words.append(instructions.register_word("mov", register(20), None, instructions.special(1)))
        if self.chance.random() < 0.5:
            words += load_address(21, 0) + load_address(SPARE, 0x1F2000)
            words.append(instructions.register_word("modpc", register(9), register(SPARE), register(21)))
        for share, mask, value in ((0.25, 2, 0), (0.7 if self.is_traced else 0.1, 1, 1)):
            if self.chance.random() < share:
                words += load_address(21, value)
                mask = instructions.literal(mask)
                words.append(instructions.register_word("modpc", register(9), mask, register(21)))
        return words

    def frame_at(self, place):
        """fp and sp of a frame there."""
        return load_address(31, place) + load_address(1, place + 64)

    def call_last(self, words):
        """A call of the last procedure, which returns at once."""
        return instructions.call_word(PROCEDURES[-1], CODE + 4 * len(words))

    def procedure(self, number, start):
        """A few instructions, which mostly call later procedures; the last procedure has none."""
        words = []
        if number < len(PROCEDURES) - 1:
            for _ in range(self.chance.randrange(7)):
                below = PROCEDURES[number:] if self.chance.random() < 0.8 else PROCEDURES
                words += self.maker(below).words(start + 4 * len(words))
        return [*words, RETURN]


def event_words(chance, version, data):
    """An event of a schedule. Few pins have levels, so that one of them goes low and high again."""
    if version == 2 and chance.random() < 0.5:
        return chance.choice(["low", "high"]), str(chance.randrange(3))
    name = chance.choices(["show", "pin", "nmi", "dma", "feed"], [30, 30, 5, 28, 7])[0]
    if name == "show":
        places = [data, data + 0x10, data + 0x40, data + 0x80, data + 0x800, VECTORS, 0xE0000FF0]
        return name, "%08X" % (chance.choice(places) + chance.randrange(16)), str(chance.randrange(1, 65))
    if name == "nmi":
        return (name,)
    number = str(chance.randrange(8 if name == "pin" else 4))
    if name == "feed":
        return name, number, chance.randbytes(chance.choice([1, 2, 4, 16])).hex().upper()
    return name, number


def plan_of(chance, version, data):
    """Up to eight events, or none; behind a pin that goes low comes one more, which makes it high again."""
    plan, count = [], 0
    for _ in range(chance.randrange(1, 9) if chance.random() < 0.8 else 0):
        count += chance.randrange(25)
        plan.append(Event(count, event_words(chance, version, data)))
        if plan[-1].words[0] == "low":
            plan.append(Event(count + chance.randrange(12), ("high", plan[-1].words[1])))
    return sorted(plan, key=lambda event: event.count)


def questions_of(chance, data):
    """Bytes around the saved frames, and some of them of which the last change is asked for."""
    areas = tuple(data + place for place in SAVED_AT) + (VECTORS,)
    places = [data + chance.randrange(0x100) for _ in range(5)]
    places += [data + 0x800 + chance.randrange(16) for _ in range(3)]
    return Questions(areas, tuple(chance.sample(places, 5)))


def job(chance, shape):
    """A job of a shape: its length is some more than its events take, or that of a session."""
    made = Firmware(chance, shape)
    segments = made.made()
    version = 2 if chance.random() < 0.25 else 1
    plan = plan_of(chance, version, made.data)
    length = LONGEST_SESSION if shape.ends else chance.randrange(60 if shape.is_dense else 40, 160)
    return Job(segments, plan, length, version, questions_of(chance, made.data))
