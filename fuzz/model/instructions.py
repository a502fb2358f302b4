"""Random instructions that work near saved frames, and how their words are put together.

Registers have parts to play, so that the instructions of a firmware meet: g13 is the base of the saved frames, g8 and
g9 point at words of them and of other data, g10 has a message of `sysctl`, g11 the PRCB of a restart, g12 an address or
a word for PC. Results mostly go to the other registers.
"""
from model import table, words
from model.words import LITERAL, REGISTER, SPECIAL, Operand

DATA_REGISTERS = [*range(16, 24), *range(4, 12)]
FRAME_REGISTERS = [0, 1, 2, 3, 31]
BASE, POINTERS, MESSAGE, NEW_PRCB, SPARE = 29, (24, 25), 26, 27, 28
NUMBERS = {row.name: number for number, row in table.REGISTER_FORMAT.items()}
OPCODES = {name: opcode for opcode, name in table.MEMORY.items()}
KEEPING = sorted(table.KEEPING_MARKS)
DECIDING = (
    "cmpo", "cmpi", "chkbit", "addi", "subi", "addc", "subc", "scanbit", "spanbit", "shli", "cmpinco", "cmpdeci",
    "concmpo", "scanbyte", "muli", "divo", "remi", "ediv", "modac", "modtc", "divi",
)  # fmt: skip
SIGNED = ("addi", "subi", "muli", "divi", "remi", "modi", "shli", "shrdi", "shri", "divo", "remo")
EXTREMES = (0x80000000, 0x80000001, 0x7FFFFFFF, 0xFFFFFFFF, 0xFFFFFFF9, 0x10000, 31, 7, 3, 1, 0)
MARKERS = ("mark", "fmark", "udma")
CONDITIONAL = range(0x10, 0x18)
REGISTER_OPERATIONS = {number >> 4 for number in table.REGISTER_FORMAT}
OPERATIONS = sorted({*table.CONTROL, *table.TESTS, *table.COMPARE_BRANCHES, *table.MEMORY, *REGISTER_OPERATIONS})
PORT_PLACES = (0xE0000000, 0xE0000004, 0xE0000010, 0xDFFFFFFC, 0xE0000FFE, 0xE0000FFC)
# Places in the tables of a firmware.
TABLE_PLACES = (
    0x2000, 0x2003, 0x2004, 0x2006, 0x2024, 0x204C, 0xB34, 0xB0C, 0x910, 0x918, 0xA10, 0xC00, 0xC04, 0xA24,
)  # fmt: skip
RETURN, STAY = 0x0A000000, 0x08000000
ABSOLUTE = 1 << 12 | 0xC << 10


# Fields of the register format, each with the places of its modes; the third is never a literal.
FIELDS = (
    (words.FIRST, {LITERAL: words.FIRST_IS_LITERAL, SPECIAL: words.FIRST_IS_SPECIAL}),
    (words.SECOND, {LITERAL: words.SECOND_IS_LITERAL, SPECIAL: words.SECOND_IS_SPECIAL}),
    (words.THIRD, {SPECIAL: words.THIRD_IS_SPECIAL}),
)


def register(number):
    return Operand(REGISTER, number)


def literal(number):
    return Operand(LITERAL, number)


def special(number):
    return Operand(SPECIAL, number)


def register_word(name, first=None, second=None, third=None):
    """A word of the register format, with these operands; one that is None leaves its field 0."""
    number = NUMBERS[name]
    word = number >> 4 << 24 | (number & 15) << words.EXTENSION[0]
    for operand, (place, modes) in zip((first, second, third), FIELDS):
        if operand:
            word |= operand.number << place[0]
        if operand and operand.kind in modes:
            word |= 1 << modes[operand.kind][0]
    return word


def absolute_words(name, number, address):
    """A word of the memory format with an address in its second word."""
    return [OPCODES[name] << 24 | number << 19 | ABSOLUTE, address]


def load_address(number, address):
    return absolute_words("lda", number, address)


def call_word(target, here):
    return 0x09000000 | target - here & 0xFFFFFC


class Maker:
    """Makes instructions with the numbers of `chance`, a `random.Random`. `procedures` has the addresses to call, and
    `data` that of the saved frames; where `is_dense` holds, comparisons and the like are few, so that marks live
    long."""

    def __init__(self, chance, procedures, data, is_dense):
        self.chance, self.procedures, self.data = chance, procedures, data
        compares = 1.5 if is_dense else 5
        weights = {
            self.load: 26, self.store: 18, self.atomic: 5, self.keeping: 17, self.move: 6, self.address: 2,
            self.deciding: compares, self.test: 1, self.compare_branch: 2, self.call: 9, self.flush: 2, self.sync: 1,
            self.control: 2.5, self.process: 1, self.channel: 1, self.special_move: 2, self.give_back: 0.5,
            self.any_word: 0.5, self.odd_word: 1, self.link: 0.6, self.fault: 0.3, self.extended_link: 0.4,
            self.extended_branch: 0.6, self.signed: 1.5, self.marker: 0.7, self.conditional: 1.5,
        }  # fmt: skip
        self.kinds, self.weights = list(weights), list(weights.values())

    def words(self, here):
        """One instruction at an address."""
        return self.chance.choices(self.kinds, self.weights)[0](here)

    def destination(self, count=1, odd=0.04):
        """The number of a register, or of the first of a group; now and then of any register."""
        while True:
            number = self.chance.randrange(32) if self.chance.random() < odd else self.chance.choice(DATA_REGISTERS)
            number -= number % {1: 1, 2: 2}.get(count, 4)
            if count == 1 or number != SPARE or self.chance.random() < 0.1:
                return number

    def source_register(self, count=1):
        likely = [*DATA_REGISTERS, *FRAME_REGISTERS, 12, SPARE]
        number = self.chance.choice(likely) if self.chance.random() < 0.97 else self.chance.randrange(32)
        return number - number % {1: 1, 2: 2}.get(count, 4)

    def source(self, count=1):
        kind = self.chance.random()
        if kind < 0.25:
            return literal(self.chance.randrange(32))
        if kind < 0.27 and count == 1:
            return special(self.chance.randrange(3))
        return register(self.source_register(count))

    def target(self, count=1, special_share=0.0):
        if count == 1 and self.chance.random() < special_share:
            return special(self.chance.randrange(3))
        return register(self.destination(count))

    def offset(self, limit, size):
        """An offset below the limit, mostly a multiple of the size in bytes."""
        step = 16 if size == 12 else size
        offset = self.chance.randrange(limit)
        return offset - offset % step if self.chance.random() < 0.85 else offset

    def memory_words(self, name, number):
        """An access in the saved frames, by a base, by pfp, sp or fp, or by its address; or in the port or the
        tables."""
        size = table.LOADS.get(name) or table.STORES.get(name) or 4
        word = OPCODES[name] << 24 | number << 19
        based, long, index = 1 << 13, 1 << 12, self.chance.choice(DATA_REGISTERS)
        form = self.chance.choices(range(10), [45, 17, 10, 8, 4, 3, 3, 3, 4, 3])[0]
        if form < 5:
            bases = [(BASE, 0, 0x140), (BASE, 0x800, 0x20), (31, 0, 0x60), (0, 0, 0x40), (1, 0, 0x20)]
            base, start, limit = bases[form]
            return [word | base << 14 | based | start + self.offset(limit, size)]
        if form == 5:
            return [word | ABSOLUTE, self.chance.choice(PORT_PLACES)]
        if form == 6:
            return [word | long | 0xE << 10 | index, self.data + self.offset(0x100, size)]
        if form == 7:
            return [word | ABSOLUTE, self.chance.choice(TABLE_PLACES)]
        if form == 8:
            indexed = long | 0xF << 10 | BASE << 14 | self.chance.randrange(3) << 7 | index
            return [word | indexed, self.offset(0x80, size)]
        return [word | long | 0xD << 10 | BASE << 14, self.chance.choice([0, 0x1000]) + self.offset(0x100, size)]

    def load(self, _):
        name = self.chance.choice(list(table.LOADS))
        return self.memory_words(name, self.destination(table.registers_moved(table.LOADS[name])))

    def store(self, _):
        name = self.chance.choice(list(table.STORES))
        return self.memory_words(name, self.source_register(table.registers_moved(table.STORES[name])))

    def atomic(self, _):
        name = self.chance.choice(table.ATOMICS)
        place = self.chance.choice([*POINTERS, BASE, *POINTERS, BASE, self.chance.choice(DATA_REGISTERS)])
        third = self.target(special_share=0.05 if name == "atadd" else 0)
        return [register_word(name, register(place), self.source(), third)]

    def keeping(self, _):
        """A name that keeps marks; a destination that is read cannot be a special function register."""
        name = self.chance.choice(KEEPING)
        row = table.REGISTER_FORMAT[NUMBERS[name]]
        third = self.target(row.third, 0 if row.reads_third else 0.03)
        return [register_word(name, self.source(), self.source() if row.second else None, third)]

    def move(self, _):
        name = self.chance.choice([*table.MOVES, "mov"])
        count = table.GROUPS.get(name, (1,))[0]
        return [register_word(name, self.source(count), None, self.target(count, 0.03))]

    def address(self, _):
        return self.memory_words("lda", self.destination(odd=0.02))

    def deciding(self, _):
        """A name that may not have a marked source. Masks of AC and TC are small, so that runs are not all alike."""
        name = self.chance.choice(DECIDING)
        row = table.REGISTER_FORMAT[NUMBERS[name]]
        first = self.source() if self.chance.random() < 0.5 else literal(self.chance.randrange(32))
        second = self.source(row.second or 1) if self.chance.random() < 0.5 else literal(self.chance.randrange(32))
        if name == "modtc":
            first = literal(0)
        if name == "modac":
            first = literal(self.chance.choice([0, 7]))
        third = register(self.destination(row.third)) if row.third else None
        return [register_word(name, first, second if row.second else None, third)]

    def test(self, _):
        return [self.chance.choice(list(table.TESTS)) << 24 | self.destination() << 19]

    def conditional(self, _):
        """A conditional branch, a few words forward."""
        return [self.chance.choice(CONDITIONAL) << 24 | self.chance.choice([4, 8, 12])]

    def compare_branch(self, _):
        """A few words forward."""
        word = self.chance.choice(list(table.COMPARE_BRANCHES)) << 24 | self.chance.choice([4, 8, 12])
        if self.chance.random() < 0.5:
            word |= 1 << 13 | self.chance.randrange(32) << 19
        else:
            word |= self.source_register() << 19
        return [word | self.source_register() << 14]

    def call(self, here):
        kind, target = self.chance.random(), self.chance.choice(self.procedures)
        if kind < 0.55:
            return [call_word(target, here)]
        if kind < 0.7:
            return absolute_words("callx", 0, target)
        number = literal(self.chance.choice([1, 2, 3, 1, 2, 3, 31])) if kind < 0.95 else self.source()
        return [register_word("calls", number)]

    def flush(self, _):
        return [register_word("flushreg")]

    def sync(self, _):
        return [register_word("syncf")]

    def control(self, _):
        message = register(self.chance.choice([MESSAGE, MESSAGE, NEW_PRCB, *range(8, 12)]))
        if self.chance.random() < 0.1:
            message = literal(self.chance.randrange(32))
        second, third = self.chance.choice([SPARE, 24, 20]), self.chance.choice([NEW_PRCB, NEW_PRCB, NEW_PRCB, 24, 20])
        return [register_word("sysctl", message, register(second), register(third))]

    def process(self, _):
        mask = register(SPARE if self.chance.random() < 0.7 else self.source_register())
        if self.chance.random() < 0.6:
            mask = literal(self.chance.choice([0, 0, 2, 1, 3]))
        return [register_word("modpc", register(self.source_register()), mask, register(self.destination()))]

    def channel(self, _):
        number = control = None
        if self.chance.random() < 0.9:
            number = literal(self.chance.choice([0, 1, 2, 3, 3, 4]))
        if self.chance.random() < 0.9:
            control = literal(self.chance.choice([0, 1, 2, 3, 16, 17, 6, 10]))
        first = register(self.chance.choice([4, 8, 20, 16]))
        return [register_word("sdma", number or self.source(), control or self.source(), first)]

    def special_move(self, _):
        """A special function register that is read; masks of interrupts, and channels that go on."""
        if self.chance.random() < 0.6:
            return [register_word("mov", special(self.chance.choice([0, 0, 1, 2])), None, register(self.destination()))]
        value, number = literal(self.chance.choice([1, 3, 15])), special(self.chance.choice([1, 2, 2]))
        return [register_word("mov", value, None, number)]

    def give_back(self, _):
        return [RETURN]

    def any_word(self, _):
        return [self.chance.getrandbits(32)]

    def odd_word(self, _):
        """A word whose opcode is one, and what else it says anything."""
        return [self.chance.choice(OPERATIONS) << 24 | self.chance.getrandbits(24)]

    def signed(self, _):
        """Numbers at the limits of their range: overflows, and divisions with either sign and by 0."""
        first, second, third = (self.destination() for _ in range(3))
        values = load_address(first, self.chance.choice(EXTREMES)) + load_address(second, self.chance.choice(EXTREMES))
        name = self.chance.choice(SIGNED)
        return [*values, register_word(name, register(first), register(second), register(third))]

    def marker(self, _):
        return [register_word(self.chance.choice(MARKERS))]

    def extended_branch(self, here):
        """A few words forward, by an absolute address or by a displacement from the instruction address."""
        forward = 4 * self.chance.randrange(3)
        if self.chance.random() < 0.5:
            return absolute_words("bx", 0, here + 8 + forward)
        return [OPCODES["bx"] << 24 | 1 << 12 | words.IP_MODE << 10, forward]

    def link(self, _):
        """`bal` past the next word."""
        return [0x0B000008]

    def fault(self, _):
        return [self.chance.randrange(0x18, 0x20) << 24]

    def extended_link(self, here):
        return absolute_words("balx", self.destination(), here + 8)
