"""What the words of an instruction say (User's Manual: instruction formats, addressing modes)."""
import dataclasses

from model import table
from model.numbers import sign_extended, wrap

INVALID_OPCODE, INVALID_OPERAND = 1, 4
# The special function registers sf0, sf1 and sf2.
SPECIAL_REGISTERS = 3
REGISTER, LITERAL, SPECIAL = "register", "literal", "special"
# Fields of a word, each by its lowest bit and its size.
FIRST, SECOND, THIRD = (0, 5), (14, 5), (19, 5)
EXTENSION, OFFSET = (7, 4), (0, 12)
MEMORY_IS_LONG, MEMORY_HAS_BASE, MEMORY_MODE, MEMORY_SCALE = (12, 1), (13, 1), (10, 4), (7, 3)
COMPARE_FIRST_IS_LITERAL, COMPARE_SECOND_IS_SPECIAL = (13, 1), (0, 1)
FIRST_IS_LITERAL, SECOND_IS_LITERAL = (11, 1), (12, 1)
FIRST_IS_SPECIAL, SECOND_IS_SPECIAL, THIRD_IS_SPECIAL = (5, 1), (6, 1), (13, 1)
# Displacements in bytes: their low two bits are zeros.
CONTROL_DISPLACEMENT, COMPARE_DISPLACEMENT = 0xFFFFFC, 0x1FFC
CONTROL_BITS, COMPARE_BITS = 24, 13
# Modes of the long memory format: whether they have a base, an index and a second word.
IP_MODE, RESERVED_MODE = 0x5, 0x6
MODES = {
    0x4: (True, False, False), 0x7: (True, True, False), 0xC: (False, False, True), 0xD: (True, False, True),
    0xE: (False, True, True), 0xF: (True, True, True),
}  # fmt: skip
GREATEST_SCALE = 4


class Refused(Exception):
    """A word that is no instruction; `subtype` is that of the operation fault which it raises."""

    def __init__(self, subtype):
        super().__init__(subtype)
        self.subtype = subtype


@dataclasses.dataclass(frozen=True)
class Operand:
    """A register, the first one of a group of registers, a literal, or a special function register."""

    kind: str
    number: int
    count: int = 1

    @property
    def registers(self):
        """The numbers of its registers; none for a literal and for a special function register."""
        return range(self.number, self.number + self.count) if self.kind == REGISTER else range(0)


@dataclasses.dataclass(frozen=True)
class Address:
    """How an effective address is made: base, index shifted by the scale, and a fixed part."""

    base: int | None = None
    index: int | None = None
    scale: int = 0
    fixed: int = 0

    @property
    def registers(self):
        return [register for register in (self.base, self.index) if register is not None]


@dataclasses.dataclass(frozen=True)
class Instruction:
    """An instruction at its place; `row` is there for the register format alone, `target` for branches."""

    name: str
    place: int
    words: int = 1
    first: Operand | None = None
    second: Operand | None = None
    third: Operand | None = None
    row: table.Row | None = None
    condition: int = 0
    target: int = 0
    address: Address | None = None

    @property
    def following(self):
        """The address of the next instruction in memory."""
        return wrap(self.place + 4 * self.words)

    @property
    def operands(self):
        return [operand for operand in (self.first, self.second, self.third) if operand]


def field(word, place):
    """A field of a word, by its lowest bit and its size."""
    low, size = place
    return word >> low & (1 << size) - 1


def register_group(number, count):
    """Two registers begin at an even number, three and four at a multiple of 4."""
    step = {1: 1, 2: 2}.get(count, 4)
    if number % step:
        raise Refused(INVALID_OPERAND)
    return Operand(REGISTER, number, count)


def special_register(number, count):
    if number >= SPECIAL_REGISTERS or count > 1:
        raise Refused(INVALID_OPERAND)
    return Operand(SPECIAL, number)


def decode(first, second, place):
    """The instruction of the word at `place`, behind which the second one stands. Raises `Refused`."""
    opcode = first >> 24
    if opcode in table.CONTROL:
        return control(first, place)
    if opcode in table.TESTS:
        if field(first, COMPARE_FIRST_IS_LITERAL):
            raise Refused(INVALID_OPERAND)
        third = Operand(REGISTER, field(first, THIRD))
        return Instruction(table.TESTS[opcode], place, third=third, condition=opcode & 7)
    if opcode in table.COMPARE_BRANCHES:
        return compare_branch(first, place)
    if opcode in table.MEMORY:
        return memory(first, second, place)
    return register(first, place)


def control(word, place):
    """The control format: a displacement of 24 bits, from the instruction's own address."""
    target = wrap(place + sign_extended(word & CONTROL_DISPLACEMENT, CONTROL_BITS))
    return Instruction(table.CONTROL[word >> 24], place, condition=word >> 24 & 7, target=target)


def compare_branch(word, place):
    """The compare-and-branch format: a displacement of 13 bits."""
    is_literal, is_special = field(word, COMPARE_FIRST_IS_LITERAL), field(word, COMPARE_SECOND_IS_SPECIAL)
    first = Operand(LITERAL if is_literal else REGISTER, field(word, THIRD))
    number = field(word, SECOND)
    second = special_register(number, 1) if is_special else Operand(REGISTER, number)
    target = wrap(place + sign_extended(word & COMPARE_DISPLACEMENT, COMPARE_BITS))
    name = table.COMPARE_BRANCHES[word >> 24]
    return Instruction(name, place, first=first, second=second, condition=word >> 24 & 7, target=target)


def memory(first, second, place):
    """The memory formats, short and long. `bx` and `callx` do not use the field of the register."""
    address, words = effective_address(first, second, place)
    name = table.MEMORY[first >> 24]
    third = None
    if name not in ("bx", "callx"):
        count = table.registers_moved(table.LOADS.get(name) or table.STORES.get(name) or 4)
        third = register_group(field(first, THIRD), count)
    return Instruction(name, place, words, third=third, address=address)


def effective_address(first, second, place):
    """The address of a memory format, and how many words the instruction has."""
    base = field(first, SECOND)
    if not field(first, MEMORY_IS_LONG):
        has_base = field(first, MEMORY_HAS_BASE)
        return Address(base if has_base else None, fixed=field(first, OFFSET)), 1
    mode, scale = field(first, MEMORY_MODE), field(first, MEMORY_SCALE)
    if mode == RESERVED_MODE:
        raise Refused(INVALID_OPCODE)
    if mode == IP_MODE:
        return Address(fixed=wrap(place + 8 + second)), 2
    has_base, has_index, has_second = MODES[mode]
    if has_index and scale > GREATEST_SCALE:
        raise Refused(INVALID_OPERAND)
    address = Address(
        base if has_base else None,
        field(first, FIRST) if has_index else None,
        scale,
        second if has_second else 0,
    )
    return address, 1 + has_second


def register(word, place):
    """The register format."""
    row = table.REGISTER_FORMAT.get(word >> 24 << 4 | field(word, EXTENSION))
    if row is None:
        raise Refused(INVALID_OPCODE)
    first = source(word, FIRST, FIRST_IS_LITERAL, FIRST_IS_SPECIAL, row.first)
    second = source(word, SECOND, SECOND_IS_LITERAL, SECOND_IS_SPECIAL, row.second)
    third = None
    if row.third:
        number, is_special = field(word, THIRD), field(word, THIRD_IS_SPECIAL)
        if is_special and (row.reads_third or not row.writes_third):
            raise Refused(INVALID_OPERAND)
        third = special_register(number, row.third) if is_special else register_group(number, row.third)
    return Instruction(row.name, place, first=first, second=second, third=third, row=row)


def source(word, place, literal_bit, special_bit, count):
    """A source of so many registers, by its field and its two mode bits; None where the instruction has none."""
    if not count:
        return None
    is_literal, is_special, number = field(word, literal_bit), field(word, special_bit), field(word, place)
    if is_literal and is_special:
        raise Refused(INVALID_OPERAND)
    if is_literal:
        return Operand(LITERAL, number, count)
    return special_register(number, count) if is_special else register_group(number, count)
