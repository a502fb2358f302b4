"""The names of instructions and their numbers (User's Manual: instruction formats, instruction set reference).

A number of the register format is the opcode and the extension, as three hexadecimal digits; one of the other formats
is the opcode.
"""
import dataclasses

ENDINGS = ("no", "g", "e", "ge", "l", "ne", "le", "o")

FIRST_SECOND_DESTINATION = {
    "notbit": 0x580, "and": 0x581, "andnot": 0x582, "setbit": 0x583, "notand": 0x584, "xor": 0x586, "or": 0x587,
    "nor": 0x588, "xnor": 0x589, "ornot": 0x58B, "clrbit": 0x58C, "notor": 0x58D, "nand": 0x58E, "alterbit": 0x58F,
    "addo": 0x590, "addi": 0x591, "subo": 0x592, "subi": 0x593, "shro": 0x598, "shrdi": 0x59A, "shri": 0x59B,
    "shlo": 0x59C, "rotate": 0x59D, "shli": 0x59E, "cmpinco": 0x5A4, "cmpinci": 0x5A5, "cmpdeco": 0x5A6,
    "cmpdeci": 0x5A7, "addc": 0x5B0, "subc": 0x5B2, "atadd": 0x612, "modac": 0x645, "modtc": 0x654, "emul": 0x670,
    "ediv": 0x671, "mulo": 0x701, "remo": 0x708, "divo": 0x70B, "muli": 0x741, "remi": 0x748, "modi": 0x749,
    "divi": 0x74B,
}  # fmt: skip
FIRST_DESTINATION = {
    "not": 0x58A, "mov": 0x5CC, "movl": 0x5DC, "movt": 0x5EC, "movq": 0x5FC, "spanbit": 0x640, "scanbit": 0x641,
}  # fmt: skip
FIRST_SECOND = {
    "cmpo": 0x5A0, "cmpi": 0x5A1, "concmpo": 0x5A2, "concmpi": 0x5A3, "scanbyte": 0x5AC, "chkbit": 0x5AE,
}  # fmt: skip
FIRST_SECOND_CHANGED = {"atmod": 0x610, "modify": 0x650, "extract": 0x651, "modpc": 0x655}
FIRST_SECOND_THIRD = {"sdma": 0x630, "sysctl": 0x659}
FIRST = {"calls": 0x660}
NO_OPERANDS = {"udma": 0x631, "mark": 0x66B, "fmark": 0x66C, "flushreg": 0x66D, "syncf": 0x66F}

COMPARE_BRANCHES = {
    **{0x30 + code: "cmpob" + ending for code, ending in enumerate(ENDINGS) if code not in (0, 7)},
    **{0x38 + code: "cmpib" + ending for code, ending in enumerate(ENDINGS)},
    0x30: "bbc",
    0x37: "bbs",
}
CONTROL = {
    0x08: "b", 0x09: "call", 0x0A: "ret", 0x0B: "bal",
    **{0x10 + code: "b" + ending for code, ending in enumerate(ENDINGS)},
    **{0x18 + code: "fault" + ending for code, ending in enumerate(ENDINGS)},
}  # fmt: skip
TESTS = {0x20 + code: "test" + ending for code, ending in enumerate(ENDINGS)}
MEMORY = {
    0x80: "ldob", 0x82: "stob", 0x84: "bx", 0x85: "balx", 0x86: "callx", 0x88: "ldos", 0x8A: "stos", 0x8C: "lda",
    0x90: "ld", 0x92: "st", 0x98: "ldl", 0x9A: "stl", 0xA0: "ldt", 0xA2: "stt", 0xB0: "ldq", 0xB2: "stq", 0xC0: "ldib",
    0xC2: "stib", 0xC8: "ldis", 0xCA: "stis",
}  # fmt: skip

# Bytes that are moved.
LOADS = {"ldob": 1, "ldib": 1, "ldos": 2, "ldis": 2, "ld": 4, "ldl": 8, "ldt": 12, "ldq": 16}
STORES = {"stob": 1, "stib": 1, "stos": 2, "stis": 2, "st": 4, "stl": 8, "stt": 12, "stq": 16}
SIGNED_LOADS = ("ldib", "ldis")
ATOMICS = ("atadd", "atmod")
MOVES = ("mov", "movl", "movt", "movq")
# Registers of the first source, the second one and the destination, where they are more than one each.
GROUPS = {
    "movl": (2, 0, 2), "movt": (3, 0, 3), "movq": (4, 0, 4), "emul": (1, 1, 2), "ediv": (1, 2, 2), "sdma": (1, 1, 3),
}  # fmt: skip
# Results that are marked where a source is; their flags and faults do not depend on what the sources are.
KEEPING_MARKS = frozenset("""
    and andnot notand xor or nor xnor not ornot notor nand setbit clrbit notbit alterbit addo subo mulo emul shro shlo
    shri shrdi rotate modify extract
""".split())


@dataclasses.dataclass(frozen=True)
class Row:
    """What an instruction of the register format does with its three fields, each as a number of registers."""

    name: str
    first: int
    second: int
    third: int
    reads_third: bool
    writes_third: bool


def rows(names, second, third, reads, writes, first=1):
    """The rows of names with these fields, by their numbers."""
    found = {}
    for name, number in names.items():
        sizes = GROUPS.get(name, (first, second, third))
        found[number] = Row(name, *sizes, reads, writes)
    return found


REGISTER_FORMAT = {
    **rows(FIRST_SECOND_DESTINATION, 1, 1, False, True),
    **rows(FIRST_DESTINATION, 0, 1, False, True),
    **rows(FIRST_SECOND, 1, 0, False, False),
    **rows(FIRST_SECOND_CHANGED, 1, 1, True, True),
    **rows(FIRST_SECOND_THIRD, 1, 1, True, False),
    **rows(FIRST, 0, 0, False, False),
    **rows(NO_OPERANDS, 0, 0, False, False, first=0),
}
REGISTER_NAMES = [row.name for row in REGISTER_FORMAT.values()]
# Messages of `sysctl`; 1 and 2 do nothing, and there are no others.
REQUEST, RESTART, LOAD_GROUP = 0, 3, 4


def message_of(word):
    """The message of `sysctl`, in bits 15 to 8, and its operand below: a vector or a group."""
    return word >> 8 & 255, word & 255


def registers_moved(size):
    """How many registers a load or store of so many bytes has."""
    return max(1, size // 4)
