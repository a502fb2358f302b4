"""What each name of the register format computes (User's Manual: instruction set reference).

`first` and `second` are the two sources, `old` the register of the destination as it was, `code` the condition code.
Results are kept modulo 2^32.
"""
import dataclasses

from model import marks, table
from model.numbers import WORD, fits_signed, signed, wrap
from model.state import OVERFLOW_FLAG

LESS, EQUAL, GREATER = 4, 2, 1
DIVIDING = ("divo", "remo", "divi", "remi", "modi", "ediv")


@dataclasses.dataclass
class Sources:
    """Words; `pair` has 64 bits: the second source with the register behind it as the upper half."""

    first: int
    second: int = 0
    old: int = 0
    code: int = 0
    pair: int = 0

    @property
    def bit(self):
        """The word with the one bit that the first source numbers, modulo 32."""
        return 1 << (self.first & 31)


@dataclasses.dataclass
class Outcome:
    """The words of the destination, or None; the condition code, or None where it stays; whether there was an
    overflow."""

    words: list | None = None
    code: int | None = None
    overflow: bool = False


def inverted(word):
    return wrap(~word)


def compared(first, second):
    """The condition code of a comparison: the first number is less, equal or greater."""
    return LESS if first < second else EQUAL if first == second else GREATER


def shifted_left(word, count):
    return word << count if count < 32 else 0


def shifted_right(word, count):
    return word >> count if count < 32 else 0


def divided(dividend, divisor):
    """The quotient towards zero, and the remainder, which has the sign of the dividend."""
    quotient = abs(dividend) // abs(divisor)
    if (dividend < 0) != (divisor < 0):
        quotient = -quotient
    return quotient, dividend - quotient * divisor


def modulo(dividend, divisor):
    """The remainder with the sign of the divisor."""
    remainder = divided(dividend, divisor)[1]
    return remainder + divisor if remainder and (remainder < 0) != (divisor < 0) else remainder


def divided_by_power(number, count):
    """Towards zero, as the arithmetic shift right for division has it; 0 from 32 places on."""
    if count >= 32:
        return 0
    return -(-number >> count) if number < 0 else number >> count


def rotated(word, count):
    return word << count | word >> (32 - count)


def extracted(word, start, size):
    """So many bits from a place on; all that are left where the size is 32 or more."""
    found = shifted_right(word, start)
    return found & (1 << size) - 1 if size < 32 else found


# Names with a plain result, which leave the condition code.
PLAIN = {
    "and": lambda given: given.second & given.first,
    "or": lambda given: given.second | given.first,
    "xor": lambda given: given.second ^ given.first,
    "nor": lambda given: inverted(given.second | given.first),
    "xnor": lambda given: inverted(given.second ^ given.first),
    "nand": lambda given: inverted(given.second & given.first),
    "andnot": lambda given: given.second & inverted(given.first),
    "notand": lambda given: inverted(given.second) & given.first,
    "ornot": lambda given: given.second | inverted(given.first),
    "notor": lambda given: inverted(given.second) | given.first,
    "not": lambda given: inverted(given.first),
    "setbit": lambda given: given.second | given.bit,
    "clrbit": lambda given: given.second & ~given.bit,
    "notbit": lambda given: given.second ^ given.bit,
    "alterbit": lambda given: given.second | given.bit if given.code & EQUAL else given.second & ~given.bit,
    "addo": lambda given: given.second + given.first,
    "subo": lambda given: given.second - given.first,
    "mulo": lambda given: given.second * given.first,
    "divo": lambda given: given.second // given.first,
    "remo": lambda given: given.second % given.first,
    "remi": lambda given: divided(signed(given.second), signed(given.first))[1],
    "modi": lambda given: modulo(signed(given.second), signed(given.first)),
    "shro": lambda given: shifted_right(given.second, given.first),
    "shlo": lambda given: shifted_left(given.second, given.first),
    "shri": lambda given: signed(given.second) >> min(given.first, 31),
    "shrdi": lambda given: divided_by_power(signed(given.second), given.first),
    "rotate": lambda given: rotated(given.second, given.first & 31),
    "modify": lambda given: given.second & given.first | given.old & inverted(given.first),
    "extract": lambda given: extracted(given.old, given.first, given.second),
}
# Names that overflow where the number is no signed word; 64 places take each number but 0 out of range.
EXACT = {
    "addi": lambda given: signed(given.second) + signed(given.first),
    "subi": lambda given: signed(given.second) - signed(given.first),
    "muli": lambda given: signed(given.second) * signed(given.first),
    "divi": lambda given: divided(signed(given.second), signed(given.first))[0],
    "shli": lambda given: signed(given.second) << min(given.first, 64),
}
# Names with a result of two words, the low one first.
PAIRS = {
    "emul": lambda given: [wrap(given.first * given.second), given.first * given.second >> 32],
    "ediv": lambda given: [given.pair % given.first, wrap(given.pair // given.first)],
}


def is_any_byte_equal(first, second):
    return any((first ^ second) >> place & 255 == 0 for place in (0, 8, 16, 24))


def at_most(first, second):
    return EQUAL if first <= second else GREATER


def added(sources, first):
    """`addc` and `subc`: with the carry of the code; the new code has the carry out, and below it signed overflow."""
    carry = sources.code >> 1 & 1
    total = sources.second + first + carry
    overflow = not fits_signed(signed(sources.second) + signed(first) + carry)
    return Outcome([total], (total >> 32) << 1 | overflow)


def highest_bit(word):
    return Outcome([word.bit_length() - 1], EQUAL) if word else Outcome([WORD], 0)


def stepped(sources, step, number=wrap):
    """The comparisons that also count up or down."""
    return Outcome([sources.second + step], compared(number(sources.first), number(sources.second)))


def concluded(sources, number=wrap):
    """The second half of a comparison of ranges: nothing where the first half has found less."""
    return Outcome() if sources.code & LESS else Outcome(code=at_most(number(sources.first), number(sources.second)))


# Names that set the condition code.
CODED = {
    "cmpo": lambda given: Outcome(code=compared(given.first, given.second)),
    "cmpi": lambda given: Outcome(code=compared(signed(given.first), signed(given.second))),
    "cmpinco": lambda given: stepped(given, 1),
    "cmpinci": lambda given: stepped(given, 1, signed),
    "cmpdeco": lambda given: stepped(given, -1),
    "cmpdeci": lambda given: stepped(given, -1, signed),
    "concmpo": concluded,
    "concmpi": lambda given: concluded(given, signed),
    "scanbyte": lambda given: Outcome(code=EQUAL if is_any_byte_equal(given.first, given.second) else 0),
    "chkbit": lambda given: Outcome(code=EQUAL if given.second & given.bit else 0),
    "addc": lambda given: added(given, given.first),
    "subc": lambda given: added(given, inverted(given.first)),
    "scanbit": lambda given: highest_bit(given.first),
    "spanbit": lambda given: highest_bit(inverted(given.first)),
}


def is_computed(name):
    return name in PLAIN or name in EXACT or name in PAIRS or name in CODED


def sources_of(state, instruction):
    first, second, third = instruction.first, instruction.second, instruction.third
    found = Sources(state.read(first), code=state.code)
    if second:
        found.second = state.read(second)
        found.pair = found.second | (state.read(second, 1) << 32 if second.count == 2 else 0)
    if third:
        found.old = state.read(third)
    return found


def outcome(name, sources):
    """The outcome of a name that `is_computed`, and whose division is not by 0."""
    if name in CODED:
        return CODED[name](sources)
    if name in PAIRS:
        return Outcome(PAIRS[name](sources))
    if name in EXACT:
        number = EXACT[name](sources)
        return Outcome([number], overflow=not fits_signed(number))
    return Outcome([PLAIN[name](sources)])


def may_fault(name):
    return name in DIVIDING or name in EXACT


def divides_by_zero(name, sources):
    return name in DIVIDING and sources.first == 0


def move(state, instruction):
    """`mov` and its groups, word by word, each with its mark."""
    places = range(instruction.first.count)
    words = [state.read(instruction.first, place) for place in places]
    state.write(instruction.third, words, [state.marks[number] for number in instruction.first.registers])


def compute(state, instruction):
    """An instruction whose result is computed. An overflow that is masked sets the flag in AC."""
    sources_marked = state.any_marked(marks.source_registers(instruction))
    found = outcome(instruction.name, sources_of(state, instruction))
    if found.overflow:
        state.ac |= OVERFLOW_FLAG
    if found.words is not None:
        marked = sources_marked and instruction.name in table.KEEPING_MARKS
        state.write(instruction.third, [wrap(word) for word in found.words], [marked] * len(found.words))
    if found.code is not None:
        state.set_code(found.code)
