"""Words of 32 bits, and what of them is signed or aligned."""

WORD = 0xFFFFFFFF


def wrap(number):
    """The number modulo 2^32, as registers, addresses and counters keep it."""
    return number & WORD


def signed(word):
    """The number that a word is in two's complement."""
    return word - (1 << 32) if word >> 31 else word


def fits_signed(number):
    return -(1 << 31) <= number < 1 << 31


def sign_extended(value, bits):
    """The number of so many low bits in two's complement."""
    return value - (1 << bits) if value >> (bits - 1) & 1 else value


def instruction_address(word):
    """Where an instruction stands to which this word leads: its low two bits do not count."""
    return word & ~3


def rounded_up(address):
    """The next multiple of 16, where frames begin."""
    return wrap(address + 15 & ~15)


def masked(old, mask, new):
    """The old word, with the bits under the mask taken from the new one."""
    return new & mask | old & ~mask


def bits_of(word, count):
    """The numbers of the bits that are set among the lowest ones."""
    return [bit for bit in range(count) if word >> bit & 1]
