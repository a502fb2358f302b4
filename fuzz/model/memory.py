"""Bytes, the byte order of regions, the port page, and which bytes are soft (User's Manual: memory organisation, bus
controller).

The port page is this simulator's own: stores there reach the console, or end the run. Soft bytes are too: the User's
Manual tells firmware to flush the registers before it looks at a saved frame, and leaves open what it finds else.

A byte is soft where what stands there came last from a frame that was saved, or from a marked register. The program may
not lean on it, since a frame can still be in a register set. Nothing here asks whether an access is allowed but
`check_read`; frames.py has the rule for writes.
"""
from model.numbers import WORD, wrap

PORT_FIRST, PORT_LAST = 0xE0000000, 0xE0000FFF
CONSOLE, EXIT = 0xE0000000, 0xE0000004
# The bit of a region's word that turns its byte order.
BIG_ENDIAN = 1 << 22


class Hazard(Exception):
    """The run leans on what a frame that is not in memory may change; `address` tells where. Nothing is done then."""

    def __init__(self, address):
        super().__init__("%08X" % address)
        self.address = address


def is_port(address):
    return PORT_FIRST <= address <= PORT_LAST


def span(address, size):
    """The addresses of so many bytes; addresses wrap at 2^32."""
    return [address + place & WORD for place in range(size)]


class Memory:
    """Three things of each address: the byte that the program sees, whether it is soft, and the raw byte, which stands
    in memory while the youngest frames are in register sets. What was changed since `begin` can be undone."""

    def __init__(self, image):
        self.seen = {address: byte for address, byte in image.items() if not is_port(address)}
        self.raw = dict(self.seen)
        self.soft = set()
        self.regions = [0] * 16
        self.port_writes = {}
        self.changed = []

    def begin(self):
        self.changed = []
        self.port_writes = {}

    def undo(self):
        for address, seen, raw, is_soft in reversed(self.changed):
            self.seen[address], self.raw[address] = seen, raw
            self.set_soft(address, is_soft)
        self.begin()

    def note(self, address):
        """Keeps what stands at an address, before it is changed."""
        self.changed.append((address, self.seen.get(address, 0), self.raw.get(address, 0), address in self.soft))

    def set_soft(self, address, is_soft):
        if is_soft:
            self.soft.add(address)
        else:
            self.soft.discard(address)

    def order(self, address):
        """The byte order of the region of an address, which its top four bits tell."""
        return "big" if self.regions[wrap(address) >> 28] & BIG_ENDIAN else "little"

    def byte(self, address):
        """The byte that stands there, soft or not; 0 in the port page and where nothing was loaded."""
        address = wrap(address)
        return 0 if is_port(address) else self.seen.get(address, 0)

    def value(self, address, size):
        """A number of so many bytes, in the order of the region of its first byte."""
        return int.from_bytes([self.byte(place) for place in span(address, size)], self.order(address))

    def word(self, address):
        return self.value(address, 4)

    def words(self, address, count):
        return [self.word(address + 4 * place) for place in range(count)]

    def loaded(self, address, size):
        """The number as a load finds it, which reads a soft byte as 0."""
        found = [0 if place in self.soft else self.byte(place) for place in span(address, size)]
        return int.from_bytes(found, self.order(address))

    def is_stale(self, address, size):
        return any(place in self.soft for place in span(address, size))

    def check_read(self, address, size):
        """A fetch, or a read of a table, a record or a unit of DMA: no byte of it may be soft."""
        for place in span(address, size):
            if place in self.soft:
                raise Hazard(place)

    def encoded(self, address, size, value):
        return (value & (1 << 8 * size) - 1).to_bytes(size, self.order(address))

    def write(self, address, content, marked=False):
        """Writes bytes, upwards; they are soft where their value is marked. The port page keeps none."""
        for place, byte in zip(span(address, len(content)), content):
            if is_port(place):
                self.port_writes[place] = byte
                continue
            self.note(place)
            self.seen[place] = self.raw[place] = byte
            self.set_soft(place, marked)

    def write_word(self, address, value, marked=False):
        self.write(address, self.encoded(address, 4, value), marked)

    def save(self, address, words):
        """The words of a frame that is saved: the program sees them, as soft bytes, and raw memory waits."""
        for place, word in enumerate(words):
            start = wrap(address + 4 * place)
            for target, byte in zip(span(start, 4), self.encoded(start, 4, word)):
                self.note(target)
                self.seen[target] = byte
                self.soft.add(target)

    def spill(self, address, words):
        """The words of a frame that leaves its register set: raw memory gets them."""
        for place, word in enumerate(words):
            start = wrap(address + 4 * place)
            for target, byte in zip(span(start, 4), self.encoded(start, 4, word)):
                self.note(target)
                self.raw[target] = byte

    def harden(self, address, size):
        """Bytes on which the program may lean from now on."""
        for place in span(address, size):
            self.note(place)
            self.soft.discard(place)
