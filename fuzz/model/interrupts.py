"""Interrupts: what is posted, which one is chosen, how it is entered (User's Manual: interrupts, interrupt controller).

Pins and DMA channels have a vector each in dedicated mode: a field of four bits, times 16, plus 2. The priority of a
vector is an eighth of it. A request of software has two bits in the interrupt table: that of its priority and its own.
"""
import dataclasses

from model import frames
from model.calls import INTERRUPT_RETURN
from model.numbers import bits_of, instruction_address, wrap
from model.state import INTERRUPTED, SUPERVISOR

# Pins 0 to 7, and behind them the four DMA channels.
SOURCES = 12
LEAST_VECTOR, VECTORS, NMI_VECTOR, GREATEST_PRIORITY = 8, 256, 248, 31
# Places in the interrupt table, and the bytes of its bits.
PENDING, HANDLERS, BITS = 4, 4, 36
LINE, SOFTWARE, NMI = "line", "software", "nmi"


@dataclasses.dataclass(frozen=True)
class Interrupt:
    """`source` is the bit of sf0 for a line, a pin or a channel."""

    kind: str
    vector: int
    source: int = 0

    @property
    def priority(self):
        return self.vector // 8

    @property
    def rank(self):
        """Greater priorities come first, then lines, then greater vectors, then lower bits of sf0."""
        return self.priority, self.kind == LINE, self.vector, -self.source


def post_low(state, pin):
    """A pin goes low: where a falling edge is looked for, this posts its interrupt, and else its level asks."""
    if state.is_edge(pin) and pin not in state.low_pins:
        state.posted |= 1 << pin
    state.low_pins = tuple(sorted({*state.low_pins, pin}))


def go_high(state, pin):
    state.low_pins = tuple(low for low in state.low_pins if low != pin)


def post(state, source):
    state.posted |= 1 << source


def lines(state):
    """The lines that ask and are not masked, as far as they have a vector."""
    for source in bits_of(state.pending() & state.interrupt_mask, SOURCES):
        field = state.vectors[source // 4] >> 4 * (source % 4) & 15
        vector = 16 * field + 2
        if vector >= LEAST_VECTOR:
            yield Interrupt(LINE, vector, source)


def software_bits(state, vector):
    """The addresses of the bytes of a request, each with its bit: that of the priority, and that of the vector."""
    table, priority = state.tables.interrupts, vector // 8
    own = wrap(table + PENDING + vector // 8)
    return (wrap(table + priority // 8), 1 << priority % 8), (own, 1 << vector % 8)


def requests(state):
    """The requests of software: both bits are set."""
    for vector in range(LEAST_VECTOR, VECTORS):
        if all(state.memory.byte(place) & bit for place, bit in software_bits(state, vector)):
            yield Interrupt(SOFTWARE, vector)


def choose(state):
    """The interrupt that comes before the next instruction, or None. The requests of software count only where they are
    to be looked at, which reads all their bits. The one that is never masked comes first."""
    looks, state.software_check = state.software_check, False
    if looks:
        state.memory.check_read(state.tables.interrupts, BITS)
    if state.nmi:
        return Interrupt(NMI, NMI_VECTOR)
    asking = [*lines(state), *(requests(state) if looks else [])]
    passing = [one for one in asking if one.priority > state.priority or one.priority == GREATEST_PRIORITY]
    return max(passing, key=lambda one: one.rank, default=None)


def request(state, vector):
    """`sysctl` with message 0: sets both bits of a vector; one below 8 sets none, and yet the requests are looked
    at."""
    state.software_check = True
    if vector < LEAST_VECTOR:
        return
    bits = software_bits(state, vector)
    for place, _ in bits:
        state.memory.check_read(place, 1)
    for place, _ in bits:
        frames.check_write(state, place, 1, into_port=False)
    for place, bit in bits:
        state.memory.write(place, [state.memory.byte(place) | bit])


def clear_request(state, vector):
    """The bit of the vector is cleared, and that of the priority where no other vector of it asks."""
    (priority_at, priority_bit), (own_at, own_bit) = software_bits(state, vector)
    state.memory.check_read(priority_at, 1)
    state.memory.check_read(own_at, 1)
    left = state.memory.byte(own_at) & ~own_bit
    if not left:
        frames.check_write(state, priority_at, 1, into_port=False)
    frames.check_write(state, own_at, 1, into_port=False)
    if not left:
        state.memory.write(priority_at, [state.memory.byte(priority_at) & ~priority_bit])
    state.memory.write(own_at, [left])


def enter(state, interrupt):
    """Enters the handler on the interrupt stack, or on the stack that stands where one is being handled already, behind
    a record of PC, AC and the vector. What chose it is cleared, but for the level of a pin."""
    handler_at = wrap(state.tables.interrupts + HANDLERS + 4 * interrupt.vector)
    state.memory.check_read(handler_at, 4)
    handler = state.memory.word(handler_at)
    base = None if state.pc & INTERRUPTED else state.tables.interrupt_stack
    frames.push(state, state.ip, base, INTERRUPT_RETURN, state.ip, [state.pc, state.ac, interrupt.vector, 0])
    if interrupt.kind == SOFTWARE:
        clear_request(state, interrupt.vector)
    elif interrupt.kind == LINE:
        state.posted &= ~(1 << interrupt.source)
    else:
        state.nmi = False
    state.pc = interrupt.priority << 16 | INTERRUPTED | SUPERVISOR
    state.ip = instruction_address(handler)
