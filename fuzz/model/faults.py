"""Faults: which one an instruction raises before it does anything, and how a fault is entered (User's Manual:
faults)."""
import dataclasses

from model import calls, frames, results, table, transfers
from model.numbers import instruction_address, wrap
from model.state import OVERFLOW_MASK, SUPERVISOR, TRACE_ENABLE, TRACE_PENDING
from model.words import SPECIAL

TRACE, OPERATION, ARITHMETIC, CONSTRAINT, PROTECTION, TYPE = 1, 2, 3, 5, 7, 10
UNALIGNED, INVALID_OPERAND = 3, 4
OVERFLOW, ZERO_DIVIDE = 1, 2
RANGE, LENGTH, MISMATCH = 1, 2, 1
CHANNELS = 4
GREATEST_GROUP = 6
# In the fault configuration: unaligned accesses raise no fault.
UNALIGNED_MASKED = 1 << 30
# The low two bits of an entry of the fault table, and the second word of a system entry.
LOCAL_ENTRY, SYSTEM_ENTRY, SYSTEM_WORD = 0, 2, 0x27F
BAD_ENTRY, BAD_SYSTEM_WORD, BAD_PROCEDURE = 1, 2, 3


class Dead(Exception):
    """A fault that cannot be entered; `code` tells why, and `address` which word of the fault table says so."""

    def __init__(self, code, address):
        super().__init__("%d %08X" % (code, address))
        self.code, self.address = code, address


@dataclasses.dataclass(frozen=True)
class Fault:
    """`place` is the address of the instruction that raised it."""

    kind: int
    subtype: int
    place: int


def raised(state, instruction):
    """The first fault of an instruction that is decoded, or None: mismatch, invalid operand, length, unaligned,
    arithmetic or range, in this order."""
    for rule in (mismatch, invalid_operand, length, unaligned, arithmetic, constraint):
        found = rule(state, instruction)
        if found:
            return Fault(*found, instruction.place)
    return None


def mismatch(state, instruction):
    """What user mode may not do: `sysctl`, `sdma`, special function registers, `modpc` with a mask other than 0."""
    if state.is_supervisor:
        return None
    is_refused = instruction.name in ("sysctl", "sdma") or any(o.kind == SPECIAL for o in instruction.operands)
    if instruction.name == "modpc":
        is_refused = is_refused or state.read(instruction.second) != 0
    return (TYPE, MISMATCH) if is_refused else None


def invalid_operand(state, instruction):
    """A message or a group of `sysctl`, or a channel of `sdma`, that does not exist."""
    is_bad = False
    if instruction.name == "sysctl":
        message, operand = table.message_of(state.read(instruction.first))
        is_bad = message > table.LOAD_GROUP
        is_bad = is_bad or (message == table.LOAD_GROUP and operand > GREATEST_GROUP)
    elif instruction.name == "sdma":
        is_bad = state.read(instruction.first) >= CHANNELS
    return (OPERATION, INVALID_OPERAND) if is_bad else None


def length(state, instruction):
    """A number of `calls` behind the end of the table."""
    if instruction.name == "calls" and state.read(instruction.first) > calls.GREATEST_PROCEDURE:
        return PROTECTION, LENGTH
    return None


def unaligned(state, instruction):
    """A load or store that is not at a multiple of its size, where 12 bytes count as 16. Atomics clear the low bits."""
    size = table.LOADS.get(instruction.name) or table.STORES.get(instruction.name)
    if not size or state.tables.fault_configuration & UNALIGNED_MASKED:
        return None
    size = 16 if size == 12 else size
    return (OPERATION, UNALIGNED) if transfers.accessed(state, instruction) % size else None


def arithmetic(state, instruction):
    """A division by 0; an overflow that AC does not mask."""
    if not results.may_fault(instruction.name):
        return None
    sources = results.sources_of(state, instruction)
    if results.divides_by_zero(instruction.name, sources):
        return ARITHMETIC, ZERO_DIVIDE
    if results.outcome(instruction.name, sources).overflow and not state.ac & OVERFLOW_MASK:
        return ARITHMETIC, OVERFLOW
    return None


def constraint(state, instruction):
    """A fault instruction whose condition holds."""
    if instruction.name.startswith("fault") and state.holds(instruction.condition):
        return CONSTRAINT, RANGE
    return None


def handler_of(state, fault):
    """The handler of a fault, and the word of the supervisor's stack, or None where the stack stays. Raises `Dead`."""
    entry_at = wrap(state.tables.faults + 8 * fault.kind)
    second_at = wrap(entry_at + 4)
    state.memory.check_read(entry_at, 4)
    entry = state.memory.word(entry_at)
    state.memory.check_read(second_at, 4)
    if entry & 3 == LOCAL_ENTRY:
        return entry, None
    if entry & 3 != SYSTEM_ENTRY:
        raise Dead(BAD_ENTRY, entry_at)
    if state.memory.word(second_at) != SYSTEM_WORD:
        raise Dead(BAD_SYSTEM_WORD, second_at)
    if entry >> 2 > calls.GREATEST_PROCEDURE:
        raise Dead(BAD_PROCEDURE, entry_at)
    return calls.read_procedure(state, entry >> 2)


def enter(state, fault):
    """Enters the handler, behind a record of PC, AC, the type and the address of the instruction. Tracing goes off."""
    handler, stack = handler_of(state, fault)
    record = [state.pc, state.ac, fault.kind << 16 | fault.subtype, fault.place]
    frames.push(state, state.ip, None if stack is None else stack & ~3, calls.FAULT_RETURN, state.ip, record)
    if stack is not None:
        state.pc |= SUPERVISOR
    state.pc &= ~(TRACE_ENABLE | TRACE_PENDING)
    state.ip = instruction_address(handler)
