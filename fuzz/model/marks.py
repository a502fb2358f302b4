"""Which uses of marked registers are allowed (docs/BOARDS.md, "Stale values").

A register is marked where its value comes of soft bytes. Marks go with values through moves and logical and ordinal
results. Where a value would decide something, as an address, a comparison, a flag, a fault or a control, an instruction
with a marked source is a hazard at its own address, before any fault but those of its word.
"""
from model import table
from model.memory import is_port, span
from model.numbers import instruction_address
from model.state import FP, PFP
from model.table import RESTART, message_of
from model.words import SPECIAL

# Return types that read PC and AC in front of the frame: of a fault, and of an interrupt.
RECORDED_RETURNS = (1, 7)


def source_registers(instruction):
    """The registers whose values an instruction of the register or the compare format reads."""
    operands = [instruction.first, instruction.second]
    if instruction.row and instruction.row.reads_third:
        operands.append(instruction.third)
    return [number for operand in operands if operand for number in operand.registers]


def is_misused(state, instruction):
    """Whether a marked register decides something in this instruction."""
    name = instruction.name
    if name in SPECIAL_RULES:
        return SPECIAL_RULES[name](state, instruction)
    if name in table.STORES:
        return store_is(state, instruction)
    if instruction.address:
        return state.any_marked(instruction.address.registers)
    marked = state.any_marked(source_registers(instruction))
    if name in table.KEEPING_MARKS or name in table.MOVES:
        return marked and instruction.third.kind == SPECIAL
    return marked


def store_is(state, instruction):
    """A store may have marked data, but for the port page."""
    if state.any_marked(instruction.address.registers):
        return True
    places = span(state.effective_address(instruction.address), table.STORES[instruction.name])
    return state.any_marked(instruction.third.registers) and any(map(is_port, places))


def atomic_is(state, instruction):
    """An atomic instruction may have marked data and a stale word, but for the port page and special registers."""
    if state.any_marked(instruction.first.registers):
        return True
    address = instruction_address(state.read(instruction.first))
    is_tainted = atomic_data_marked(state, instruction) or state.memory.is_stale(address, 4)
    return is_tainted and (is_port(address) or instruction.third.kind == SPECIAL)


def atomic_data_marked(state, instruction):
    data = list(instruction.second.registers)
    if instruction.name == "atmod":
        data += instruction.third.registers
    return state.any_marked(data)


def return_is(state, _):
    """A return uses pfp, and fp where the record in front of the frame is read."""
    return state.marks[PFP] or (state.values[PFP] & 7 in RECORDED_RETURNS and state.marks[FP])


def process_is(state, instruction):
    """`modpc` uses its mask and the new bits, not its first source."""
    return state.any_marked([*instruction.second.registers, *instruction.third.registers])


def control_is(state, instruction):
    """`sysctl` uses its message, and the other two operands for a restart alone."""
    if state.any_marked(instruction.first.registers):
        return True
    is_restart = message_of(state.read(instruction.first))[0] == RESTART
    return is_restart and process_is(state, instruction)


SPECIAL_RULES = {
    "lda": lambda state, instruction: False,
    "atadd": atomic_is,
    "atmod": atomic_is,
    "ret": return_is,
    "modpc": process_is,
    "sysctl": control_is,
}
