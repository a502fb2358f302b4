"""Branches, calls and returns (User's Manual: branching, procedure calls, system procedure table).

Before each of these the instruction address has moved on to the next instruction in memory.
"""
from model import frames, results
from model.numbers import instruction_address, signed, wrap
from model.state import AC_KEPT, FP, G14, PC_KEPT, PFP, RIP, SUPERVISOR, TRACE_ENABLE

GREATEST_PROCEDURE = 259
# Places in the system procedure table.
STACK_WORD, FIRST_ENTRY = 12, 48
SUPERVISOR_ENTRY = 2
LOCAL_RETURN, FAULT_RETURN, SUPERVISOR_RETURN, INTERRUPT_RETURN = 0, 1, 2, 7
SUPERVISOR_RETURNS = (2, 3)


def go(state, address):
    state.ip = instruction_address(address)


def return_type(state):
    return state.values[PFP] & 7


def branch(state, instruction):
    go(state, instruction.target)


def branch_extended(state, instruction):
    go(state, state.effective_address(instruction.address))


def branch_and_link(state, instruction):
    """`bal` keeps the next address in g14."""
    state.set_register(G14, instruction.following)
    go(state, instruction.target)


def branch_and_link_extended(state, instruction):
    """`balx` keeps the next address in its destination; the address is made before."""
    target = state.effective_address(instruction.address)
    state.write(instruction.third, [instruction.following])
    go(state, target)


def branch_if(state, instruction):
    """A conditional branch; answers whether it is taken."""
    taken = state.holds(instruction.condition)
    if taken:
        go(state, instruction.target)
    return taken


def test(state, instruction):
    state.write(instruction.third, [int(state.holds(instruction.condition))])


def compare_and_branch(state, instruction):
    """Compares two numbers, or looks at a bit, sets the condition code, and branches by it."""
    first, second = state.read(instruction.first), state.read(instruction.second)
    if instruction.name in ("bbc", "bbs"):
        is_set = bool(second >> (first & 31) & 1)
        state.set_code(results.EQUAL if is_set else 0)
        taken = is_set == (instruction.name == "bbs")
    else:
        is_signed = instruction.name.startswith("cmpi")
        numbers = (signed(first), signed(second)) if is_signed else (first, second)
        state.set_code(results.compared(*numbers))
        taken = state.holds(instruction.condition)
    if taken:
        go(state, instruction.target)
    return taken


def call(state, instruction):
    """`call` and `callx`; the address of `callx` is made before the frame."""
    target = state.effective_address(instruction.address) if instruction.address else instruction.target
    frames.push(state, instruction.place, None, LOCAL_RETURN, instruction.following)
    go(state, target)


def read_procedure(state, number):
    """The entry of a procedure in the system procedure table, and the word of the supervisor's stack, or None where the
    stack is not switched: the entry asks for it, and it comes about in user mode alone."""
    address = wrap(state.tables.procedures + FIRST_ENTRY + 4 * number)
    state.memory.check_read(address, 4)
    entry = state.memory.word(address)
    if state.is_supervisor or not entry & SUPERVISOR_ENTRY:
        return entry, None
    address = wrap(state.tables.procedures + STACK_WORD)
    state.memory.check_read(address, 4)
    return entry, state.memory.word(address)


def system_call(state, instruction):
    """`calls`: with a switch of stacks the return type keeps the trace enable bit, and the stack word gives the new
    one."""
    entry, stack = read_procedure(state, state.read(instruction.first))
    if stack is None:
        frames.push(state, instruction.place, None, LOCAL_RETURN, instruction.following)
    else:
        kept = SUPERVISOR_RETURN + (state.pc & TRACE_ENABLE)
        frames.push(state, instruction.place, stack & ~3, kept, instruction.following)
        state.pc = state.pc & ~TRACE_ENABLE | SUPERVISOR | stack & TRACE_ENABLE
    go(state, entry)


def read_record(state):
    """PC and AC in front of the frame of a fault or an interrupt."""
    record = wrap((state.values[FP] & ~15) - frames.RECORD_BYTES)
    for place in (0, 4):
        state.memory.check_read(wrap(record + place), 4)
    return state.memory.word(record), state.memory.word(wrap(record + 4))


def return_(state, _):
    """`ret`, by the type in the low bits of pfp. Behind an interrupt the requests of software are looked at. PC is
    restored in supervisor mode alone, and types that are reserved act as a local return."""
    kind = return_type(state)
    is_recorded = kind in (FAULT_RETURN, INTERRUPT_RETURN)
    process, arithmetic = read_record(state) if is_recorded else (0, 0)
    frames.restore(state, state.values[PFP] & ~15)
    go(state, state.values[RIP])
    if is_recorded:
        state.ac = arithmetic & AC_KEPT
        if state.is_supervisor:
            state.pc = process & PC_KEPT
    elif kind in SUPERVISOR_RETURNS and state.is_supervisor:
        state.pc = state.pc & ~(SUPERVISOR | TRACE_ENABLE) | kind & TRACE_ENABLE
    if kind == INTERRUPT_RETURN:
        state.software_check = True
