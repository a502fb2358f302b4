"""Trace events and breakpoints (User's Manual: tracing and debugging).

Which flags are set, and that the fault comes behind the whole instruction, is this simulator's own.
"""
import dataclasses

from model import calls, transfers
from model.state import TRACE_ENABLE

# Each event has a mode bit in TC, and this many bits above it a flag.
INSTRUCTION, BRANCH, CALL, RETURN, PRERETURN, SUPERVISOR_EVENT, MARK = range(1, 8)
FLAG = 16
INSTRUCTION_BREAK_FLAGS, DATA_BREAK_FLAGS = (24, 25), (26, 27)
CALLS = ("bal", "balx", "call", "callx", "calls")
BRANCHES = ("b", "bx")
BREAK_ENABLED = 1


@dataclasses.dataclass(frozen=True)
class Before:
    """What tracing has to know of the state before an instruction; `accessed` is the address of its access, or None."""

    is_traced: bool
    is_supervisor: bool
    return_type: int
    accessed: int | None


def look(state, instruction):
    is_traced = bool(state.pc & TRACE_ENABLE)
    kind, accessed = calls.return_type(state), transfers.accessed(state, instruction)
    return Before(is_traced, state.is_supervisor, kind, accessed)


def breaks(state, instruction, before):
    """The flags of the breakpoints that match: the address of the instruction in its upper thirty bits, or the address
    of an access."""
    found = []
    for point, flag in zip(state.instruction_breaks, INSTRUCTION_BREAK_FLAGS):
        if point & BREAK_ENABLED and point >> 2 == instruction.place >> 2:
            found.append(flag)
    for number, flag in enumerate(DATA_BREAK_FLAGS):
        if state.break_control >> number & 1 and state.data_breaks[number] == before.accessed:
            found.append(flag)
    return found


def switched(state, instruction, before):
    """Whether a `calls` entered supervisor mode, or a `ret` of its kind was done there."""
    if instruction.name == "calls":
        return state.is_supervisor and not before.is_supervisor
    is_back = instruction.name == "ret" and before.return_type in calls.SUPERVISOR_RETURNS
    return is_back and before.is_supervisor


def events(state, instruction, before, taken):
    """The events of an instruction that was done; `taken` says whether a conditional or compare branch was taken."""
    found = {INSTRUCTION}
    if instruction.name in BRANCHES or taken:
        found.add(BRANCH)
    if instruction.name in CALLS:
        found.add(CALL)
    if instruction.name == "ret":
        found |= {RETURN, PRERETURN}
    if switched(state, instruction, before):
        found.add(SUPERVISOR_EVENT)
    if instruction.name in ("mark", "fmark"):
        found.add(MARK)
    return found


def trace(state, instruction, before, taken):
    """The subtype of the trace fault behind an instruction, or None where no event counts. An event counts where its
    mode is set, and that of `fmark` and of a breakpoint always. Flags are set in TC where a fault is raised."""
    if not before.is_traced:
        return None
    matched = breaks(state, instruction, before)
    is_forced = instruction.name == "fmark" or bool(matched)
    found = events(state, instruction, before, taken) | ({MARK} if matched else set())
    with_mode = [event for event in found if state.tc >> event & 1]
    counted = {*with_mode, *({MARK} if is_forced else ())}
    if not counted:
        return None
    for bit in [event + FLAG for event in with_mode] + matched:
        state.tc |= 1 << bit
    return sum(1 << event for event in counted)
