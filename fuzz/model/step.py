"""The order of what one instruction does.

Its words are fetched and decoded, which may raise an operation fault; then a marked register that decides something is
a hazard; then come the other faults, then the accesses with their hazards, the results with their marks, and last the
trace events. A hazard changes nothing. An instruction that faults changes the instruction address and the count alone,
but for a trace fault. An exit comes before a trace fault of the same instruction.
"""
import dataclasses

from model import calls, controls, dma, faults, frames, marks, results, table, tracing, transfers
from model.memory import CONSOLE, EXIT, Hazard, span
from model.numbers import wrap
from model.words import Refused, decode


@dataclasses.dataclass
class Done:
    """What an instruction leaves beside the state: a byte for the console, a kind of drained point, a fault to enter,
    the word of an exit. Each may be None."""

    console: int | None = None
    point: str | None = None
    fault: faults.Fault | None = None
    exit: int | None = None


def nothing(state, instruction):
    """`udma` and the marks, and a fault instruction whose condition does not hold."""


def flush(state, instruction):
    frames.flush(state)


DEEDS = {
    **{name: transfers.load for name in table.LOADS},
    **{name: transfers.store for name in table.STORES},
    **{name: transfers.atomic for name in table.ATOMICS},
    **{name: results.move for name in table.MOVES},
    **{name: results.compute for name in table.REGISTER_NAMES if results.is_computed(name)},
    **{name: calls.compare_and_branch for name in table.COMPARE_BRANCHES.values()},
    **{name: calls.test for name in table.TESTS.values()},
    **{"b" + ending: calls.branch_if for ending in table.ENDINGS},
    **{"fault" + ending: nothing for ending in table.ENDINGS},
    "lda": transfers.load_address,
    "b": calls.branch,
    "bx": calls.branch_extended,
    "bal": calls.branch_and_link,
    "balx": calls.branch_and_link_extended,
    "call": calls.call,
    "callx": calls.call,
    "calls": calls.system_call,
    "ret": calls.return_,
    "modac": controls.modify_arithmetic,
    "modtc": controls.modify_trace,
    "modpc": controls.modify_process,
    "sysctl": controls.system_control,
    "sdma": dma.set_up,
    "udma": nothing,
    "mark": nothing,
    "fmark": nothing,
    "flushreg": flush,
    "syncf": nothing,
}
# Behind these a drained point is printed.
POINTS = {"flushreg": "flush", "syncf": "sync"}


def fetch(state):
    """The instruction at the instruction address. Raises `Refused`, and `Hazard` where one of its words is soft."""
    state.memory.check_read(state.ip, 4)
    second_at = wrap(state.ip + 4)
    instruction = decode(state.memory.word(state.ip), state.memory.word(second_at), state.ip)
    if instruction.words == 2:
        state.memory.check_read(second_at, 4)
    return instruction


def instruct(state):
    """Does one instruction, and tells what it leaves. Raises `Hazard`; the caller undoes what was done."""
    place = state.ip
    state.software_check = False
    state.memory.begin()
    try:
        instruction = fetch(state)
    except Refused as refused:
        return faulted(state, faults.Fault(faults.OPERATION, refused.subtype, place), wrap(place + 4))
    if marks.is_misused(state, instruction):
        raise Hazard(place)
    fault = faults.raised(state, instruction)
    if fault:
        return faulted(state, fault, instruction.following)
    before = tracing.look(state, instruction)
    state.ip = instruction.following
    taken = DEEDS[instruction.name](state, instruction)
    state.count += 1
    subtype = tracing.trace(state, instruction, before, taken)
    done = Done(state.memory.port_writes.get(CONSOLE), POINTS.get(instruction.name), exit=exit_word(state))
    if subtype is not None and done.exit is None:
        done.fault = faults.Fault(faults.TRACE, subtype, place)
    return done


def faulted(state, fault, following):
    """An instruction that faulted counts, and the next address is the one to return to."""
    state.ip = following
    state.count += 1
    return Done(fault=fault)


def exit_word(state):
    """The word of an exit: one instruction wrote all its four bytes."""
    written = state.memory.port_writes
    places = span(EXIT, 4)
    if not all(place in written for place in places):
        return None
    return int.from_bytes([written[place] for place in places], state.memory.order(EXIT))
