"""Frames that are saved, restored and flushed, and which writes they forbid (User's Manual: procedure calls, local
register cache).

A call saves the sixteen local registers, but into a register set: when they come to memory depends on how many sets
there are. So the saved bytes are soft, and until a flush or the return the frame is live, and none of its bytes may be
written.
"""
from model.memory import Hazard, is_port, span
from model.numbers import rounded_up, wrap
from model.state import FP, LOCALS, PFP, RIP, SP, HeldFrame, LiveFrame

FRAME_BYTES = 4 * LOCALS
RECORD_BYTES = 16


def check_write(state, address, size, into_port=True, live=None):
    """A write may have no byte of a live frame, nor, but for stores and atomic instructions, one of the port page."""
    places = span(address, size)
    for place in places:
        if any(frame.holds(place) for frame in (state.live if live is None else live)):
            raise Hazard(place)
    if not into_port:
        check_port(places)


def check_port(places):
    for place in places:
        if is_port(place):
            raise Hazard(place)


def push(state, place, base, return_type, return_address, record=None):
    """Saves the locals at the frame pointer and begins a frame at `base`, behind a record of four words if one is
    given. A base of None is the stack pointer. Where one of the pointers that are used is marked, the hazard is at
    `place`."""
    if state.marks[FP] or (base is None and state.marks[SP]):
        raise Hazard(place)
    saved_at = state.values[FP] & ~15
    check_write(state, saved_at, FRAME_BYTES, into_port=False)
    words = list(state.values[:LOCALS])
    marks = list(state.marks[:LOCALS])
    words[RIP], marks[RIP] = return_address, False
    live = (LiveFrame(saved_at, tuple(marks)), *state.live)
    new_frame = rounded_up(state.values[SP] if base is None else base)
    if record:
        new_frame = wrap(new_frame + RECORD_BYTES)
        check_write(state, wrap(new_frame - RECORD_BYTES), RECORD_BYTES, into_port=False, live=live)
    state.memory.save(saved_at, words)
    state.live = live
    hold(state, HeldFrame(saved_at, tuple(words)))
    for number, word in enumerate(record or []):
        state.memory.write_word(wrap(new_frame - RECORD_BYTES + 4 * number), word)
    state.clear_frame()
    state.set_register(PFP, saved_at | return_type)
    state.set_register(FP, new_frame)
    state.set_register(SP, new_frame + FRAME_BYTES)


def hold(state, frame):
    """Puts a frame into a register set; where all are taken, the oldest frame goes to memory first."""
    if len(state.held) == state.sets:
        oldest = state.held[-1]
        state.memory.spill(oldest.address, oldest.words)
        state.held = state.held[:-1]
    state.held = (frame, *state.held)


def restore(state, address):
    """The locals of the frame at an address. Hazards: another frame than the youngest live one, at the frame; without
    live frames, a return address that is soft; a frame in the port page."""
    if state.live and state.live[0].address != address:
        raise Hazard(address)
    if not state.live:
        state.memory.check_read(wrap(address + 4 * RIP), 4)
    check_port(span(address, FRAME_BYTES))
    places = [wrap(address + 4 * number) for number in range(LOCALS)]
    if state.live:
        words = [state.memory.word(place) for place in places]
        marks = state.live[0].marks
        state.live = state.live[1:]
    else:
        words = [state.memory.loaded(place, 4) for place in places]
        marks = [state.memory.is_stale(place, 4) for place in places]
    for number in range(LOCALS):
        state.set_register(number, words[number], marks[number])
    state.set_register(FP, address)
    state.held = state.held[1:]


def flush(state):
    """Brings all frames to memory: none is live, and the bytes of their unmarked words are no longer soft."""
    for frame in state.live:
        for number, marked in enumerate(frame.marks):
            if not marked:
                state.memory.harden(wrap(frame.address + 4 * number), 4)
    state.live = ()
    for frame in reversed(state.held):
        state.memory.spill(frame.address, frame.words)
    state.held = ()


def compared_byte(state, address):
    """The byte that a run shows; None for a soft byte that is in no unmarked word of a live frame."""
    address = wrap(address)
    if address in state.memory.soft:
        frame = next((frame for frame in state.live if frame.holds(address)), None)
        if frame is None or frame.is_marked_at(address):
            return None
    return state.memory.byte(address)
