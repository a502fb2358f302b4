"""Loads, stores, atomic instructions and `lda` (User's Manual: data movement, atomic operations).

A word of a group is read or written in the byte order of the region of its own first byte.
"""
from model import frames, table
from model.marks import atomic_data_marked
from model.numbers import instruction_address, masked, sign_extended, wrap


def accessed(state, instruction):
    """The address of the access of a load, store or atomic instruction; None where there is none."""
    if instruction.name in table.ATOMICS:
        return instruction_address(state.read(instruction.first))
    if instruction.name in table.LOADS or instruction.name in table.STORES:
        return state.effective_address(instruction.address)
    return None


def pieces(address, size):
    """The addresses of the words of an access, and how many bytes each has."""
    return [wrap(address + place) for place in range(0, size, 4)], min(size, 4)


def load(state, instruction):
    """A load reads soft bytes as 0; a register is marked where one of the bytes read for it is soft."""
    size = table.LOADS[instruction.name]
    places, piece = pieces(state.effective_address(instruction.address), size)
    words = [state.memory.loaded(place, piece) for place in places]
    if instruction.name in table.SIGNED_LOADS:
        words = [sign_extended(words[0], 8 * size)]
    state.write(instruction.third, words, [state.memory.is_stale(place, piece) for place in places])


def store(state, instruction):
    """A store of a marked register leaves soft bytes."""
    size = table.STORES[instruction.name]
    address = state.effective_address(instruction.address)
    frames.check_write(state, address, size)
    places, piece = pieces(address, size)
    for place, number in zip(places, instruction.third.registers):
        content = state.memory.encoded(place, piece, state.values[number])
        state.memory.write(place, content, state.marks[number])


def atomic(state, instruction):
    """`atadd` adds to a word, `atmod` changes it under a mask; the destination gets the old word. The word is soft
    where it was or where its data is marked; the destination is marked where the word was soft."""
    address = instruction_address(state.read(instruction.first))
    frames.check_write(state, address, 4)
    old, was_stale = state.memory.loaded(address, 4), state.memory.is_stale(address, 4)
    data_marked = atomic_data_marked(state, instruction)
    second = state.read(instruction.second)
    if instruction.name == "atadd":
        new = wrap(old + second)
    else:
        new = masked(old, second, state.read(instruction.third))
    state.memory.write_word(address, new, was_stale or data_marked)
    state.write(instruction.third, [old], [was_stale])


def load_address(state, instruction):
    """`lda`: the address itself, marked where the base or the index is."""
    marked = state.any_marked(instruction.address.registers)
    state.write(instruction.third, [state.effective_address(instruction.address)], [marked])
