"""DMA channels: how they are set up, and their units (User's Manual: DMA controller).

The control word and the units are this simulator's own: an event of the schedule moves one unit.
"""
import dataclasses

from model import frames, interrupts
from model.numbers import wrap
from model.state import PINS, Channel

# The control word of a channel.
UNIT_SIZES = (1, 2, 4, 16)
SOURCE_HELD, DESTINATION_HELD, IS_FED, INTERRUPTS_AT_END = 1 << 2, 1 << 3, 1 << 4, 1 << 6
# In sf2 a channel has a bit that enables it, and this many bits above it one that says that it has ended.
ENDED = 4


def set_up(state, instruction):
    """`sdma`: a channel gets its control word, and count, source and destination of three registers. It is off then."""
    number = state.read(instruction.first)
    count, source, destination = (state.read(instruction.third, place) for place in range(3))
    state.channels[number] = Channel(state.read(instruction.second), count, source, destination)
    state.dma_control &= ~(1 << number | 1 << number + ENDED)


def moves(state, number, given):
    """Whether an event moves anything: the channel is on and not at its end, and bytes are given where it is fed, as
    many as its unit has, and else none."""
    channel = state.channels[number]
    if not state.dma_control >> number & 1 or not channel.count:
        return False
    if not channel.control & IS_FED:
        return given is None
    return given is not None and len(given) == UNIT_SIZES[channel.control & 3]


def unit(state, number, given=None):
    """The next unit of a channel; `given` has the bytes of a device, or None. The last unit may be shorter. All bytes
    are read before the first is written."""
    if not moves(state, number, given):
        return
    channel = state.channels[number]
    size = min(UNIT_SIZES[channel.control & 3], channel.count)
    if given is None:
        state.memory.check_read(channel.source, size)
        given = [state.memory.byte(channel.source + place) for place in range(size)]
    frames.check_write(state, channel.destination, size, into_port=False)
    state.memory.write(channel.destination, given[:size])
    state.channels[number] = dataclasses.replace(
        channel,
        count=channel.count - size,
        source=channel.source if channel.control & SOURCE_HELD else wrap(channel.source + size),
        destination=channel.destination if channel.control & DESTINATION_HELD else wrap(channel.destination + size),
    )
    if channel.count == size:
        end(state, number, channel)


def end(state, number, channel):
    state.dma_control = state.dma_control & ~(1 << number) | 1 << number + ENDED
    if channel.control & INTERRUPTS_AT_END:
        interrupts.post(state, PINS + number)
