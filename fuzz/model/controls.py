"""Start-up, and what software does to the controls (User's Manual: initialisation, system control, process controls).

A control word of AC, PC or TC keeps some bits alone; what is written to the others is lost.
"""
from model import frames, interrupts
from model.numbers import instruction_address, masked, rounded_up, wrap
from model.state import AC_KEPT, FP, PC_KEPT, SP, TC_KEPT, Channel, Tables
from model.table import LOAD_GROUP, REQUEST, RESTART, message_of

BOOT_BYTES, FIRST_INSTRUCTION, PRCB = 0xFFFFFF00, 0xFFFFFF10, 0xFFFFFF14
PRCB_WORDS, CONTROL_WORDS = 10, 28
PC_AT_START = 0x1F2002
LEAST_SETS = 5
BREAK_GROUP, INTERRUPT_GROUP, LAST_GROUP = 0, 1, 6


def boot(state):
    """Start-up: four bytes of the boot record say how the region of the record itself is read."""
    memory = state.memory
    memory.regions[15] = sum(memory.byte(BOOT_BYTES + 4 * place) << 8 * place for place in range(4))
    start(state, memory.word(FIRST_INSTRUCTION), memory.word(PRCB))


def start(state, first, prcb):
    """The state that start-up and a restart leave. The globals but fp, memory, its soft bytes, the levels of pins and
    the count of instructions stay. All words are read before the regions change."""
    words = state.memory.words(prcb, PRCB_WORDS)
    faults, control, ac, configuration, vectors, procedures, _, stack, _, cache = words
    groups = state.memory.words(control, CONTROL_WORDS)
    state.tables = Tables(faults, control, configuration, vectors, procedures, stack)
    for number in range(7):
        load_group(state, number, groups[4 * number : 4 * number + 4])
    state.sets = state.asked_sets or max(LEAST_SETS, cache & 15)
    state.ac, state.pc, state.ip = ac & AC_KEPT, PC_AT_START, instruction_address(first)
    state.clear_frame()
    state.set_register(FP, rounded_up(stack))
    state.set_register(SP, state.values[FP] + frames.FRAME_BYTES)
    state.posted = state.interrupt_mask = state.dma_control = 0
    state.nmi, state.software_check = False, False
    state.channels = [Channel()] * 4


def load_group(state, number, words):
    """A group of the control table: breakpoints; interrupts; four groups of regions; trace controls."""
    if number == BREAK_GROUP:
        state.instruction_breaks, state.data_breaks = tuple(words[:2]), tuple(words[2:])
    elif number == INTERRUPT_GROUP:
        state.vectors, state.interrupt_control = tuple(words[:3]), words[3]
    elif number == LAST_GROUP:
        state.break_control, state.tc = words[1], words[2] & TC_KEPT
    else:
        first = 4 * (number - 2)
        state.memory.regions = [*state.memory.regions[:first], *words, *state.memory.regions[first + 4 :]]


def system_control(state, instruction):
    """`sysctl`, by the message in its first source. A restart and the load of a group flush the frames first."""
    message, operand = message_of(state.read(instruction.first))
    if message == REQUEST:
        interrupts.request(state, operand)
    elif message == RESTART:
        first, prcb = state.read(instruction.second), state.read(instruction.third)
        frames.flush(state)
        state.memory.check_read(prcb, 4 * PRCB_WORDS)
        state.memory.check_read(state.memory.word(wrap(prcb + 4)), 4 * CONTROL_WORDS)
        start(state, first, prcb)
    elif message == LOAD_GROUP:
        frames.flush(state)
        address = wrap(state.tables.control + 16 * operand)
        state.memory.check_read(address, 16)
        load_group(state, operand, state.memory.words(address, 4))


def modify_arithmetic(state, instruction):
    """`modac`: the second source under the mask of the first; the destination gets the old word."""
    old = state.ac
    state.ac = masked(old, state.read(instruction.first), state.read(instruction.second)) & AC_KEPT
    state.write(instruction.third, [old])


def modify_trace(state, instruction):
    """`modtc`, in the same way."""
    old = state.tc
    state.tc = masked(old, state.read(instruction.first), state.read(instruction.second)) & TC_KEPT
    state.write(instruction.third, [old])


def modify_process(state, instruction):
    """`modpc`: the mask is the second source, the new bits come from the destination's register. Where the priority
    falls, the requests of software are looked at before the next instruction."""
    old, old_priority = state.pc, state.priority
    mask, new = state.read(instruction.second), state.read(instruction.third)
    state.pc = masked(old, mask, new) & PC_KEPT
    state.write(instruction.third, [old])
    if state.priority < old_priority:
        state.software_check = True
