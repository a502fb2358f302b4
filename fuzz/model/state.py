"""All that the machine holds between two instructions (User's Manual: programming environment)."""
import dataclasses

from model.memory import Memory
from model.numbers import WORD, wrap
from model.words import LITERAL, REGISTER

PFP, SP, RIP, G14, FP = 0, 1, 2, 30, 31
LOCALS = 16
# Bits of PC.
TRACE_ENABLE, SUPERVISOR, TRACE_PENDING, INTERRUPTED = 1, 2, 1 << 10, 1 << 13
# Bits that AC, PC and TC keep.
AC_KEPT, PC_KEPT, TC_KEPT = 0x9107, 0x1F2403, 0x0FFE00FE
CODE, OVERFLOW_FLAG, OVERFLOW_MASK = 7, 1 << 8, 1 << 12
SPECIAL_KEPT = (0xFFF, 0xFFF, 0xFF)
PINS = 8
# ICON has a bit for each pin, from this one on: set where a falling edge posts, clear where a low level asks.
FIRST_EDGE_BIT = 2


@dataclasses.dataclass(frozen=True)
class Tables:
    """The words of the PRCB (User's Manual: initialisation)."""

    faults: int = 0
    control: int = 0
    fault_configuration: int = 0
    interrupts: int = 0
    procedures: int = 0
    interrupt_stack: int = 0


@dataclasses.dataclass(frozen=True)
class Channel:
    """A DMA channel: its control word, the bytes that are left, and its two addresses."""

    control: int = 0
    count: int = 0
    source: int = 0
    destination: int = 0


@dataclasses.dataclass(frozen=True)
class LiveFrame:
    """A frame that was saved and neither flushed nor returned to, with the marks of its sixteen words."""

    address: int
    marks: tuple

    def holds(self, address):
        return (address - self.address) & WORD < 4 * LOCALS

    def is_marked_at(self, address):
        return self.marks[wrap(address - self.address) // 4]


@dataclasses.dataclass(frozen=True)
class HeldFrame:
    """A frame that is in a register set."""

    address: int
    words: tuple


class State:
    """Each field but `memory` is a number, a tuple, a flag, or a list of these; `memory` keeps what it has to undo."""

    def __init__(self, image, asked_sets=None):
        self.memory = Memory(image)
        self.values = [0] * 32
        self.marks = [False] * 32
        self.live, self.held = (), ()
        self.asked_sets, self.sets = asked_sets, asked_sets
        self.ip = self.ac = self.pc = self.tc = self.count = 0
        self.tables = Tables()
        self.posted = self.interrupt_mask = self.dma_control = 0
        self.nmi, self.software_check = False, False
        self.low_pins = ()
        self.interrupt_control, self.vectors = 0, (0, 0, 0)
        self.channels = [Channel()] * 4
        self.instruction_breaks, self.data_breaks, self.break_control = (0, 0), (0, 0), 0

    def keep(self):
        """What to go back to where the next step meets a hazard."""
        self.memory.begin()
        return {name: list(kept) if isinstance(kept, list) else kept for name, kept in vars(self).items()}

    def go_back(self, kept):
        self.memory.undo()
        vars(self).update(kept)

    @property
    def is_supervisor(self):
        return bool(self.pc & SUPERVISOR)

    @property
    def priority(self):
        return self.pc >> 16 & 31

    @property
    def code(self):
        return self.ac & CODE

    def set_code(self, code):
        self.ac = self.ac & ~CODE | code

    def holds(self, condition, code=None):
        """A condition holds where it and the code have a bit in common, or both are 000."""
        code = self.code if code is None else code
        return bool(condition & code) or condition == code == 0

    def is_edge(self, pin):
        return bool(self.interrupt_control >> (FIRST_EDGE_BIT + pin) & 1)

    def pending(self):
        """What is posted, and each low pin whose level asks."""
        asking = [pin for pin in self.low_pins if not self.is_edge(pin)]
        return self.posted | sum(1 << pin for pin in asking)

    def read(self, operand, place=0):
        """A word of an operand; a literal of several words is the literal first, and then zeros."""
        if operand.kind == REGISTER:
            return self.values[operand.number + place]
        if operand.kind == LITERAL:
            return 0 if place else operand.number
        return (self.pending(), self.interrupt_mask, self.dma_control)[operand.number]

    def any_marked(self, registers):
        return any(self.marks[register] for register in registers)

    def set_register(self, number, value, marked=False):
        self.values[number], self.marks[number] = wrap(value), marked

    def write(self, operand, words, marks=None):
        """Writes words to a destination; its registers are unmarked where no marks are given."""
        marks = marks or [False] * len(words)
        if operand.kind == REGISTER:
            for number, word, marked in zip(operand.registers, words, marks):
                self.set_register(number, word, marked)
            return
        word = words[0] & SPECIAL_KEPT[operand.number]
        if operand.number == 0:
            self.posted = word
        elif operand.number == 1:
            self.interrupt_mask = word
        else:
            self.dma_control = word

    def effective_address(self, address):
        """The sum of an address, modulo 2^32."""
        total = address.fixed
        if address.base is not None:
            total += self.values[address.base]
        if address.index is not None:
            total += self.values[address.index] << address.scale
        return wrap(total)

    def clear_frame(self):
        """New locals and frame pointer: zeros without marks."""
        for number in [*range(LOCALS), FP]:
            self.set_register(number, 0)
