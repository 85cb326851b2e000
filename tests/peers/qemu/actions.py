"""Actions, which both sides execute, and steps: an action with the states before and after it."""
from __future__ import annotations

from dataclasses import dataclass, field
from typing import Dict, Optional, Tuple

from models.instruction_words import assemble

from .bench import Trap
from .registers import ONES, RAM, RAM_END, State

CSR_OPCODE, LOAD_OPCODE, STORE_OPCODE = 0x73, 0x03, 0x23
# For each register the bits that the prediction of a step covers, and their value.
Prediction = Dict[str, Tuple[int, int]]
WFI, MRET, SRET, EBREAK, ECALL = 0x10500073, 0x30200073, 0x10200073, 0x00100073, 0x00000073


@dataclass(frozen=True)
class Action:
    """Before a step: register values, the word at pc if pc is in RAM, and the timer line. `text` is the assembly of the word."""

    word: Optional[int] = None
    registers: Dict[int, int] = field(default_factory=dict)
    timer: Optional[bool] = None
    text: str = ""


def instruction(name: str, *operands: int, registers: Optional[Dict[int, int]] = None, timer: Optional[bool] = None) -> Action:
    """Returns the action of an instruction, in the order of operands of the assembly text."""
    text, word = assemble(name, *operands)
    return Action(word, registers or {}, timer, text)


def is_in_ram(address: int, count: int = 4) -> bool:
    """Returns whether bytes from an address on are in RAM."""
    return RAM <= address <= RAM_END - count


@dataclass(frozen=True)
class Step:
    """A step of the bench: the state before, the word at pc (None outside RAM), the state after, and the trap. `timer` is the timer line."""

    before: State
    word: Optional[int]
    after: State
    trap: Optional[Trap]

    @property
    def opcode(self) -> int:
        """Returns the opcode of the word, or 0."""
        return (self.word or 0) & 0x7F

    @property
    def rd(self) -> int:
        """Returns the destination register."""
        return (self.word or 0) >> 7 & 31

    @property
    def rs1(self) -> int:
        """Returns the first source register, or the immediate of csrrwi and similar."""
        return (self.word or 0) >> 15 & 31

    @property
    def rs2(self) -> int:
        """Returns the second source register."""
        return (self.word or 0) >> 20 & 31

    @property
    def funct3(self) -> int:
        """Returns the field funct3."""
        return (self.word or 0) >> 12 & 7

    @property
    def csr(self) -> int:
        """Returns the number of the control and status register."""
        return (self.word or 0) >> 20

    def value(self, number: int) -> int:
        """Returns the value of an integer register before the step."""
        return self.before["x%d" % number] if number else 0

    @property
    def is_csr(self) -> bool:
        """Returns whether the word is one of csrrw, csrrs, csrrc and their immediate forms."""
        return self.opcode == CSR_OPCODE and self.funct3 not in (0, 4)

    @property
    def is_interrupt(self) -> bool:
        """Returns whether the step took an interrupt."""
        return self.trap is not None and self.trap.cause >> 31 == 1

    @property
    def writes_csr(self) -> bool:
        """Returns whether the word is an instruction that writes a control and status register."""
        return self.is_csr and (self.funct3 & 3 == 1 or self.rs1 != 0)

    def written(self, old: int) -> int:
        """Returns the word that such an instruction writes to a register with this old value, before the register legalizes it."""
        operand = self.rs1 if self.funct3 & 4 else self.value(self.rs1)
        return {1: operand, 2: old | operand, 3: old & ~operand & ONES}[self.funct3 & 3]

    @property
    def access(self) -> Optional[range]:
        """Returns the addresses of a load or a store."""
        if self.opcode not in (LOAD_OPCODE, STORE_OPCODE):
            return None
        word = self.word or 0
        low = word >> 20 if self.opcode == LOAD_OPCODE else word >> 25 << 5 | word >> 7 & 31
        start = self.value(self.rs1) + (low - 4096 if low & 0x800 else low) & ONES
        return range(start, start + (1 << (self.funct3 & 3)))

    @property
    def is_store(self) -> bool:
        """Returns whether the word is a store."""
        return self.opcode == STORE_OPCODE and self.funct3 < 3


def whole(**values: int) -> Prediction:
    """Returns a prediction of all bits of registers."""
    return {name: (ONES, value & ONES) for name, value in values.items()}


def is_inhibited(step: Step, low: str) -> bool:
    """Returns whether a counter was stopped before the step."""
    return bool(step.before["mcountinhibit"] & (1 if low == "mcycle" else 4))
