"""The instructions of an enclave, decoded once for each address, with the registers to read before each of them."""
from __future__ import annotations

import re
from dataclasses import dataclass
from enum import Enum
from functools import cached_property, lru_cache
from typing import Tuple

from rvlook.protocol.instructions import BRANCHES, Instruction, instruction_of

SP, A0, A1, A6 = 2, 10, 11, 16  # numbers of registers
LINKS = (1, 5)  # registers that hold a return address (Unprivileged ISA, section 2.5)
SAVED = {1, 8, 9, *range(18, 28)}  # ra and the callee-saved registers s0 to s11
SOURCES = re.compile(r"\bx(\d+)")  # a register in the text of an instruction


class Kind(Enum):
    """The kind of an instruction, as far as a trace distinguishes it."""
    LOAD = "r"  # any load
    STORE = "w"  # any store
    BRANCH = "branch"  # conditional
    CALL = "call"  # a call with its target in the instruction
    INDIRECT = "indirect"  # a call or jump to the address in a register
    RETURN = "return"  # a return to the address in ra or t0
    TRAP_RETURN = "trap return"  # sret
    ECALL = "ecall"  # a call of the monitor
    OTHER = "other"  # any other instruction


ENDS_BLOCK = (Kind.BRANCH, Kind.CALL, Kind.INDIRECT, Kind.RETURN, Kind.TRAP_RETURN, Kind.ECALL)


@dataclass(frozen=True)
class Code:
    """A decoded instruction. A register is given by its number; 0 means no register."""
    kind: Kind
    text: str  # the text of `dis`; empty if the instruction cannot be fetched
    probes: Tuple[int, ...] = ()  # registers to read before it: base and stored register, or a6 and a1
    width: int = 0  # bytes of a load or store
    offset: int = 0  # the offset of a load or store, signed
    link: int = 0  # the register that receives the return address
    writes: int = 0  # the destination register
    sources: Tuple[int, ...] = ()  # the operands
    moves_sp: int = 0  # bytes by which it moves sp, if it lowers sp by a constant; else 0

    @cached_property
    def is_access(self) -> bool:
        """Returns whether the instruction may access memory by an address of its own: a load, a store, or a call of the monitor."""
        return bool(self.probes)

    @cached_property
    def is_plain(self) -> bool:
        """Returns whether the instruction neither jumps nor accesses memory, except relative to sp."""
        return self.kind is Kind.OTHER or bool(self.probes) and self.probes[0] == SP

    @cached_property
    def is_sp_relative(self) -> bool:
        """Returns whether the address of a load or store is relative to sp."""
        return bool(self.probes) and self.probes[0] == SP

    @cached_property
    def stored_bits(self) -> int:
        """Returns the mask of the bits of a register that a store writes."""
        return (1 << 8 * self.width) - 1

    @cached_property
    def is_saving(self) -> bool:
        """Returns whether the instruction may save a register of the caller in the frame."""
        return self.kind is Kind.STORE and self.probes[0] == SP and self.probes[1] in SAVED


OUTSIDE = Code(Kind.OTHER, "")  # an address that cannot be fetched


@lru_cache(maxsize=65536)
def code_of(line: bytes) -> Code:
    """Decodes a reply of `dis`."""
    instruction = instruction_of(line)
    if instruction is None:
        return OUTSIDE
    if instruction.memory:
        memory = instruction.memory
        if memory.kind == "r":
            sources: tuple[int, ...] = (memory.base,)
            return Code(Kind.LOAD, instruction.text, sources, memory.width, memory.offset, link=0, writes=memory.register, sources=sources)
        sources = memory.base, memory.register
        return Code(Kind.STORE, instruction.text, sources, memory.width, memory.offset, link=0, writes=0, sources=sources)
    return transfer_of(instruction) or other_of(instruction)


def transfer_of(instruction: Instruction) -> Code | None:
    """Decodes a branch, jump, call or return; returns None for any other instruction."""
    if instruction.name in BRANCHES:
        return Code(Kind.BRANCH, instruction.text, sources=instruction.operands[:2])
    if instruction.name == "jal":
        return Code(Kind.CALL if instruction.writes else Kind.OTHER, instruction.text, link=instruction.writes, writes=instruction.writes)
    if instruction.name == "jalr":
        base = instruction.operands[2]
        kind = Kind.RETURN if not instruction.writes and base in LINKS else Kind.INDIRECT
        return Code(kind, instruction.text, link=instruction.writes, writes=instruction.writes, sources=(base,))
    if instruction.name == "ecall":
        return Code(Kind.ECALL, instruction.text, (A6, A1))
    return Code(Kind.TRAP_RETURN, instruction.text) if instruction.name == "sret" else None


def other_of(instruction: Instruction) -> Code:
    """Decodes an instruction that neither accesses memory nor jumps."""
    lowers_sp = instruction.name == "addi" and instruction.operands[:2] == (SP, SP) and instruction.operands[2] < 0
    moves_sp = instruction.operands[2] if lowers_sp else 0
    sources = tuple(int(number) for number in SOURCES.findall(instruction.text.partition(", ")[2]))  # after the destination
    return Code(Kind.OTHER, instruction.text, writes=instruction.writes, sources=sources, moves_sp=moves_sp)
