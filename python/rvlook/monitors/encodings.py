"""Encodes the instructions that the checks put into memory, and reads from an encoded instruction which state it writes."""
from __future__ import annotations

from rvlook.protocol.names import CSRS

ECALL, EBREAK, MRET, SRET, NOP = 0x73, 0x100073, 0x30200073, 0x10200073, 0x13  # instructions
BACK = 0xFFDFF06F  # jal zero, -4: a jump to the instruction before
WORD = 2  # the field funct3 of a load or store of four bytes: the logarithm of its width
BRANCH, LOAD, STORE, SYSTEM = 0x63, 0x03, 0x23, 0x73  # opcodes
JAL, JALR, AUIPC = 0x6F, 0x67, 0x17  # opcodes
READ_SET = (2, 3, 6, 7)  # funct3 of csrrs and csrrc, which write nothing if rs1 is x0


def csrw(number: int, source: int) -> int:
    """Returns `csrrw x0, number, source`."""
    return SYSTEM | 1 << 12 | source << 15 | number << 20


def csrr(target: int, number: int) -> int:
    """Returns `csrrs target, number, x0`."""
    return SYSTEM | target << 7 | 2 << 12 | number << 20


def load(target: int, base: int, width: int = WORD) -> int:
    """Returns a signed load of 1 << width bytes from the address in a register."""
    return LOAD | target << 7 | width << 12 | base << 15


def store(value: int, base: int, width: int = WORD) -> int:
    """Returns a store of 1 << width bytes to the address in a register."""
    return STORE | width << 12 | base << 15 | value << 20


def jump(base: int, offset: int = 0) -> int:
    """Returns `jalr x0, offset(base)`."""
    return JALR | base << 15 | offset << 20


def written_register(word: int) -> int:
    """Returns the number of the integer register that an instruction writes; 0 if it writes no register."""
    return 0 if word & 0x7F in (BRANCH, STORE) or word in (ECALL, EBREAK, MRET, SRET) else word >> 7 & 31


def written_csr(word: int) -> int | None:
    """Returns the number of the control and status register that an instruction writes, or None. mret and sret write mstatus."""
    if word in (MRET, SRET):
        return CSRS["mstatus"]
    funct3 = word >> 12 & 7
    is_csr = word & 0x7F == SYSTEM and funct3 not in (0, 4)
    return word >> 20 if is_csr and not (funct3 in READ_SET and word >> 15 & 31 == 0) else None


def is_load(word: int) -> bool:
    """Returns whether an instruction is a load."""
    return word & 0x7F == LOAD


def is_store(word: int) -> bool:
    """Returns whether an instruction is a store."""
    return word & 0x7F == STORE


def signed(value: int, bits: int) -> int:
    """Sign-extends a number of so many bits."""
    return value - (value >> bits - 1 << bits)


def immediate_of(word: int) -> int:
    """Returns the signed immediate of a load or of a jalr."""
    return signed(word >> 20, 12)


def branch_offset(word: int) -> int:
    """Returns the signed offset in bytes of a conditional branch."""
    return signed((word >> 31) << 12 | (word >> 7 & 1) << 11 | (word >> 25 & 63) << 5 | (word >> 8 & 15) << 1, 13)


def jump_offset(word: int) -> int:
    """Returns the signed offset in bytes of a jal."""
    return signed((word >> 31) << 20 | (word >> 12 & 255) << 12 | (word >> 20 & 1) << 11 | (word >> 21 & 1023) << 1, 21)
