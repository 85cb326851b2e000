"""Decodes an instruction into its kind, its registers and its immediate (Unprivileged ISA 20191213, chapters 2, 7 and 9)."""
from __future__ import annotations

from functools import lru_cache
from typing import Callable, Dict, NamedTuple

from rvlook.symbolic.nodes import M32, signed

BRANCHES = {0: "beq", 1: "bne", 4: "blt", 5: "bge", 6: "bltu", 7: "bgeu"}  # by funct3
LOADS = {0: (1, True), 1: (2, True), 2: (4, False), 4: (1, False), 5: (2, False)}  # by funct3: how many bytes, and whether the sign is extended
STORES = {0: 1, 1: 2, 2: 4}  # by funct3: how many bytes
SHIFTS = {(1, 0): "sll", (5, 0): "srl", (5, 32): "sra"}  # by funct3 and funct7: shifts of a register by an immediate
IMMEDIATE = {0: "add", 2: "slt", 3: "sltu", 4: "xor", 6: "or", 7: "and"}  # by funct3: other operations on an immediate
REGISTER = {  # by funct3 and funct7: operations on two registers, but for multiplications and divisions
    (0, 0): "add", (0, 32): "sub", (1, 0): "sll", (2, 0): "slt", (3, 0): "sltu", (4, 0): "xor", (5, 0): "srl", (5, 32): "sra", (6, 0): "or",
    (7, 0): "and"}
MULDIV = 1  # funct7 of multiplications and divisions
MULDIVS = ("mul", "mulh", "mulhsu", "mulhu", "div", "divu", "rem", "remu")  # by funct3
DIVISIONS = MULDIVS[4:]  # div, divu, rem and remu
PRIVILEGED = {0x73: "ecall", 0x100073: "ebreak", 0x10200073: "sret", 0x10500073: "wfi"}  # by instruction word
SFENCE = 9  # funct7 of sfence.vma
CSR_ACCESSES = {1: "w", 2: "s", 3: "c"}  # by the lower bits of funct3: write, set bits, clear bits


class Decoded(NamedTuple):
    """An instruction. A field that its kind does not have is 0, empty or False."""
    kind: str  # such as "load", "op" (on two registers) or "imm" (on a register and an immediate)
    rd: int = 0  # the register that it writes
    rs1: int = 0  # the first register that it reads; for "csr" with `is_immediate`, the operand itself
    rs2: int = 0  # the second register that it reads
    imm: int = 0  # the immediate, with its sign extended to 32 bits; for privileged and illegal instructions and "csr", the instruction word
    op: str = ""  # the name of the operation ("add") or of the branch ("beq"); for "csr", the access "w", "s" or "c"
    width: int = 0  # the bytes that a load or a store accesses
    is_signed: bool = False  # whether a load extends the sign
    csr: int = 0  # the number of the control and status register
    is_immediate: bool = False  # whether the operand of a "csr" is the number in place of rs1


@lru_cache(maxsize=1 << 16)
def decode(word: int) -> Decoded:
    """Returns the instruction that a word encodes. Its kind is "illegal" if the word encodes no instruction."""
    decoder = DECODERS.get(opcode(word))
    return decoder(word) if decoder else illegal(word)


# ---- the fields of an instruction word (Unprivileged ISA, section 2.2)

def opcode(word: int) -> int:
    """Returns bits 6 to 0."""
    return word & 127


def rd_of(word: int) -> int:
    """Returns bits 11 to 7: the register that an instruction writes, or bits 4 to 0 of the immediate of a store."""
    return word >> 7 & 31


def funct3(word: int) -> int:
    """Returns bits 14 to 12, which distinguish the instructions of an opcode."""
    return word >> 12 & 7


def rs1_of(word: int) -> int:
    """Returns bits 19 to 15: the first register that an instruction reads."""
    return word >> 15 & 31


def rs2_of(word: int) -> int:
    """Returns bits 24 to 20: the second register that an instruction reads, or the distance of a shift by an immediate."""
    return word >> 20 & 31


def funct7(word: int) -> int:
    """Returns bits 31 to 25, which distinguish the instructions of an opcode and a funct3."""
    return word >> 25


def immediate_i(word: int) -> int:
    """Returns the immediate of the I-type with its sign extended to 32 bits: bits 31 to 20."""
    return signed(word >> 20, 12) & M32


# ---- the instructions of an opcode

def illegal(word: int) -> Decoded:
    """Returns the instruction for a word that encodes none: it traps, and the word is the value of the trap."""
    return Decoded("illegal", imm=word)


def jal(word: int) -> Decoded:
    """Decodes the J-type. The immediate has its bits in the order 20, 10 to 1, 11, 19 to 12."""
    offset = (word >> 31) << 20 | (word >> 12 & 255) << 12 | (word >> 20 & 1) << 11 | (word >> 21 & 1023) << 1
    return Decoded("jal", rd=rd_of(word), imm=signed(offset, 21) & M32)


def branch(word: int) -> Decoded:
    """Decodes the B-type; illegal if funct3 is 2 or 3. The immediate has bits 12 and 10 to 5 in place of funct7, and 4 to 1 and 11 in place of rd."""
    offset = (word >> 31) << 12 | (word >> 7 & 1) << 11 | (word >> 25 & 63) << 5 | (word >> 8 & 15) << 1
    name = BRANCHES.get(funct3(word))
    if name is None:
        return illegal(word)
    return Decoded("branch", rs1=rs1_of(word), rs2=rs2_of(word), imm=signed(offset, 13) & M32, op=name)


def load(word: int) -> Decoded:
    """Decodes a load of the I-type; illegal if funct3 is 3, 6 or 7."""
    if funct3(word) not in LOADS:
        return illegal(word)
    width, is_signed = LOADS[funct3(word)]
    return Decoded("load", rd=rd_of(word), rs1=rs1_of(word), imm=immediate_i(word), width=width, is_signed=is_signed)


def store(word: int) -> Decoded:
    """Decodes the S-type; illegal if funct3 is above 2. The immediate has bits 11 to 5 in place of funct7, and 4 to 0 in place of rd."""
    offset = funct7(word) << 5 | rd_of(word)
    width = STORES.get(funct3(word))
    if width is None:
        return illegal(word)
    return Decoded("store", rs1=rs1_of(word), rs2=rs2_of(word), imm=signed(offset, 12) & M32, width=width)


def with_immediate(word: int) -> Decoded:
    """Decodes an operation of the I-type. A shift is illegal if funct7 is neither 0 nor, for `srai`, 32."""
    name = IMMEDIATE.get(funct3(word))
    if name:
        return Decoded("imm", rd=rd_of(word), rs1=rs1_of(word), imm=immediate_i(word), op=name)
    shift = SHIFTS.get((funct3(word), funct7(word)))
    return Decoded("imm", rd=rd_of(word), rs1=rs1_of(word), imm=rs2_of(word), op=shift) if shift else illegal(word)


def on_registers(word: int) -> Decoded:
    """Decodes the R-type; illegal if no operation has its funct3 and funct7."""
    name = MULDIVS[funct3(word)] if funct7(word) == MULDIV else REGISTER.get((funct3(word), funct7(word)))
    return Decoded("op", rd=rd_of(word), rs1=rs1_of(word), rs2=rs2_of(word), op=name) if name else illegal(word)


def system(word: int) -> Decoded:
    """Decodes a privileged instruction, or one that accesses a CSR; illegal if it is neither."""
    if word in PRIVILEGED:
        return Decoded(PRIVILEGED[word], imm=word)
    if funct7(word) == SFENCE and funct3(word) == 0 and rd_of(word) == 0:
        return Decoded("sfence", imm=word)
    access = CSR_ACCESSES.get(funct3(word) & 3)
    if access is None:
        return illegal(word)
    is_immediate = bool(funct3(word) & 4)
    return Decoded("csr", rd=rd_of(word), rs1=rs1_of(word), imm=word, op=access, csr=word >> 20, is_immediate=is_immediate)


def jalr(word: int) -> Decoded:
    """Decodes `jalr`; illegal if funct3 is not 0."""
    return Decoded("jalr", rd=rd_of(word), rs1=rs1_of(word), imm=immediate_i(word)) if funct3(word) == 0 else illegal(word)


def upper(kind: str) -> Callable[[int], Decoded]:
    """Returns the decoder of the U-type, `lui` or `auipc`."""
    return lambda word: Decoded(kind, rd=rd_of(word), imm=word & 0xFFFFF000)


DECODERS: Dict[int, Callable[[int], Decoded]] = {  # the decoders by opcode
    0x37: upper("lui"),
    0x17: upper("auipc"),
    0x6F: jal,
    0x67: jalr,
    0x63: branch,
    0x03: load,
    0x23: store,
    0x13: with_immediate,
    0x33: on_registers,
    0x0F: lambda word: Decoded("fence") if funct3(word) == 0 else illegal(word),
    0x73: system}
