"""Decodes the text of an instruction in a reply of `dis`: the register that it writes, its load or store, its target, and the manual's
short form."""
from __future__ import annotations

import re
from dataclasses import dataclass
from functools import cached_property, lru_cache
from typing import NamedTuple, Optional

from rvlook.protocol import names

OPERAND = re.compile(r"(?:\bx)?(-?(?:0x[0-9a-f]+|\d+))")
LOADS = {"lb": 1, "lh": 2, "lw": 4, "lbu": 1, "lhu": 2}  # the number of bytes
STORES = {"sb": 1, "sh": 2, "sw": 4}  # likewise
BRANCHES = ("beq", "bne", "blt", "bge", "bltu", "bgeu")


class MemoryOperand(NamedTuple):
    """The operand of a load or store."""
    kind: str  # r for a load, w for a store
    width: int  # bytes
    base: int  # number of the base register
    offset: int  # bytes, signed
    register: int  # number of the loaded or stored register


@dataclass(frozen=True, eq=False)
class Instruction:
    """A word of memory, as a reply of `dis` has it. Equal replies share one object."""
    word: str  # the word in hexadecimal digits
    text: str  # the text of the reply
    name: str  # the mnemonic, such as `addi`
    operands: tuple[int, ...]  # numbers of registers and immediates, in the order of the text
    writes: int  # the number of the register that it writes; 0 if it writes none

    @property
    def abi(self) -> str:
        """Returns the text with ABI names."""
        return names.with_abi_names(self.text)

    @property
    def short(self) -> str:
        """Returns the manual's short form."""
        return short_form(self.abi)

    @cached_property
    def memory(self) -> Optional[MemoryOperand]:
        """Returns the operand of a load or a store, else None."""
        width = LOADS.get(self.name) or STORES.get(self.name)
        if not width:
            return None
        register, offset, base = self.operands
        return MemoryOperand("r" if self.name in LOADS else "w", width, base, offset, register)

    @property
    def offset(self) -> int | None:
        """Returns the offset of a branch or of `jal`, else None."""
        return self.operands[-1] if self.name in BRANCHES or self.name == "jal" else None

    @property
    def csr(self) -> int | None:
        """Returns the control and status register that it writes, or None."""
        return self.operands[1] if self.name.startswith("csrr") and (self.name[4] == "w" or self.operands[2]) else None  # csrrs x0: no write


@lru_cache(maxsize=65536)
def instruction_of(line: bytes) -> Instruction | None:
    """Decodes a reply of `dis`; returns None for an error."""
    if line.startswith(b"error"):
        return None
    word, text = line.decode().split(": ")[1].split(" ", 1)
    name, _, rest = text.partition(" ")
    operands = tuple(int(number, 0) for number in OPERAND.findall(rest))
    is_written = rest.startswith("x") and name not in STORES and name not in BRANCHES
    return Instruction(word, text, name, operands, operands[0] if is_written else 0)


# The manual's table of assembler pseudoinstructions: a text with ABI names, and the short form of it, in the order of preference.
SHORT = ((r"addi zero, zero, 0", "nop"), (r"addi (\w+), zero, (\S+)", r"li \1, \2"), (r"addi (\w+), (\w+), 0", r"mv \1, \2"),
         (r"xori (\w+), (\w+), -1", r"not \1, \2"), (r"sub (\w+), zero, (\w+)", r"neg \1, \2"),
         (r"sltiu (\w+), (\w+), 1", r"seqz \1, \2"), (r"sltu (\w+), zero, (\w+)", r"snez \1, \2"),
         (r"slt (\w+), (\w+), zero", r"sltz \1, \2"), (r"slt (\w+), zero, (\w+)", r"sgtz \1, \2"),
         (r"beq (\w+), zero, (.+)", r"beqz \1, \2"), (r"bne (\w+), zero, (.+)", r"bnez \1, \2"),
         (r"bge zero, (\w+), (.+)", r"blez \1, \2"), (r"bge (\w+), zero, (.+)", r"bgez \1, \2"),
         (r"blt (\w+), zero, (.+)", r"bltz \1, \2"), (r"blt zero, (\w+), (.+)", r"bgtz \1, \2"),
         (r"jal zero, (.+)", r"j \1"), (r"jal ra, (.+)", r"jal \1"), (r"jalr zero, 0\(ra\)", "ret"),
         (r"jalr zero, 0\((\w+)\)", r"jr \1"), (r"jalr ra, 0\((\w+)\)", r"jalr \1"),
         (r"csrrs (\w+), (\w+), zero", r"csrr \1, \2"), (r"csrrw zero, (\w+), (\w+)", r"csrw \1, \2"),
         (r"csrrs zero, (\w+), (\w+)", r"csrs \1, \2"), (r"csrrc zero, (\w+), (\w+)", r"csrc \1, \2"),
         (r"csrr([wsc])i zero, (\w+), (\w+)", r"csr\1i \2, \3"))


@lru_cache(maxsize=65536)
def short_form(text: str) -> str:
    """Returns the manual's short form of a text with ABI names, or the text itself."""
    matches = ((re.fullmatch(pattern, text), form) for pattern, form in SHORT)
    return next((match.expand(form) for match, form in matches if match), text)
