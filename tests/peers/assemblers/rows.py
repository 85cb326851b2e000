"""Texts of every row of the encoding with all operands at their corners, and random words."""
from __future__ import annotations

import random
from itertools import product
from typing import Dict, Iterator

from models.instruction_words import FORMATS, assemble, named

REGISTERS = (0, 1, 2, 15, 16, 31)
SIGNED12 = (-2048, -2047, -1025, -1, 0, 1, 2, 31, 32, 1023, 1024, 2046, 2047)
BRANCHES = (-4096, -4094, -2050, -2048, -32, -2, 0, 2, 30, 32, 2046, 2048, 4094)
JUMPS = (-1048576, -1048574, -4098, -4096, -2048, -2, 0, 2, 2046, 2048, 4096, 524288, 1048574)
UPPER = (0, 1, 2, 0x7FFFF, 0x80000, 0xAAAAA, 0xFFFFE, 0xFFFFF)
SHIFTS = (0, 1, 2, 15, 16, 30, 31)
NUMBERS = (0, 1, 0x100, 0x105, 0x180, 0x300, 0x301, 0x305, 0x320, 0x340, 0x341, 0x344, 0x3A0, 0x3A3, 0x3B0, 0x3BF, 0x7FF, 0x800, 0xB00, 0xB82,
           0xF11, 0xF15, 0xFFF)
SETS = ["".join(letter for letter, bit in zip("iorw", (8, 4, 2, 1)) if number & bit) or "0" for number in range(16)]
WHOLE = ("ecall", "ebreak", "mret", "sret", "wfi")
OPERANDS = {
    "lui": (REGISTERS, UPPER), "auipc": (REGISTERS, UPPER), "jal": (REGISTERS, JUMPS), "jalr": (REGISTERS, SIGNED12, REGISTERS),
    "branch": (REGISTERS, REGISTERS, BRANCHES), "load": (REGISTERS, SIGNED12, REGISTERS), "store": (REGISTERS, SIGNED12, REGISTERS),
    "immediate": (REGISTERS, REGISTERS, SIGNED12), "shift": (REGISTERS, REGISTERS, SHIFTS), "register": (REGISTERS, REGISTERS, REGISTERS),
    "csr": (REGISTERS, NUMBERS, REGISTERS), "csr_number": (REGISTERS, NUMBERS, (0, 1, 15, 16, 31)), "vma": (REGISTERS, REGISTERS)}


def fence_word(before: int, after: int) -> int:
    """Returns the word of a fence with these sets of four bits."""
    return 0x0F | before << 24 | after << 20


def all_rows() -> Dict[str, int]:
    """Returns each text with its word by the model of tests/models."""
    found = {}
    for kind in FORMATS:
        for name in named(kind):
            for operands in product(*OPERANDS[kind]):
                text, word = assemble(name, *operands)
                found[text] = word
    found.update({name: assemble(name)[1] for name in WHOLE})
    found.update({"fence %s, %s" % (SETS[p], SETS[s]): fence_word(p, s) for p in range(16) for s in range(16)})
    return found


def random_words(seed: str, count: int) -> Iterator[int]:
    """Yields random words with the length of 32 bits: lowest bits 11, and bits 4:2 not 111. Every second one is an instruction with a few bits
    changed, so that words close to an instruction are frequent."""
    chosen, words = random.Random(seed), list(all_rows().values())
    while count:
        word = chosen.getrandbits(32) | 3
        if count % 2:
            word = chosen.choice(words)
            for _ in range(chosen.randrange(1, 4)):
                word ^= 1 << chosen.randrange(2, 32)
        if word & 0x1C != 0x1C:
            count -= 1
            yield word
