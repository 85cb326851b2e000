"""Comparisons of the program's assembler and disassembler with another tool's. Each returns the differences as lines, and the number of cases.

Three things differ, and are left out. GNU's and LLVM's assemblers have no text for an empty set of a fence. Their disassemblers know words that
are no instructions of RV32IM with Zicsr (`FOREIGN`). They take a word whose lowest bits are not 11 for a shorter instruction.
"""
from __future__ import annotations

from typing import Any, List, Optional, Tuple

from .rows import all_rows, random_words
from .tools import Program

Found = Tuple[List[str], int]

# Words that another disassembler knows: mask, match, an example, and its meaning there. The program executes fence.tso as a fence.
# It disassembles each fence with fm as a word.
FOREIGN = (
    (0xFE00707F, 0x02001013, 0x02001013, "slli of RV64"), (0xFE00707F, 0x02005013, 0x02005013, "srli of RV64"),
    (0xFE00707F, 0x42005013, 0x42005013, "srai of RV64"), (0xFFFFFFFF, 0x8330000F, 0x8330000F, "fence.tso"),
    (0xFFFFFFFF, 0x0000100F, 0x0000100F, "fence.i of Zifencei"), (0xFFFFFFFF, 0x00200073, 0x00200073, "uret of N"),
    (0xFFFFFFFF, 0x20200073, 0x20200073, "hret of an early H"), (0xFFF07FFF, 0x10400073, 0x10400073, "sfence.vm of version 1.9"),
    (0xFFF0707F, 0xF0000053, 0xF00A0953, "fmv.w.x of F"),
    (0xFFF0707F, 0xE0000053, 0xE00B0DD3, "fmv.x.w of F"), (0xFFFFFFFF, 0x7B200073, 0x7B200073, "dret of debug mode"))


def has_text_elsewhere(text: str) -> bool:
    """Returns whether other assemblers have a text: not for a fence with an empty set."""
    return not (text.startswith("fence ") and "0" in text)


def is_foreign(word: int) -> bool:
    """Returns whether a word is one that another disassembler knows."""
    return any(word & mask == match for mask, match, _, _ in FOREIGN)


def differing(title: str, cases: List[Any], ours: List[Any], theirs: List[Any]) -> Found:
    """Returns the cases whose results differ."""
    if not len(cases) == len(ours) == len(theirs):
        return ["%s: %d cases, %d and %d results" % (title, len(cases), len(ours), len(theirs))], len(cases)
    lines = ["%s: %s: %s, the other %s" % (title, *it) for it in zip(cases, ours, theirs) if it[1] != it[2]]
    return lines, len(cases)


def compare_texts(ours: Program, other: Any, share: int = 1) -> Found:
    """Assembles one of `share` texts of all rows by both, and compares with the words of the model."""
    rows = [(text, word) for text, word in all_rows().items() if has_text_elsewhere(text)][::share]
    texts, words = [text for text, _ in rows], [word for _, word in rows]
    first, count = differing("model", texts, ours.assemble(texts), words)
    second, _ = differing("assembled", texts, ours.assemble(texts), other.assemble(texts))
    return first + second, count


def compare_words(ours: Program, other: Any, share: int = 1) -> Found:
    """Disassembles one of `share` words of all rows by both, and assembles the texts of each by the other."""
    words = list(all_rows().values())[::share]
    mine, theirs = ours.disassemble(words), other.disassemble(words)
    found, count = differing("disassembled", [hex(it) for it in words], mine, theirs)
    known = [(word, text, its) for word, text, its in zip(words, mine, theirs) if text and its and has_text_elsewhere(text)]
    back = [[word for word, _, _ in known], other.assemble([text for _, text, _ in known]), ours.assemble([its for _, _, its in known])]
    for result in back[1:]:
        found += differing("assembled again", [text for _, text, _ in known], back[0], result)[0]
    return found, count


def compare_random(ours: Program, other: Any, seed: str, count: int) -> Found:
    """Disassembles random words by both: each is the same instruction for both, or none."""
    words = [it for it in random_words(seed, count) if not is_foreign(it)]
    mine: List[Optional[str]] = ours.disassemble(words)
    return differing("random", [hex(it) for it in words], mine, other.disassemble(words))
