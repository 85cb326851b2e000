"""The instructions of --allow: what the rule of objects cannot know about their accesses is taken to be right."""
from __future__ import annotations

from typing import Dict, FrozenSet, List, Sequence, Set, TYPE_CHECKING, Tuple

from rvlook.errors import RvlookError
from rvlook.finders.secrets import place_and_size

if TYPE_CHECKING:
    from rvlook.protocol.symbols import Symbols

WORD_BYTES = 4  # bytes of an instruction, and of a place without a size


class Allowed:
    """The options --allow."""

    def __init__(self, texts: Sequence[str], symbols: Symbols, region: Tuple[int, int]) -> None:
        self.pcs: Dict[str, FrozenSet[int]] = {text: instructions_of(text, symbols, region) for text in texts}  # of the instructions of each option
        self.every = frozenset().union(*self.pcs.values())  # the pcs of the instructions of all options

    def has(self, pc: int) -> bool:
        """Returns whether an option names an instruction."""
        return pc in self.every

    def unused(self, used: Set[int]) -> List[str]:
        """Returns the options that name none of these instructions."""
        return [text for text, pcs in self.pcs.items() if not pcs & used]


def instructions_of(text: str, symbols: Symbols, region: Tuple[int, int]) -> FrozenSet[int]:
    """Returns the pcs of the instructions that a text PLACE, PLACE:BYTES or FILE:LINE names. Raises RvlookError if the enclave has no instruction
    there."""
    low, high = region
    if is_line(text, symbols):
        pcs = frozenset(pc for pc in range(low, high, WORD_BYTES) if has_line(symbols, pc, text))
    else:
        at, count = place_and_size(text, symbols)
        pcs = frozenset(pc for pc in range(at & -WORD_BYTES, at + (count or WORD_BYTES), WORD_BYTES) if low <= pc < high)
    if not pcs:
        raise RvlookError("--allow names no instruction of the enclave with '%s'; use PLACE[:BYTES] or FILE:LINE" % text)
    return pcs


def is_line(text: str, symbols: Symbols) -> bool:
    """Returns whether a text is FILE:LINE: the part before the last colon is no place."""
    name, colon, line = text.rpartition(":")
    return bool(colon) and line.isascii() and line.isdigit() and symbols.address(name) is None


def has_line(symbols: Symbols, pc: int, text: str) -> bool:
    """Returns whether an instruction belongs to a source line, also as a part of an inlined call there."""
    lines = [line for line in (symbols.source(pc), symbols.caller(pc)) if line]
    return any(line == text or line.endswith("/" + text) for line in lines)
