"""The bytes of merged states.

The place of a byte is its address, or "x10_0" for byte 0 of register x10, or "c105_0" for byte 0 of the control and status register 0x105. A *cell*
is the byte at a place of a merged state: a number, a Node that all merged paths have there, or an unknown. An *unknown* is a tuple (taint, values): a
byte that differs between the paths. Its values are a set of numbers, or None for any value. The variable of an unknown is named after the place."""
from __future__ import annotations

from typing import Any, Dict, FrozenSet, Iterable, Iterator, List, Optional, Set, Tuple, TYPE_CHECKING

from rvlook.symbolic.facts import SUM_OF_WORDS
from rvlook.symbolic.nodes import INPUT, SECRET, Byte, Node
from rvlook.symbolic.tags import Place
from rvlook.symbolic.words import byte, plain

if TYPE_CHECKING:
    from rvlook.symbolic.facts import Fact
    from rvlook.symbolic.state import State

MAX_UNKNOWN_VALUES = 16  # the most values of an unknown; one with more values may have any value
COMPARED_BLOCK_BYTES = 64  # two memories are compared in blocks of so many bytes
Cell = Any  # an int, a Node, or an unknown (int, Optional[FrozenSet[int]])


def name_of(prefix: str, at: Place, taint: int) -> str:
    """Returns the name of the variable for the unknown at a place of the merged state with a prefix. An unknown whose taint changes gets another
    variable."""
    return "%s_%d_%s" % (prefix, taint, "%x" % at if type(at) is int else at)


def bytes_at(at: Place) -> List[Place]:
    """Returns the places of the four bytes of a word. The place of a word is its address, or the name of a register such as "x10"."""
    return [at + n if isinstance(at, int) else "%s_%d" % (at, n) for n in range(4)]


def is_unknown_word(cells: Dict[Place, Cell], at: Place) -> bool:
    """Returns whether each byte of a word may have any value."""
    for place in bytes_at(at):
        cell = cells.get(place)
        if type(cell) is not tuple or cell[1] is not None:
            return False
    return True


def sums_among(facts: Iterable[Fact], cells: Dict[Place, Cell]) -> Dict[Place, Fact]:
    """Returns the facts of the kind SUM_OF_WORDS about words that may have any value, by the place of the word that is the sum."""
    return {fact.x: fact for fact in facts if fact.kind == SUM_OF_WORDS and is_unknown_word(cells, fact.x)}


def byte_at(content: bytes, base: int, at: Place) -> int:
    """Returns the byte at an address of a memory that begins at `base`. Returns 0 for a byte of a register."""
    return content[at - base] if isinstance(at, int) else 0


def raw_cells(state: State, zeros: Tuple[int, ...] = ()) -> Iterator[Tuple[Place, Byte]]:
    """Yields the bytes of a state with their places: those of the region that are expressions, and those of all registers. The registers `zeros` are
    taken as 0."""
    for at, part in state.symbolic_bytes.items():
        yield at, plain(part)
    for number in range(1, 32):
        for n in range(4):
            yield "x%d_%d" % (number, n), 0 if number in zeros else byte(state.regs[number], n)
    for number, value in state.csr.items():
        for n in range(4):
            yield "c%x_%d" % (number, n), byte(value, n)


def changed_bytes(one: bytes, two: bytes, base: int) -> List[int]:
    """Returns the addresses at which two memories of equal size differ. Both begin at `base`."""
    if one == two:
        return []
    changed: List[int] = []
    for start in range(0, len(one), COMPARED_BLOCK_BYTES):
        end = start + COMPARED_BLOCK_BYTES
        if one[start:end] != two[start:end]:
            changed += [base + n for n in range(start, end) if one[n] != two[n]]
    return changed


def values_of(node: Byte) -> Optional[FrozenSet[int]]:
    """Returns the numbers among which conditions choose a byte. Returns None if there are more than MAX_UNKNOWN_VALUES, or if the byte may also be an
    expression."""
    values: Set[int] = set()
    stack: List[Byte] = [node]
    while stack and len(values) <= MAX_UNKNOWN_VALUES:
        top = stack.pop()
        if type(top) is int:
            values.add(top)
        elif top.op == "ite8":
            stack += top.args[1:]
        elif top.op == "byte" and top.args[0].op == "ite":
            choice, n = top.args
            stack += [byte(word, n) for word in choice.args[1:]]
        else:
            return None
    return frozenset(values) if len(values) <= MAX_UNKNOWN_VALUES else None


def taint_of(state: State, node: Node) -> int:
    """Returns the taint of a byte in a state. A byte of the secret that has come out counts as an input."""
    return node.taint & ~SECRET | INPUT if node in state.public else node.taint


def taint_and_values(cell: Cell) -> Tuple[int, Optional[FrozenSet[int]]]:
    """Returns the taint of a cell and the set of its values; None if it may have any value."""
    if type(cell) is tuple:
        return cell[0], cell[1]
    if type(cell) is int:
        return INPUT, frozenset([cell])
    return cell.taint, None


def unknown_places(cells: Dict[Place, Cell]) -> List[Place]:
    """Returns the places of the unknowns among cells."""
    return [at for at, cell in cells.items() if type(cell) is tuple]
