"""The merged state at the head of a loop.

A head keeps the nodes and conditions that all paths have when they arrive there. A byte that differs between the paths becomes an unknown of the loop
(`cells`). An unknown has another value in each round, so a head keeps no node and no condition that depends on its own unknowns."""
from __future__ import annotations

from collections import Counter
from typing import Any, Counter as Counts, Dict, FrozenSet, List, NamedTuple, Optional, Set, Tuple, TYPE_CHECKING

from rvlook.symbolic.cells import Cell
from rvlook.symbolic.facts import Fact, form_of
from rvlook.symbolic.fields import SymbolicFetch
from rvlook.symbolic.merge import Merged
from rvlook.symbolic.nodes import Node
from rvlook.symbolic.ranks import Edge, Passage
from rvlook.symbolic.schedule import Position
from rvlook.symbolic.sweeps import Sweep
from rvlook.symbolic.tags import Place

if TYPE_CHECKING:
    from rvlook.symbolic.state import State

Origin = Tuple[int, ...]  # the pcs of the heads through which a path has come, the last one first


class Hints(NamedTuple):
    """The results of a head that was dropped, for the next head at the same place. The loop around the head has more states by then, so the same
    bytes are unknown again, and the same facts do not hold again."""
    unknown: FrozenSet[Place] = frozenset()  # the unknown bytes
    lost: FrozenSet[Fact] = frozenset()  # facts that did not hold, without bounds that are expressions
    drops: Counts[Any] = Counter()  # how often the dropped head has dropped each fact (`Merged.drops`)


class Head(Merged):
    """The merged state at the head of a loop."""

    def __init__(self, state: State, prefix: str, hints: Optional[Hints] = None) -> None:
        super().__init__(state, prefix)
        self.is_known = hints is not None  # whether there was a head at this place before
        self.hints = hints or Hints()
        self.lost = self.hints.lost
        self.drops = self.hints.drops.copy()
        # ---- what all paths have in common
        self.unknown_mask = 0  # the mask of the variables of its unknowns
        self.conditions: List[Node] = []  # the common conditions
        self.public: Set[Node] = set()  # the nodes that have come out on all paths
        self.model: Dict[str, int] = {}  # values of the variables on the path that was merged last
        self.equations: Dict[Node, None] = {}  # comparisons of words with numbers that the conditions of the paths contain
        # ---- loads of the window in this activation, on any of the paths
        self.input_count = 0  # the greatest number of loads of inputs
        self.fetched: Dict[int, Tuple[int, int]] = {}  # the loaded bytes: pc and context, by address
        self.symbolic_fetches: List[SymbolicFetch] = []  # loads at expressions that are the same in each round
        self.sweep = Sweep()  # the range of the loads that are at another place in each round
        # ---- how it was explored last
        self.explored: Dict[Place, Cell] = {}  # the cells
        self.facts_explored: List[Fact] = []
        self.range_explored: List[SymbolicFetch] = []  # the range of its loads (`Sweep.entry`)
        # ---- where the loop is in the program
        self.sources: Set[str] = set()  # the prefixes of the heads from which paths came, and "" for paths that come from no head
        self.turn: Position = ()  # the place of the loop in the program
        self.origin: Origin = ()  # the heads from which paths enter the loop, if the merged state is divided by them
        # ---- whether the loop ends: paths that arrived here in the last pass
        self.arrivals: List[Edge] = []  # paths from heads, with the words that change between two arrivals here
        self.passages: List[Passage] = []  # paths from heads, with the words that change since the heads that a path has passed

    def hints_for_next(self) -> Hints:
        """Returns the hints with which the next head at this place begins."""
        unknown = frozenset(at for at, cell in self.cells.items() if type(cell) is tuple)
        lost = self.lost | {*map(form_of, self.tried)} - {*map(form_of, self.facts)}
        return Hints(unknown, lost, self.drops)
