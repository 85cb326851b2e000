"""The heads of the loops at which paths are merged: which merged head a path joins, which is explored next, and whether the loops end.

A *head* is the first instruction of a loop. A `Head` is the merged state of paths that arrive there with the same calls and indices. The *prefix* of
a head is a name for it, with which the names of its unknowns begin."""
from __future__ import annotations

from typing import Callable, Dict, List, Optional, Set, Tuple, TYPE_CHECKING

from rvlook.symbolic.facts import mask_of_all
from rvlook.symbolic.heads import Head, Hints, Origin
from rvlook.symbolic.loop_merger import LoopMerger
from rvlook.symbolic.merge import Key, Merged, key_of
from rvlook.symbolic.ranks import Edge, circular, is_ranked, outer_ways
from rvlook.symbolic.schedule import Position, turn_of
from rvlook.symbolic.tags import Place

if TYPE_CHECKING:
    from rvlook.symbolic.nodes import Word
    from rvlook.symbolic.search import Search
    from rvlook.symbolic.state import State

MAX_ORIGIN_HEADS = 3  # how many of the last heads before a loop divide its merged state (`Loops.origin_of`)
Turn = Tuple[bool, bool, int, Position]  # the sort key of merged states that are to be explored (`Loops.turn`)


class Loops:
    """The heads of the merged loops of a search."""

    def __init__(self, search: Search) -> None:
        self.search = search
        self.heads: Dict[Key, Tuple[LoopMerger, Head]] = {}  # the heads by what all paths of a head have in common
        self.hints: Dict[Key, Hints] = {}  # what is known about heads that were dropped, by the same key
        self.count = 0  # how many heads were made, which numbers their prefixes
        self.has_dropped = False  # whether a head was dropped
        self.is_final = False  # whether the last pass has begun, in which each head is explored again, and no head has changed since

    def merge(self, state: State) -> Optional[Tuple[LoopMerger, Head]]:
        """Merges a path at the head of a loop. Returns the head with its merger if the head has to be explored again and is not queued yet."""
        key = *key_of(state), state.pending_outputs
        origin = self.origin_of(state)
        part_of_head = self.search.indices.part(key, state), origin  # what divides the paths at one place into several heads
        key = *key, part_of_head
        if key in self.heads:
            merger, head = self.heads[key]
            is_changed = merger.join_path(head, state)
        else:
            merger, head = self.add_head(key, state, origin)
            is_changed = True
            self.is_final = False
        head.sources.add(state.source_head or "")
        if not is_changed or head.is_queued:
            return None
        head.is_queued = True
        return merger, head

    def add_head(self, key: Key, state: State, origin: Origin) -> Tuple[LoopMerger, Head]:
        """Makes a head for the first path that arrives with a key. Returns it with its merger."""
        merger = LoopMerger(self.search, "v%d" % self.count)
        self.count += 1
        head = Head(state.fork(state.pc, is_again=True), merger.prefix, self.hints_for(key))
        head.origin = origin
        head.turn = turn_of(self.search.flows, state)
        self.heads[key] = merger, head
        merger.begin_head(head, state)
        return merger, head

    def origin_of(self, state: State) -> Origin:
        """Returns the pcs of the last heads through which a path has come, the last one first. They divide the merged state at the head, so that
        words which depend on each other stay together, such as the pointer and the length of a copy. Returns an empty tuple unless the path enters
        a loop that has no loop inside and writes no index."""
        flow = self.search.flows.by_entry.get(state.entry)
        if state.source_head is None or flow is None or not flow.is_innermost(state.pc) or self.search.indices.is_changed(state.entry, state.pc):
            return ()
        source = next(head for merger, head in self.heads.values() if merger.prefix == state.source_head)
        if source.state.pc == state.pc:  # a further round of the same loop
            return source.origin
        return (source.state.pc, *source.origin)[:MAX_ORIGIN_HEADS]

    def hints_for(self, key: Key) -> Optional[Hints]:
        """Returns the hints for a new head, or None if there was no head at this place before. The unknown bytes are those of all parts into which
        the heads at the place are divided. The lost facts and the drops are those of the same part."""
        place = key[:-1]  # the last member of a key is the part
        hints_at_place = [hints for other, hints in self.hints.items() if other[:-1] == place]
        hints_at_place += [head.hints_for_next() for other, (_, head) in self.heads.items() if other[:-1] == place]
        if not hints_at_place:
            return None
        hints_of_part = self.hints.get(key, Hints())
        return hints_of_part._replace(unknown=frozenset().union(*(hints.unknown for hints in hints_at_place)))

    @staticmethod
    def turn(merged: Merged) -> Turn:
        """Returns the key by which merged states are sorted: the state with the least key is explored first. Its first members say whether the state
        is that of a stop, and whether there was a head at its place before. Then come the depth of a loop at a new place (negated), and its place in
        the program. Heads at a new place come first, and inner loops before those around them. The search then knows what an inner loop changes
        before it explores the outer loop again."""
        if not isinstance(merged, Head):
            return True, False, 0, ()
        depth = 0 if merged.is_known else len(merged.turn)
        return False, merged.is_known, -depth, merged.turn

    def drop_inner_heads(self, name: str, outer: Head) -> None:
        """Drops the heads inside a loop that is explored again, if all paths to these heads come from the loop. `name` is the prefix of the outer
        head. The new paths make the inner heads again, from the present state of the outer head. The words of an inner head then stay expressions
        over those of the outer head. No path is lost: the last pass explores the first path and all merged states again, and each path must be
        included where it is merged."""
        if self.is_final or not outer.turn:
            return
        inside = {merger.prefix: head for merger, head in self.heads.values() if is_around(outer, head)}
        while True:
            entered_from_outside = [prefix for prefix, head in inside.items() if not head.sources <= {name, *inside}]
            if not entered_from_outside:
                break
            for prefix in entered_from_outside:
                del inside[prefix]
        self.has_dropped = self.has_dropped or bool(inside)
        self.hints.update((key, head.hints_for_next()) for key, (merger, head) in self.heads.items() if merger.prefix in inside)
        self.heads = {key: (merger, head) for key, (merger, head) in self.heads.items() if merger.prefix not in inside}
        for _, head in self.heads.values():
            if not head.sources.isdisjoint(inside):
                head.sources = head.sources - inside.keys() | {name}
        queue = self.search.merge_queue
        queue[:] = [(merger, merged) for merger, merged in queue if merged not in inside.values()]

    def last_pass(self) -> List[Tuple[LoopMerger, Head]]:
        """Begins the last pass, once nothing changes any more. Returns all heads: they are explored again to show that the loops end. Returns an
        empty list if the last pass has begun before. If a head was dropped, also queues the first path and the states of stops."""
        if self.is_final:
            return []
        self.is_final = True
        self.search.forget_rereads()
        for _, head in self.heads.values():
            head.arrivals = []
            head.passages = []
            head.is_queued = True
        if self.has_dropped:
            self.search.explore_again()
        return list(self.heads.values())

    @property
    def is_examined(self) -> bool:
        """Returns whether the last pass has begun and no head has changed since. Without heads no last pass is needed."""
        return self.is_final or not self.heads

    # ---- whether the loops end

    def endless(self) -> List[int]:
        """Returns the pcs of the heads of loops that are not shown to end. A head is passed a finite number of times if a word grows, or falls, each
        time it is passed again. First, the heads for which this holds are left out one after another. Then the circular ways between the remaining
        heads are examined."""
        remaining = {merger.prefix: head for merger, head in self.heads.values()}
        while True:
            ended = [name for name, head in remaining.items() if is_ranked([edge for edge in head.arrivals if edge.source in remaining])]
            if not ended:
                break
            for name in ended:
                del remaining[name]
        passages = {name: [passage for passage in head.passages if passage.last in remaining] for name, head in remaining.items()}
        sources = {name: head.sources for name, head in remaining.items()}
        edges = outer_ways(passages, sources, self.finite_inner_heads(remaining))
        return sorted({remaining[name].state.pc for name in circular(edges)})

    @staticmethod
    def finite_inner_heads(heads: Dict[str, Head]) -> Set[str]:
        """Returns the prefixes of the heads inside others that are passed a finite number of times between two passes of the others. Their own rounds
        end, and there is no circular way between them. `heads` has the heads that are examined, by prefix."""
        inner = {name: head for name, head in heads.items() if any(is_around(outer, head) for outer in heads.values())}
        finite = {name for name, head in inner.items() if is_ranked([edge for edge in head.arrivals if edge.source == name])}
        ways = [Edge(source, name, strict=set(), weak=set()) for name in finite for source in heads[name].sources & finite - {name}]
        return set() if circular(ways) else finite

    def heads_around(self, name: str, state: State) -> List[str]:
        """Returns the prefixes of the heads around the head `name` on whose unknowns the conditions of a path depend."""
        mask = mask_of_all(state.conditions)
        heads = {merger.prefix: head for merger, head in self.heads.values()}
        return [prefix for prefix, head in heads.items() if head.unknown_mask & mask and is_around(head, heads[name])]

    def words_before(self, name: str) -> Tuple[Callable[[Place], Word], List[Place]]:
        """Returns the function that gives the words in the state at a head, and the places of the words that are tried as a measure. `name` is the
        prefix of the head."""
        merger, head = next((merger, head) for merger, head in self.heads.values() if merger.prefix == name)
        return merger.merged_word_reader(head, head.cells), merger.candidates(head)


def is_around(outer: Head, head: Head) -> bool:
    """Returns whether the loop of `outer` is around `head`: the turn of a head begins with the turns of the loops around it (`turn_of`)."""
    depth = len(outer.turn)
    return 0 < depth < len(head.turn) and head.turn[:depth] == outer.turn
