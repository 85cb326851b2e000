"""Shows that loops end, by words that change in one direction.

A path that goes on for ever passes some heads again and again, and takes some ways between them again and again. These ways are in one strongly
connected component. If no way of a component lets a word fall, then the ways on which it grows are taken a finite number of times: the word has
32 bits. They are left out, and the components of the others are looked at in turn."""
from __future__ import annotations

from typing import Callable, Dict, FrozenSet, Iterable, Iterator, List, NamedTuple, Optional, Sequence, Set, Tuple, Union

from rvlook.symbolic.conditions import all_of, any_of, ult
from rvlook.symbolic.nodes import Condition, Node, Word, mask_of
from rvlook.symbolic.words import not_

MAX_COMPARED_NUMBERS = 8  # how many of the numbers with which a loop compares a word are used as measures


class Measure(NamedTuple):
    """A word that changes in one direction in each round, as long as the loop goes on. With a number, the measure is not the word itself, but whether
    the word is above this number."""
    place: Union[int, str]  # the address of a word, or a register such as "x10"
    grows: bool  # the direction: whether the word grows; else it falls
    number: Optional[int] = None


Change = Tuple[Union[int, str], Word, Word]  # the place of a word, the word at an earlier head, and the word now


class Edge(NamedTuple):
    """A way of a path from one head to another. The heads are named by their prefixes."""
    source: str  # the head at which the way begins
    target: str  # the head at which it ends
    strict: Set[Measure]  # the measures that change in their direction on this way
    weak: Set[Measure]  # the measures that change in their direction or stay the same on this way


class Passage(NamedTuple):
    """A path that arrives at the head of a loop."""
    last: str  # the prefix of the head that the path has passed last
    edges: Dict[str, Edge]  # the ways to this head from the last head, and from the heads around the last head; by the head at which the way begins


def directions(changes: Sequence[Change], equations: Iterable[Node],
               implied: Callable[[Sequence[Condition]], Sequence[bool]]) -> Tuple[Set[Measure], Set[Measure]]:
    """Returns the measures that change in their direction, and the measures that do so or stay the same. `equations` compare words with numbers.
    `implied` returns for each of some conditions whether it always holds."""
    measures = list(measured(changes, equations))
    answers = implied([condition for _, *pair in measures for condition in pair])  # two for each measure
    strict: Set[Measure] = set()
    weak: Set[Measure] = set()
    for (measure, _, _), is_strict, is_weak in zip(measures, answers[::2], answers[1::2]):
        if is_strict:
            strict.add(measure)
        if is_strict or is_weak:
            weak.add(measure)
    return strict, weak


def measured(changes: Sequence[Change], equations: Iterable[Node]) -> Iterator[Tuple[Measure, Condition, Condition]]:
    """Yields each measure of changed words with two conditions: that the measure changes in its direction, and that it does so or stays the same. A
    measure with a number is for an index that begins again at 0 after it has passed the number with which it is compared."""
    for place, before, now in changes:
        for grows in (True, False):
            less, more = (before, now) if grows else (now, before)
            yield Measure(place, grows), ult(less, more), not_(ult(more, less))
        for number in numbers_compared(equations, before):
            was_above = ult(number, before)
            is_above = ult(number, now)
            yield Measure(place, grows=False, number=number), all_of(was_above, not_(is_above)), any_of(was_above, not_(is_above))


def comparisons(conditions: Iterable[Node]) -> List[Node]:
    """Returns the equations with a number that are conditions, or whose negations are conditions."""
    compared = (condition.args[0] if condition.op == "not" else condition for condition in conditions)
    return [equation for equation in compared if equation.op in ("eq", "eq8") and type(equation.args[1]) is int]


def numbers_compared(equations: Iterable[Node], word: Word) -> List[int]:
    """Returns numbers with which a word, or a part of it, is compared in equations, and the numbers before them: a round may compare the word after
    it has grown. Returns at most MAX_COMPARED_NUMBERS numbers."""
    numbers: Dict[int, None] = {}
    for equation in equations:
        compared, number = equation.args
        if mask_of(compared) & mask_of(word):
            numbers[number] = None
            if number > 0:
                numbers[number - 1] = None
    return list(numbers)[:MAX_COMPARED_NUMBERS]


def is_ranked(rounds: List[Edge]) -> bool:
    """Returns whether the rounds of a loop are shown to end. A measure that no round changes against its direction, and some rounds change strictly,
    shows that these rounds are executed a finite number of times. The remaining rounds are examined in the same way."""
    while rounds:
        never_reversed = set.intersection(*(edge.weak for edge in rounds))
        remaining = [edge for edge in rounds if edge.strict.isdisjoint(never_reversed)]
        if len(remaining) == len(rounds):
            return False
        rounds = remaining
    return True


def circular(edges: List[Edge]) -> Set[str]:
    """Returns the heads that a path may pass forever on the ways `edges`. Ways that are taken a finite number of times are left out as in
    `is_ranked`, for each strongly connected component."""
    while edges:
        remaining: List[Edge] = []
        for component in components(edges):
            never_reversed = set.intersection(*(edge.weak for edge in component))
            remaining += [edge for edge in component if edge.strict.isdisjoint(never_reversed)]
        if len(remaining) == len(edges):
            break
        edges = remaining
    return {edge.source for edge in edges}


def origins(sources: Dict[str, Set[str]], inside: Set[str], name: str) -> Set[str]:
    """Returns the heads from which paths come to the head `name`, directly or through heads in `inside` alone. `sources` has the heads from which
    paths come to each head directly, and `inside` has heads inside other loops."""
    outer: Set[str] = set()
    seen = {name}
    stack = [name]
    while stack:
        for source in sources[stack.pop()] - seen:
            seen.add(source)
            if source in inside:
                stack.append(source)
            elif source in sources:
                outer.add(source)
    return outer


def outer_ways(passages: Dict[str, List[Passage]], sources: Dict[str, Set[str]], inside: Set[str]) -> List[Edge]:
    """Returns the ways between the heads that are not in `inside`. Each goes from one of them to the next, directly or through heads in `inside`.
    `passages` has the paths that arrive at each head, and `sources` the heads from which paths come."""
    edges: List[Edge] = []
    for name in passages.keys() - inside:
        for passage in passages[name]:
            starts = origins(sources, inside, passage.last) if passage.last in inside else {passage.last} & passages.keys()
            edges += [passage.edges.get(start, Edge(start, name, set(), set())) for start in sorted(starts)]
    return edges


def components(edges: List[Edge]) -> List[List[Edge]]:
    """Returns the edges of each strongly connected component."""
    reached = {edge.source: {edge.source} for edge in edges}  # the heads that each head reaches
    is_changed = True
    while is_changed:
        is_changed = False
        for edge in edges:
            if extends(reached, edge):
                is_changed = True
    components: Dict[FrozenSet[str], List[Edge]] = {}  # the components by the heads of the component
    for edge in edges:
        if edge.source in reached.get(edge.target, ()):
            key = frozenset(name for name in reached[edge.source] if edge.source in reached.get(name, ()))
            components.setdefault(key, []).append(edge)
    return list(components.values())


def extends(reached: Dict[str, Set[str]], edge: Edge) -> bool:
    """Adds the target of an edge, and the heads that the target reaches, to each set in `reached` that has the source of the edge. Returns whether
    anything was added."""
    reached_by_target = reached.get(edge.target, set()) | {edge.target}
    incomplete = [heads for heads in reached.values() if edge.source in heads and not reached_by_target <= heads]
    for heads in incomplete:
        heads |= reached_by_target
    return bool(incomplete)
