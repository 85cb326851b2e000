"""Facts about the words of a merged state: intervals, orders of two words, sums, sums and differences that stay the same, and words that are the sum
of two others.

A fact is a candidate first. It stays as long as each state that is merged implies it (Flanagan and Leino, Houdini, 2001). A merged state begins with
the facts that are left as conditions, so each of them holds in all states that were merged."""
from __future__ import annotations

from typing import Any, Callable, Dict, Iterable, List, NamedTuple, Sequence, Tuple, TYPE_CHECKING, Union

from rvlook.symbolic.conditions import all_of, eq, ult
from rvlook.symbolic.linear import equal
from rvlook.symbolic.nodes import HEAVY, M32, Condition, Node, Word, mask_of
from rvlook.symbolic.sessions import Session
from rvlook.symbolic.words import not_, operation

if TYPE_CHECKING:
    from rvlook.symbolic.solver import Solver

WordPlace = Union[int, str]  # the address of a word, a register x1 to x31, or b and the address of a byte
WordAt = Callable[[WordPlace], Word]  # returns the word at a place
Ranges = Dict[WordPlace, Tuple[int, int]]  # the least and the greatest number that a word may be
# Kinds of facts about the words x and y. Words are unsigned.
UPPER_BOUND = "most"  # x + offset <= bound
LOWER_BOUND = "least"  # x >= bound
NOT_ABOVE = "not above"  # x <= y
BELOW = "below"  # x < y
SUM_BOUND = "sum"  # x + y <= bound, and the sum has no carry
CONSTANT_DIFFERENCE = "difference"  # x - y == bound
CONSTANT_SUM = "total"  # x + y == bound
SUM_OF_WORDS = "added"  # x == bound + the sum of the words in `y`, each with its sign
POWERS = tuple((1 << n) - 1 for n in (0, 1, 2, 3, 4, 5, 6, 7, 8, 9, 10, 12, 16, 31))  # bounds that are tried for each word
LARGEST_BOUND = 1 << 16  # immediates of instructions and sizes of objects from this number on are not tried as bounds
QUERY_TIMEOUT_MS = 2000  # milliseconds of a query about the facts of a state


class Fact(NamedTuple):
    """A fact about words of a merged state."""
    kind: str  # UPPER_BOUND, LOWER_BOUND, NOT_ABOVE, BELOW, SUM_BOUND, CONSTANT_DIFFERENCE, CONSTANT_SUM or SUM_OF_WORDS
    x: WordPlace  # the place of the word
    y: Any = 0  # the place of a second word; for SUM_OF_WORDS, pairs of a place and a sign (1 or -1)
    offset: int = 0  # a number that is added to x
    bound: Any = 0  # a number or an expression


def condition_of(fact: Fact, word_at: WordAt) -> Condition:
    """Returns a fact as a condition on words. `word_at` returns the word at a place."""
    x = word_at(fact.x)
    if fact.kind == UPPER_BOUND:
        return not_(ult(fact.bound, operation("add", x, fact.offset)))
    if fact.kind == LOWER_BOUND:
        return not_(ult(x, fact.bound))
    if fact.kind == SUM_OF_WORDS:
        return equal(x, sum_of(fact, word_at))
    y = word_at(fact.y)
    if fact.kind == NOT_ABOVE:
        return not_(ult(y, x))
    if fact.kind == BELOW:
        return ult(x, y)
    if fact.kind == SUM_BOUND:
        return all_of(not_(ult(fact.bound, x)), not_(ult(operation("sub", fact.bound, x), y)))
    return eq(operation("sub" if fact.kind == CONSTANT_DIFFERENCE else "add", x, y), fact.bound)


def sum_of(fact: Fact, word_at: WordAt) -> Word:
    """Returns the sum to which the word `fact.x` is equal by a fact of the kind SUM_OF_WORDS. `word_at` returns the word at a place."""
    total: Word = fact.bound
    for at, sign in fact.y:
        total = operation("add" if sign > 0 else "sub", total, word_at(at))
    return total


def form_of(fact: Fact) -> Fact:
    """Returns a fact with None in place of a bound that is an expression. Other states have other expressions for the same kind of fact."""
    return fact._replace(bound=None) if type(fact.bound) is Node else fact


def without_bound(fact: Fact) -> Tuple[Any, ...]:
    """Returns all members of a fact but the bound. Facts with different bounds for the same words have these in common."""
    return fact[:4]  # kind, x, y and offset


def active(facts: Sequence[Fact]) -> List[Fact]:
    """Returns the facts that no other of these facts implies. These include only the least of several upper bounds of a word. A fact about two words
    is left out if it follows from their bounds."""
    without_number: List[Fact] = []  # the facts that are no upper bounds by a number
    least: Dict[Tuple[WordPlace, WordPlace, int], Fact] = {}  # the facts with the least upper bounds, by their words and their offset
    for fact in facts:
        if fact.kind in (UPPER_BOUND, SUM_BOUND) and type(fact.bound) is int:
            second_word = fact.y if fact.kind == SUM_BOUND else ""
            key = fact.x, second_word, fact.offset
            if key not in least or fact.bound < least[key].bound:
                least[key] = fact
        else:
            without_number.append(fact)
    candidates_left = [*least.values(), *without_number]
    ranges = ranges_of(candidates_left)
    below = {(fact.x, fact.y) for fact in without_number if fact.kind == BELOW}

    def is_implied(fact: Fact) -> bool:
        is_weaker_order = fact.kind == NOT_ABOVE and (fact.x, fact.y) in below
        return is_weaker_order or follows(fact, ranges)
    return [fact for fact in candidates_left if not is_implied(fact)]


def ranges_of(facts: Iterable[Fact]) -> Ranges:
    """Returns the range of each word that has bounds that are numbers, by the place of the word."""
    ranges: Ranges = {}
    for fact in facts:
        if fact.kind not in (UPPER_BOUND, LOWER_BOUND) or type(fact.bound) is not int:
            continue
        low, high = ranges.get(fact.x, (0, M32))
        if fact.kind == LOWER_BOUND:
            ranges[fact.x] = max(low, fact.bound), high
            continue
        base = -fact.offset & M32  # x + offset <= bound: x is from base to base + bound, unless that wraps around
        if base + fact.bound <= M32:
            ranges[fact.x] = max(low, base), min(high, base + fact.bound)
    return ranges


def follows(fact: Fact, ranges: Ranges) -> bool:
    """Returns whether a fact about two words follows from the ranges of these words. A word without a range may be any number."""
    if fact.kind not in (NOT_ABOVE, BELOW, SUM_BOUND):
        return False
    _, most_x = ranges.get(fact.x, (0, M32))
    least_y, most_y = ranges.get(fact.y, (0, M32))
    if fact.kind == SUM_BOUND:
        return most_x + most_y <= fact.bound
    return most_x < least_y if fact.kind == BELOW else most_x <= least_y


def hulls_of(lost: Iterable[Fact], word_at: WordAt, loop_mask: int) -> List[Fact]:
    """Returns looser bounds in place of the bounds `lost`, which a state does not fulfil. The new bound of a word is the word itself in this state,
    which `word_at` returns. A bound must not depend on an unknown of the loop, whose mask is `loop_mask`."""
    hulls = []
    for fact in lost:
        if fact.kind != LOWER_BOUND and not (fact.kind == UPPER_BOUND and type(fact.bound) is Node):
            continue
        bound = word_at(fact.x)
        if type(bound) is Node:
            is_usable = not mask_of(bound) & loop_mask
        else:
            is_usable = fact.kind == LOWER_BOUND
        if is_usable:
            hulls.append(fact._replace(bound=bound))
    return hulls


def holding(solver: Solver, conditions: Sequence[Node], model: Dict[str, int], facts: Iterable[Fact], word_at: WordAt,
            is_late: Callable[[], bool]) -> List[Fact]:
    """Returns the facts that hold for all values for which the conditions hold, without facts about results of a hash. `model` is one of these
    values. Once `is_late` returns True, asks no further question, and returns only facts that need none."""
    path_conditions = set(conditions)
    light: List[Fact] = []  # the facts that are asked about: all but those about results of a hash
    wanted: List[Condition] = []  # these facts as conditions
    for fact in dict.fromkeys(facts):
        condition = condition_of(fact, word_at)
        if condition is True or condition in path_conditions or (type(condition) is Node and condition.weight <= HEAVY):
            light.append(fact)
            wanted.append(condition)
    index_of_fact = {fact: n for n, fact in enumerate(light)}

    def strongest(indices: List[int]) -> List[int]:
        return [index_of_fact[fact] for fact in active([light[n] for n in indices])]
    session = Session(solver.within(QUERY_TIMEOUT_MS), conditions, wanted, model)
    return [fact for fact, holds in zip(light, session.implied(wanted, is_late, strongest)) if holds]


def mask_of_all(conditions: Iterable[Condition]) -> int:
    """Returns the mask of the variables of conditions."""
    mask = 0
    for condition in conditions:
        mask |= mask_of(condition)
    return mask


class Limits(NamedTuple):
    """The bounds that are proposed for words."""
    numbers: Sequence[int]  # the numbers that may bound a word
    sums: Sequence[int]  # numbers that may bound the sum of two words
    are_comparable: Callable[[WordPlace, WordPlace], bool]  # returns whether one of two words may bound the other
    have_bounded_sum: Callable[[WordPlace, WordPlace], bool]  # returns whether the sum of two words may be bounded


def candidates(new: Sequence[WordPlace], others: Sequence[WordPlace], word_at: WordAt, bases: Dict[WordPlace, int], limits: Limits,
               is_loop: bool) -> List[Fact]:
    """Returns facts that may hold for words that became unknown (`new`). `others` are the words to which facts may relate them. `word_at` returns the
    first value of a word. `bases` has the first address of the object for each word that is a pointer. `is_loop` says whether the state is merged
    at the head of a loop: then more facts are proposed."""
    facts: List[Fact] = []
    for x in new:
        offsets = (-bases[x] & M32,) if x in bases else (0, 1)  # of a pointer, x - base is bounded; of another word, x and x + 1
        for offset in offsets:
            facts += [Fact(UPPER_BOUND, x, offset=offset, bound=bound) for bound in limits.numbers]
        if is_loop:
            first = word_at(x)
            facts += [Fact(LOWER_BOUND, x, bound=first), Fact(LOWER_BOUND, x, bound=1)]
            if type(first) is Node:
                facts.append(Fact(UPPER_BOUND, x, bound=first))
        if is_byte(x):
            continue
        for y in others:
            if x == y or is_byte(y):
                continue
            has_register = isinstance(x, str) or isinstance(y, str)
            are_comparable = (is_loop and has_register) or limits.are_comparable(x, y)
            if are_comparable:
                facts += [Fact(NOT_ABOVE, x, y), Fact(NOT_ABOVE, y, x)]
                if is_loop:
                    facts += [Fact(BELOW, x, y), Fact(BELOW, y, x)]
            if limits.have_bounded_sum(x, y):
                facts += [Fact(SUM_BOUND, x, y, bound=bound) for bound in limits.sums]
            if is_loop and are_comparable and y in new and str(x) < str(y):  # these relations are symmetric: each pair once
                facts.append(Fact(CONSTANT_DIFFERENCE, x, y, bound=operation("sub", word_at(x), word_at(y))))
                facts.append(Fact(CONSTANT_SUM, x, y, bound=operation("add", word_at(x), word_at(y))))
    return facts


def is_byte(place: WordPlace) -> bool:
    """Returns whether a place is that of a byte, such as "b80001000"."""
    return isinstance(place, str) and place.startswith("b")


def thresholds_of(numbers: Iterable[int], sizes: Iterable[int]) -> List[int]:
    """Returns numbers that may bound a word, in ascending order. They are the `numbers` in instructions, the `sizes` of objects, each of these minus
    1, and powers of two minus 1."""
    thresholds = set(POWERS)
    for number in (*numbers, *sizes):
        if 0 < number < LARGEST_BOUND:
            thresholds |= {number, number - 1}
    return sorted(thresholds)
