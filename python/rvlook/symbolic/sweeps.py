"""The range of the loads of the window that a merged loop makes at another place in each round, as a copy does.

The merged state keeps one range of these loads. It goes from a number up to before a word that never falls, such as the pointer of the copy."""
from __future__ import annotations

from typing import Callable, Dict, List, NamedTuple, Sequence, Tuple, TYPE_CHECKING

from rvlook.symbolic.bounds import word_reader
from rvlook.symbolic.conditions import all_of, any_of, ult
from rvlook.symbolic.facts import LOWER_BOUND, Fact, WordAt, WordPlace
from rvlook.symbolic.fields import SymbolicFetch
from rvlook.symbolic.nodes import M32, Condition, Node, Word, mask_of
from rvlook.symbolic.words import not_, operation

if TYPE_CHECKING:
    from rvlook.symbolic.fields import AnyState as State

Site = Tuple[int, int]  # the pc of an instruction, and its call context
Implied = Callable[[Condition], bool]  # returns whether the conditions of a path imply a condition


class Sweep(NamedTuple):
    """The range of the loads of a merged loop."""
    last_words: Tuple[Tuple[WordPlace, int], ...] = ()  # places of words, each with an offset: word + offset is the end of the range
    has_begun: bool = False  # whether anything was loaded
    site: Site = (0, 0)  # the first instruction that loads

    @property
    def is_lost(self) -> bool:
        """Returns whether there are loads, but no word that is known to be after all of them."""
        return self.has_begun and not self.last_words

    def extended(self, loads: Sequence[SymbolicFetch], facts: Sequence[Fact], word_before: WordAt, state: State, implied: Implied) -> Sweep:
        """Returns the range extended by the loads of a round. Drops a word from `last_words` if its sum is not after all loads. `facts` are those of
        the merged state. `word_before` returns a word at the beginning of the round, and `state` is the state at its end."""
        if not self.has_begun and not loads:
            return self
        least = least_values_of(facts)
        word_now = word_reader(state)
        if self.has_begun:
            tried = self.last_words
            site = self.site
        else:
            tried = tuple((x, distance_to_end(loads, word_now(x), state)) for x in sorted(least, key=str, reverse=True))
            site = loads[0].pc, loads[0].context
        last_words = []
        for x, offset in tried:
            if x in least:
                old_end = operation("add", word_before(x), offset)
                new_end = operation("add", word_now(x), offset)
                if implied(all_of(*conditions_of(loads, least[x] + offset & M32, old_end, new_end))):
                    last_words.append((x, offset))
        return Sweep(tuple(last_words), has_begun=True, site=site)

    def entry(self, facts: Sequence[Fact], word_at: WordAt) -> List[SymbolicFetch]:
        """Returns the range as one SymbolicFetch in a list. The list is empty if there is no range, or if its end is a number."""
        least = least_values_of(facts)
        for x, offset in self.last_words:
            if x in least and type(word_at(x)) is Node:
                return [SymbolicFetch(least[x] + offset & M32, operation("add", word_at(x), offset), *self.site)]
        return []


def distance_to_end(loads: Sequence[SymbolicFetch], word: Word, state: State) -> int:
    """Returns the distance in bytes from a word to the end of the last load, in the model of a state."""
    return max(state.value(end_of(load)) for load in loads) - state.value(word) & M32


def end_of(load: SymbolicFetch) -> Word:
    """Returns the address after a load."""
    return load.width if type(load.width) is Node else operation("add", load.at, load.width)


def least_values_of(facts: Sequence[Fact]) -> Dict[WordPlace, int]:
    """Returns the words that are at least a number by the facts, each with the greatest such number."""
    least: Dict[WordPlace, int] = {}
    for fact in facts:
        if fact.kind == LOWER_BOUND and type(fact.bound) is int:
            least[fact.x] = max(fact.bound, least.get(fact.x, 0))
    return least


def conditions_of(loads: Sequence[SymbolicFetch], low: int, old_end: Word, new_end: Word) -> List[Condition]:
    """Returns the conditions that all loads are from `low` up to before `new_end`, and that the end of the range has not fallen."""
    conditions: List[Condition] = [not_(ult(new_end, old_end))]
    for load in loads:
        is_inside = all_of(not_(ult(load.at, low)), not_(ult(new_end, end_of(load))))
        conditions.append(any_of(not_(all_of(*load.joined)), is_inside))
    return conditions


def has_variables(load: SymbolicFetch, mask: int) -> bool:
    """Returns whether a load depends on some of the variables of a mask."""
    return any(mask_of(word) & mask for word in (load.at, load.width, *load.joined))
