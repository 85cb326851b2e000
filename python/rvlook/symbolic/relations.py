"""Linear relations of the words of a merged state: a word that is the sum or the difference of two other words, and a number (Karr, 1976).

Such a word is no unknown of its own. For example, the end of a part of a message stays known as the sum of its beginning and its length."""
from __future__ import annotations

from typing import Dict, FrozenSet, Iterable, List, Optional, Sequence, Set, Tuple

from rvlook.symbolic.facts import SUM_OF_WORDS, Fact, WordAt, WordPlace, is_byte
from rvlook.symbolic.linear import Linear, linear, plus
from rvlook.symbolic.nodes import M32, Node


def relations_of(new: Iterable[WordPlace], unknown: Iterable[WordPlace], others: Sequence[WordPlace], word_at: WordAt,
                 facts: Iterable[Fact]) -> List[Fact]:
    """Returns the relations of three words. At least one of the three is in `new`. Each relation is solved for a word in `unknown` that is in no
    other relation. `others` are all words that may be in a relation, `word_at` gives their values, and `facts` are those so far."""
    values = [(at, word_at(at)) for at in others if not is_byte(at)]
    forms = [(at, linear(value)) for at, value in values if type(value) is Node]
    by_atoms: Dict[FrozenSet[Tuple[Node, int]], List[Tuple[WordPlace, Linear]]] = {}  # the words by the terms of their linear forms
    for at, form in forms:
        by_atoms.setdefault(form.atoms, []).append((at, form))
    used: Set[WordPlace] = set()  # the words that are in a relation
    for fact in facts:
        if fact.kind == SUM_OF_WORDS:
            used |= {fact.x, *(place for place, _ in fact.y)}
    new_words = {*new}
    unknown_words = {*unknown}
    relations: List[Fact] = []
    for n, (y, one) in enumerate(forms):
        for z, two in forms[:n]:
            total = plus(one, two, 1)
            if not total.atoms:
                continue
            for x, form in by_atoms.get(total.atoms, ()):
                related = {x, y, z}
                solved = solve(x, y, z, form.number - total.number & M32, unknown_words - used)
                if solved and len(related) == 3 and not related.isdisjoint(new_words):
                    relations.append(solved)
                    used |= related
    return relations


def solve(x: WordPlace, y: WordPlace, z: WordPlace, number: int, free: Set[WordPlace]) -> Optional[Fact]:
    """Solves the relation x = y + z + number for one of its words that is in `free`. Returns the relation as a fact, or None if no word is free."""
    if x in free:
        return Fact(SUM_OF_WORDS, x, ((y, 1), (z, 1)), bound=number)
    for summand, other_summand in ((y, z), (z, y)):
        if summand in free:
            return Fact(SUM_OF_WORDS, summand, ((x, 1), (other_summand, -1)), bound=-number & M32)
    return None
