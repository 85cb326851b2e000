"""Linear forms of words, modulo 2**32: a number, and other words with a factor each."""
from __future__ import annotations

from typing import FrozenSet, NamedTuple, Optional, Tuple

from rvlook.symbolic.conditions import eq
from rvlook.symbolic.nodes import M32, Condition, Node, Word
from rvlook.symbolic.words import may_of

MAX_TERMS = 8  # the most terms of a linear form
MAX_DEPTH = 5  # how deep nested sums become one linear form; a sum further inside is a term


class Linear(NamedTuple):
    """A word as the sum of a number and of terms (modulo 2**32)."""
    number: int
    atoms: FrozenSet[Tuple[Node, int]]  # the terms: nodes that are no sums, each with the number by which it is multiplied


def linear(word: Word, depth: int = MAX_DEPTH) -> Linear:
    """Returns the linear form of a word. A word with too many terms becomes one term. `depth` limits the nested sums."""
    if type(word) is int:
        return Linear(word, frozenset())
    form: Optional[Linear] = None
    has_no_carry = word.op == "or" and not may_of(word.args[0]) & may_of(word.args[1])  # an or of different bits is a sum
    is_sum = word.op in ("add", "sub") or has_no_carry
    if depth and is_sum:
        one, two = (linear(operand, depth - 1) for operand in word.args)
        form = plus(one, two, -1 if word.op == "sub" else 1)
    return form if form and len(form.atoms) <= MAX_TERMS else Linear(0, frozenset([(word, 1)]))


def plus(one: Linear, two: Linear, factor: int) -> Linear:
    """Returns the linear form of `one` + `factor` * `two`."""
    atoms = dict(one.atoms)
    for node, node_factor in two.atoms:
        atoms[node] = atoms.get(node, 0) + factor * node_factor & M32
    return Linear(one.number + factor * two.number & M32, frozenset((node, n) for node, n in atoms.items() if n))


def equal(x: Word, y: Word) -> Condition:
    """Returns the condition that two words are equal. If their linear forms differ only by a number, this decides it."""
    difference = plus(linear(x), linear(y), -1)
    if not difference.atoms:
        return difference.number == 0
    return eq(x, y)
