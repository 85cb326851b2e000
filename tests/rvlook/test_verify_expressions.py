"""The expressions of `verify`: random choices have the same value as numbers, as expressions and by z3. Conditions on single bytes have the answer of
z3. Planted errors are noticed."""
import random

import pytest

pytest.importorskip("z3", reason="python3-z3 is not installed")

from rvlook.symbolic import conditions, domains, evaluation, nodes, translate, words
from rvlook.symbolic.conditions import choice8, eq, lt, ult
from rvlook.symbolic.domains import Domains
from rvlook.symbolic.evaluation import evaluate
from rvlook.symbolic.nodes import INPUT, NUMBERS, Node, signed, variable
from rvlook.symbolic.translate import Translator, Z3, the_z3
from rvlook.symbolic.words import byte, choice, not_, operation, word

pytestmark = pytest.mark.usefixtures("processor_clock")
NAMES = ("e0", "e1", "e2", "e3")
DEPTH, EXPRESSIONS, TRIES, SETS = 5, 300, 200, 150
COMPARISONS = ((eq, lambda x, y: x == y), (ult, lambda x, y: x < y), (lt, lambda x, y: signed(x) < signed(y)))
CORNERS = (0, 1, 255, 256, 0x7FFFFFFF, 0x80000000, 0xFFFFFFFF)


class Maker:
    """Makes random expressions, each with its value for the values of the variables."""

    def __init__(self, seed, names=NAMES):
        self.rng, self.names = random.Random(seed), names
        self.model = {name: self.rng.choice((0, 1, 127, 128, 255, self.rng.randrange(256))) for name in NAMES}

    def word(self, depth):
        """Returns a word and its value. Most are choices."""
        kind = self.rng.random()
        if depth == 0 or kind < .1:
            v = self.rng.choice((*CORNERS, self.rng.getrandbits(32)))
            return (v, v) if self.rng.random() < .5 else self.bytes_of_variables()
        if kind < .5:
            (c, holds), (x, v), (y, w) = self.condition(depth - 1), self.word(depth - 1), self.word(depth - 1)
            return choice(c, x, y), v if holds else w
        if kind < .7:
            (c, holds), (x, v), (y, w) = self.condition(depth - 1), self.word(depth - 1), self.word(depth - 1)
            n = self.rng.randrange(4)
            return word(choice8(c, byte(x, n), byte(y, n)), 0, 0, 0), (v if holds else w) >> 8 * n & 255
        op, (x, v), (y, w) = self.rng.choice(sorted(NUMBERS)), self.word(depth - 1), self.word(depth - 1)
        return operation(op, x, y), NUMBERS[op](v, w)

    def bytes_of_variables(self):
        """Returns a word of variables and zeros, and its value."""
        names = [self.rng.choice((*self.names, None)) for _ in range(4)]
        parts = [variable(name, INPUT) if name else 0 for name in names]
        return word(*parts), sum(self.model[name] << 8 * n for n, name in enumerate(names) if name)

    def condition(self, depth):
        """Returns a condition and whether it holds."""
        (make, known), (x, v), (y, w) = self.rng.choice(COMPARISONS), self.word(depth), self.word(depth)
        return (not_(make(x, y)), not known(v, w)) if self.rng.random() < .3 else (make(x, y), known(v, w))


def by_z3(node, model):
    """Returns the value of a word by z3."""
    z = the_z3()
    pairs = [(z.z3.BitVec(name, 8, z.owner), z.z3.BitVecVal(v, 8, z.owner)) for name, v in model.items()]
    return z.z3.simplify(z.z3.substitute(z.z3.BitVecRef(Translator()(node), z.owner), *pairs)).as_long()


def differs(seed, with_z3=True):
    """Returns whether a random expression has another value than its numbers, or cannot be made."""
    maker = Maker(seed)
    node, value = maker.word(DEPTH)
    if type(node) is not Node:
        return node != value
    return evaluate(node, maker.model, {}) != value or with_z3 and by_z3(node, maker.model) != value


def test_random_choice_has_the_value_of_its_numbers():
    assert [seed for seed in range(EXPRESSIONS) if differs(seed)] == []


def swapped(self, op, args, a):
    """Translates an operation; a choice has its sides exchanged."""
    return OPERATION(self, op, args, [a[0], a[2], a[1]] if op == "ite" else a)


OPERATION = Z3.operation
ERRORS = {
    "a choice takes the other side": (evaluation.VALUES, "ite", lambda v: v[2] if v[0] else v[1]),
    "a choice of bytes takes the other side": (evaluation.VALUES, "ite8", lambda v: v[2] if v[0] else v[1]),
    "z3 takes the other side": (Z3, "operation", swapped),
    "a comparison of a choice has one case": (conditions, "divided", lambda c, one, two: one if type(one) is bool else two),
    "a choice of numbers has the bits of one": (words, "is_number_choice", lambda x: type(x.args[1]) is int)}


@pytest.mark.parametrize("name", ERRORS)
def test_error_of_a_choice_is_noticed(monkeypatch, name):
    owner, key, wrong = ERRORS[name]
    (monkeypatch.setitem if isinstance(owner, dict) else monkeypatch.setattr)(owner, key, wrong)
    nodes.forget()
    try:
        assert any(is_noticed(seed) for seed in range(TRIES))
    finally:
        nodes.forget()


def is_noticed(seed):
    """Returns whether a random expression differs, or cannot be made at all."""
    try:
        return differs(seed)
    except (KeyError, TypeError, AttributeError):
        return True


# ---- conditions on one byte

def wrong_answers(seeds):
    """Returns the seeds whose conditions have another answer than that of z3, and how many have each answer."""
    found, counts = [], {True: 0, False: 0}
    for seed in seeds:
        maker = Maker(seed, NAMES[:1] if seed % 2 else NAMES[:2])
        asked = [it for it in (maker.condition(2)[0] for _ in range(4)) if type(it) is Node]
        known = Domains().answer(asked)[0] if asked else None
        if known is not None:
            translator = Translator()
            answer = translator.z3.check([translator(it) for it in asked], 5000)[0]
            found += [seed] if answer is not known else []
            counts[known] += 1
    return found, counts


def test_values_of_a_byte_are_those_of_z3():
    found, counts = wrong_answers(range(SETS))
    assert found == [] and min(counts.values()) > 10


def test_lost_value_of_a_byte_is_noticed(monkeypatch):
    """With a planted error: values from 128 on are not tried."""
    monkeypatch.setattr(domains, "BYTE_VALUES", 128)
    nodes.forget()
    assert wrong_answers(range(SETS))[0]


def test_run_after_one_with_many_expressions_begins_with_an_empty_context(monkeypatch):
    """Each question takes longer if there are many, so a run could not find what it finds alone."""
    one = the_z3()
    monkeypatch.setattr(translate, "MAX_KEPT_EXPRESSIONS", one.count)
    translate.leave_out_old()
    assert the_z3() is one
    Translator()(word(variable("one_more", INPUT), 1, 2, 3))
    translate.leave_out_old()
    assert the_z3() is not one and the_z3().context != one.context
