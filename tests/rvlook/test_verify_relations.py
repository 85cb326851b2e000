"""`verify`: words of merged states that are the sum of two others are found, used in place of an unknown, and dropped if a path does not fulfil them."""
from random import Random

import pytest

pytest.importorskip("z3", reason="python3-z3 is not installed")

from rvlook.symbolic import facts, linear
from rvlook.symbolic.conditions import eq
from rvlook.symbolic.evaluation import evaluate
from rvlook.symbolic.facts import SUM_OF_WORDS, Fact, condition_of, holding, sum_of
from rvlook.symbolic.nodes import INPUT, M32, variable
from rvlook.symbolic.relations import relations_of
from rvlook.symbolic.solver import Solver
from rvlook.symbolic.words import operation, word

BUFFER = 0x80020278
NAMES = "xyz"
A, B, C = ([variable("relations_%s%d" % (it, n), INPUT) for n in range(4)] for it in NAMES)
X, Y, Z = (word(*it) for it in (A, B, C))


def random_word(random, depth):
    """Returns a random sum or difference of words and numbers."""
    if depth == 0:
        return random.choice([X, Y, Z, word(A[0], 0, 0, 0), word(0, B[1], 0, 0), random.getrandbits(32), 1])
    op = random.choice(["add", "add", "sub", "or", "xor"])
    return operation(op, random_word(random, depth - 1), random_word(random, depth - 1))


def random_values(random):
    """Returns random values of all variables."""
    return {it.args[0]: random.getrandbits(8) for row in (A, B, C) for it in row}


def differing_forms():
    """Returns random words whose linear form has another value."""
    random, found = Random(3), []
    for _ in range(400):
        node, values = random_word(random, random.randrange(4)), random_values(random)
        form = linear.linear(node)
        value = form.number + sum(n * evaluate(it, values, {}) for it, n in form.atoms)
        found += [node] if value & M32 != evaluate(node, values, {}) else []
    return found


def test_linear_form_has_the_value_of_the_word():
    assert differing_forms() == []


LINEAR_ERRORS = {"a sign is lost": ("plus", lambda one, two, factor, plus=linear.plus: plus(one, two, 1)),
                 "bits of an or are taken to be apart": ("may_of", lambda x: 0),
                 "a sum of numbers does not wrap": ("M32", 0xFFFFFFF)}


@pytest.mark.parametrize("name", LINEAR_ERRORS)
def test_error_of_linear_forms_is_noticed(monkeypatch, name):
    monkeypatch.setattr(linear, *LINEAR_ERRORS[name])
    assert differing_forms()


def found_in(words, new=("end", "at", "left"), known=()):
    """Returns the relations that are found among the words of a state, all unknown."""
    return relations_of(new, list(words), list(words), words.get, known)


def test_end_is_found_as_beginning_and_length():
    words = {"end": operation("add", operation("add", X, 2), Y), "at": operation("add", X, 2), "left": Y}
    assert [sum_of(it, words.get) is words[it.x] for it in found_in(words)] == [True]


def test_pointer_is_found_as_end_less_what_is_left():
    at = operation("add", operation("sub", X, Y), BUFFER)
    fact, = found_in({"end": X, "at": at, "left": Y})
    assert condition_of(fact, {"end": X, "at": at, "left": Y}.get) is True
    assert condition_of(fact, {"end": X, "at": operation("add", at, 1), "left": Y}.get) is False


@pytest.mark.parametrize("words, new, known", [
    ({"end": operation("xor", X, Y), "at": X, "left": Y}, ("end", "at", "left"), ()),
    ({"end": operation("add", X, Y), "at": X, "left": Y}, (), ()),
    ({"end": operation("add", X, 5), "at": X, "left": 5}, ("end", "at", "left"), ()),
    ({"end": operation("add", X, Y), "at": X, "left": Y}, ("end", "at", "left"),
     (Fact(SUM_OF_WORDS, "end", (("p", 1), ("q", 1))), Fact(SUM_OF_WORDS, "at", (("left", 1), ("q", 1)))))],
    ids=["no sum", "nothing is new", "a number", "each is in another one"])
def test_no_relation_is_found(words, new, known):
    assert found_in(words, new, known) == []


def test_each_relation_is_solved_for_a_word_that_no_earlier_one_has():
    words = {"p": X, "q": Y, "r": operation("add", X, Y), "s": Z, "t": operation("add", operation("add", X, Z), 3)}
    found = relations_of(list(words), list(words), list(words), words.get, ())
    solved = [it.x for it in found]
    assert len(found) > 1 and len(set(solved)) == len(solved)
    for n, fact in enumerate(found):
        assert not {fact.x} & {at for it in found[:n] for at in (it.x, *dict(it.y))}


def kept():
    """Returns which of three paths are said to keep `end = at + left`: one that computes it, one whose conditions say it, and one that adds 1."""
    fact = Fact(SUM_OF_WORDS, "end", (("at", 1), ("left", 1)))
    total = operation("add", Y, Z)
    paths = [({"end": total, "at": Y, "left": Z}, []), ({"end": X, "at": Y, "left": Z}, [eq(X, total)]),
             ({"end": operation("add", total, 1), "at": Y, "left": Z}, []), ({"end": X, "at": Y, "left": Z}, [])]
    model = {it.args[0]: 0 for row in (A, B, C) for it in row}
    return [holding(Solver(1000), conditions, model, [fact], words.get, lambda: False) == [fact] for words, conditions in paths]


def test_relation_is_kept_only_if_each_path_fulfils_it():
    assert kept() == [True, True, False, False]


def test_relation_that_is_kept_wrongly_is_noticed(monkeypatch):
    """With a planted error, two words are always taken to be equal."""
    monkeypatch.setattr(facts, "equal", lambda *_: True)
    assert kept() != [True, True, False, False]
