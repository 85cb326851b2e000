"""`verify`: facts of merged states that do not depend on large tables, stores to one member, and the ends of loops in loops."""
from itertools import combinations, product
from types import SimpleNamespace

import pytest

pytest.importorskip("z3", reason="python3-z3 is not installed")

from rvlook.symbolic import facts
from rvlook.symbolic.bounds import MAX_BOUND_OPERATIONS, Bounds
from rvlook.symbolic.conditions import element, ult
from rvlook.symbolic.facts import BELOW, CONSTANT_DIFFERENCE, LOWER_BOUND, UPPER_BOUND, NOT_ABOVE, SUM_BOUND, Fact, Limits, condition_of
from rvlook.symbolic.nodes import INPUT, M32, variable
from rvlook.symbolic.opaque import FEW_BYTES
from rvlook.symbolic.ranks import Edge, Measure, Passage, circular, outer_ways
from rvlook.symbolic.sessions import Session
from rvlook.symbolic.solver import Solver
from rvlook.symbolic.words import not_, operation, word

BASE = 0x80020440


def byte_of(name):
    return variable("facts_" + name, INPUT)


def looked_up(size):
    """Returns a word from a table of bytes that are below 8, as conditions say, at an index below the size of the table."""
    content = tuple(byte_of("t%d" % n) for n in range(size))
    index = word(byte_of("i"), 0, 0, 0)
    conditions = [ult(word(it, 0, 0, 0), 8) for it in content]
    at = word(byte_of("i"), BASE >> 8 & 255, BASE >> 16 & 255, BASE >> 24)
    low = BASE & -256
    return word(element(at, low, content), 0, 0, 0), [*conditions, ult(index, size)]


@pytest.mark.parametrize("size, is_rough, holds", [(FEW_BYTES, True, True), (FEW_BYTES + 1, True, False), (FEW_BYTES + 1, False, True)])
def test_rough_session_takes_a_large_table_as_any_bytes(size, is_rough, holds):
    found, conditions = looked_up(size)
    wanted = ult(found, 8)
    solver = Solver(1000, is_rough=is_rough)
    model = {"facts_t%d" % n: 0 for n in range(size)}
    assert Session(solver, conditions, [wanted], model).implied([wanted], lambda: False) == [holds]


def test_rough_session_shows_only_what_the_conditions_imply():
    found, conditions = looked_up(64)
    x, y = (word(byte_of(it), 0, 0, 0) for it in "xy")
    conditions = [*conditions, ult(x, y), ult(y, found)]
    model = {**{"facts_t%d" % n: 7 for n in range(64)}, "facts_x": 1, "facts_y": 2}
    wanted = [ult(x, found), not_(ult(found, x)), ult(x, y), ult(y, 7), ult(x, 100), ult(y, x), True, False]
    solver = Solver(1000, is_rough=True)
    shown = Session(solver, conditions, wanted, model).implied(wanted, lambda: False)
    assert shown == [True, True, True, False, False, False, True, False]
    exact = Solver(1000)
    assert all(exact.satisfiable(conditions, not_(it), model)[0] is False for it, holds in zip(wanted, shown) if holds)


def test_rough_session_asks_nothing_once_the_time_is_over():
    x, y = (word(byte_of(it), 0, 0, 0) for it in "xy")
    wanted = [ult(x, y), ult(x, 200)]
    session = Session(Solver(1000), [ult(x, y), ult(y, 100)], wanted, {"facts_x": 1, "facts_y": 2})
    assert session.implied(wanted, lambda: True) == [True, False]


NUMBERS = (0, 1, 2, 5, 6, M32 - 1, M32)
BOUNDS = [Fact(UPPER_BOUND, it, 0, offset, bound) for it in "xy" for offset in (0, 1, M32) for bound in (1, 5)]
BOUNDS += [Fact(LOWER_BOUND, it, bound=bound) for it in "xy" for bound in (1, 6)]
PAIRS = [Fact(NOT_ABOVE, "x", "y"), Fact(BELOW, "x", "y"), Fact(SUM_BOUND, "x", "y", 0, 6), Fact(SUM_BOUND, "x", "y", 0, 11)]


def wrongly_left_out():
    """Returns facts, with two numbers for which they do not all hold, although those hold from which the others are said to follow."""
    found = []
    for row in [[*two, *more] for two in combinations(BOUNDS, 2) for n in (1, 2) for more in combinations(PAIRS, n)]:
        left = facts.active(row)
        found += [(row, x, y) for x, y in product(NUMBERS, NUMBERS)
                  if all(condition_of(it, {"x": x, "y": y}.get) for it in left) and not all(condition_of(it, {"x": x, "y": y}.get) for it in row)]
    return found


def test_facts_that_are_left_out_follow_from_the_others():
    assert wrongly_left_out() == []
    bounds = [Fact(UPPER_BOUND, "x", 0, 0, 5), Fact(LOWER_BOUND, "y", bound=6)]
    assert facts.active([*bounds, *PAIRS[:2]]) == bounds
    assert facts.active(PAIRS[:2]) == PAIRS[1:2]


def ranges_that_wrap(found):
    """Returns ranges of words with a planted error: a range that wraps is taken for one that does not."""
    return {it.x: (-it.offset & M32, (it.bound - it.offset) & M32) for it in found if it.kind == UPPER_BOUND}


FACT_ERRORS = {"equal words are below each other": ("follows", lambda fact, ranges: fact.kind == BELOW and ranges.get(fact.x, (0, M32))[1] <= 5),
               "a range wraps": ("ranges_of", ranges_that_wrap), "a name is forgotten": ("BELOW", NOT_ABOVE)}


@pytest.mark.parametrize("name", FACT_ERRORS)
def test_fact_that_is_left_out_wrongly_is_noticed(monkeypatch, name):
    monkeypatch.setattr(facts, *FACT_ERRORS[name])
    assert wrongly_left_out()


def implied_by_parts(solver):
    """Returns what is said to follow from conditions, from the same once more, and from a part of them, with the number of questions before each."""
    x, y = (word(byte_of(it), 0, 0, 0) for it in "xy")
    conditions, wanted, found = [ult(x, y), ult(y, 100)], [ult(x, 99), ult(x, 200)], []
    for own in (conditions, conditions[::-1], conditions[:1]):
        found.append((solver.queries, Session(solver, own, wanted, {"facts_x": 1, "facts_y": 2}).implied(wanted, lambda: False)))
    return found


def test_what_was_shown_for_the_same_conditions_is_not_asked_again():
    (_, first), (asked, second), (before, part) = implied_by_parts(Solver(1000))
    assert first == second == [True, True] and part == [False, False] and asked == before == 1


def test_error_of_what_was_shown_is_noticed():
    """With a planted error, what was shown for some conditions is taken to be shown for others."""
    solver, shown = Solver(1000), set()
    solver.shown = SimpleNamespace(setdefault=lambda conditions, _: shown)
    assert implied_by_parts(solver)[-1][1] == [True, True]


def way(source, target, *places):
    """Returns a way on which the words at some places grow."""
    grown = {Measure(it, True) for it in places}
    return Edge(source, target, grown, grown)


def test_loop_around_another_ends_by_a_word_of_its_own():
    passages = {"outer": [Passage("inner", {"inner": way("inner", "outer"), "outer": way("outer", "outer", "x23")})], "inner": []}
    sources = {"outer": {"", "inner"}, "inner": {"outer", "inner"}}
    assert circular(outer_ways(passages, sources, {"inner"})) == set()
    assert circular(outer_ways(passages, sources, set())) == set()  # the way from inner to outer is in no circle


def test_loop_around_another_does_not_end_if_nothing_is_known_about_the_way_through_it():
    passages = {"outer": [Passage("inner", {"inner": way("inner", "outer", "x23")})], "inner": []}
    sources = {"outer": {"", "inner"}, "inner": {"outer", "inner"}}
    assert circular(outer_ways(passages, sources, {"inner"})) == {"outer"}


def test_way_through_a_loop_begins_at_each_head_from_which_paths_enter_it():
    passages = {"one": [Passage("inner", {"one": way("one", "one", "x23")})], "two": [], "inner": []}
    sources = {"one": {"inner"}, "two": {"one"}, "inner": {"one", "two", "next"}, "next": {"inner"}}
    assert {it.source for it in outer_ways(passages, sources, {"inner", "next"})} == {"one", "two"}


def test_way_from_a_head_that_ends_is_left_out():
    assert outer_ways({"outer": [Passage("gone", {"gone": way("gone", "outer")})]}, {"outer": {"gone"}}, set()) == []


@pytest.mark.parametrize("rounds, has_bound", [(1, True), (MAX_BOUND_OPERATIONS, False)])
def test_long_bounds_are_no_facts(rounds, has_bound):
    """The difference of two words that were computed in many steps, as in a hash, bounds nothing."""
    x, y = (word(*(byte_of("%s%d" % (it, n)) for n in range(4))) for it in "xy")
    for _ in range(rounds):
        x = operation("xor", operation("add", x, 0x9E3779B9), y)
    bounds = Bounds.__new__(Bounds)
    bounds.limits = Limits((), (), lambda *_: True, lambda *_: False)
    found = bounds.candidates(["x5", "x6"], ["x5", "x6"], {"x5": x, "x6": y}.get, {}, 0)
    assert [it.bound for it in found if it.kind == CONSTANT_DIFFERENCE] == ([operation("sub", x, y)] if has_bound else [])
