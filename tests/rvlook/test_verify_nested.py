"""`verify`: loops over containers in containers. The heads of these loops are divided by the depth, and words along the ways show that they end."""
from types import SimpleNamespace

import pytest

pytest.importorskip("z3", reason="python3-z3 is not installed")

from rvlook.symbolic.facts import form_of
from rvlook.symbolic.flow import Flows
from rvlook.symbolic.heads import Hints
from rvlook.symbolic.means import Means
from rvlook.symbolic.memory import MemoryState
from rvlook.symbolic.ranks import Edge, circular

pytestmark = pytest.mark.usefixtures("processor_clock")
MOST_STARTS, SECONDS = 20, 180


@pytest.fixture
def merged(bench, built, monkeypatch):
    """Verifies a parser, with bugs that macros name, by merged loops alone; returns the last search. `is_enough` says whether a search may end."""
    def run(*flags, parser="BOXES", is_enough=lambda search: False):
        from rvlook.api import load
        from rvlook.image.variables import variables_of
        from rvlook.output.progress import Progress
        from rvlook.symbolic.options import VerifyOptions
        from rvlook.symbolic.strategy import Strategy
        from rvlook.symbolic.world import World
        monkeypatch.setenv("RVBENCH", bench)
        monkeypatch.setenv("CFLAGS", " ".join("-D" + it for it in (parser, *flags)))
        path = built("verify_parsers", "--clang")
        program, options = load(path, monitor=True), VerifyOptions(seconds=SECONDS)
        strategy = Strategy(World(program.run, program.symbols, variables_of(str(path), program.setup.image), options), options)
        with Progress() as progress:
            for _ in range(MOST_STARTS):
                search = strategy.add_search(Means(loops_from=1, is_rough=True))
                late = search.is_late
                search.is_late = lambda: is_enough(search) or late()
                if not strategy.run(search, 1, progress).is_outgrown:
                    break
        return search
    return run


def test_right_boxes_are_complete(merged):
    from rvlook.symbolic import questions
    search = merged()
    assert questions.is_complete(search) and not search.undecided and search.loops.heads


@pytest.mark.parametrize("parser, bug", [("BOXES", "NESTED"), ("CBOR", "NESTED"), ("CBOR", "WRAPS")])
def test_length_that_is_not_compared_is_not_decided(merged, parser, bug):
    search = merged(bug, parser=parser, is_enough=lambda search: bool(search.undecided))
    assert {what for what, _ in search.undecided} & {"load", "store"}


def test_padding_that_is_not_passed_does_not_end(merged):
    from rvlook.symbolic import questions
    search = merged("STAYS")
    assert search.loops.is_examined and search.loops.endless() and not questions.is_complete(search)


def test_bytes_that_differed_are_unknown_in_the_next_head_at_the_place(merged):
    """A search of records ends when each inner loop was dropped once and has come again."""
    def has_again(search):
        return sum(head.is_known and head.turn[-1:] != () for _, head in search.loops.heads.values()) > 6
    search = merged(parser="TLV", is_enough=has_again)
    again = [head for _, head in search.loops.heads.values() if head.is_known]
    assert again and all(type(head.cells[at]) is tuple for head in again for at in head.hints.unknown)
    assert any(head.hints.unknown for head in again) and any(head.lost for head in again)
    assert not any(form_of(fact) in head.lost for head in again for fact in head.facts)


def test_store_to_an_array_in_a_record_changes_no_other_member(merged, monkeypatch):
    """A search of records ends after a store at an expression to each of its arrays."""
    stored = {}
    write = MemoryState.write_anywhere
    monkeypatch.setattr(MemoryState, "write_anywhere", lambda self, x, width, value, extent: (
        stored.setdefault(extent.name, extent.high - extent.low), write(self, x, width, value, extent)))
    merged(parser="TLV", is_enough=lambda search: {"record.items", "record.name"} <= set(stored) or "record" in stored)
    assert {it: stored.get(it) for it in ("record.items", "record.name", "record")} == {"record.items": 4, "record.name": 8, "record": None}


def test_merged_state_of_a_copy_is_divided_by_where_paths_come_from(merged):
    """A byte string of CBOR is copied after its length was computed, by a loop or without one."""
    def origins(search):
        found = {}
        for _, head in search.loops.heads.values():
            found.setdefault(head.state.pc, set()).add(head.origin)
        return found
    search = merged(parser="CBOR", is_enough=lambda search: any(len(it) > 1 for it in origins(search).values()))
    pcs = {head.state.pc for _, head in search.loops.heads.values()}
    assert any(len(it) > 1 for it in origins(search).values()) and all({*one} <= pcs for it in origins(search).values() for one in it)


def test_popped_words_are_unknown_and_have_no_facts(merged):
    """The stack of the runtime has the registers of the last stop. They are not read again, so no merged state has to know them."""
    search = merged(is_enough=lambda search: search.loops.is_final)
    for merger, head in search.loops.heads.values():
        popped = {at for at in search.written_before if merger.is_popped(head.state, at)}
        assert any(at > search.extents.stack_of(head.state.regs[2])[1] for at in popped)  # of the other stack
        assert all(type(head.cells[at + n]) is tuple for at in popped for n in range(4))
        assert not popped & {place for fact in head.facts for place in (fact.x, fact.y)}


def head_of(turn, *sources):
    """Returns a head of a loop that is at a place, with the heads from which paths came. The empty name is that of other paths."""
    return SimpleNamespace(turn=turn, sources=set(sources), hints_for_next=Hints)


def test_only_heads_inside_with_no_other_sources_are_dropped():
    from rvlook.symbolic.loops import Loops
    heads = {"outer": head_of((1,), "", "inner"), "inner": head_of((1, 2), "outer", "deep"), "deep": head_of((1, 2, 3), "inner"),
             "entered": head_of((1, 4), "outer", ""), "below": head_of((1, 4, 5), "entered"), "next": head_of((6,), "outer", "deep")}
    queue = [(None, it) for it in heads.values()]
    loops = Loops(SimpleNamespace(merge_queue=queue))
    loops.heads = {name: (SimpleNamespace(prefix=name), it) for name, it in heads.items()}
    loops.drop_inner_heads("outer", heads["outer"])
    assert sorted(loops.heads) == ["below", "entered", "next", "outer"] and loops.has_dropped
    assert [it for _, it in queue] == [heads[name] for name in ("outer", "entered", "below", "next")]
    assert heads["next"].sources == {"outer"} and heads["outer"].sources == {"", "outer"}


def test_known_answer_is_changed_for_another_model():
    """The values of an answer are those that differ from one model. For another model, they may not fulfil the conditions."""
    from rvlook.symbolic.conditions import ult
    from rvlook.symbolic.evaluation import evaluate
    from rvlook.symbolic.nodes import INPUT, variable
    from rvlook.symbolic.solver import Solver
    from rvlook.symbolic.words import word
    x, y = (word(variable("test_%s" % it, INPUT), 0, 0, 0) for it in "xy")
    solver, conditions, question = Solver(1000), [ult(x, y)], ult(9, x)
    for model in ({"test_x": 1, "test_y": 200}, {"test_x": 1, "test_y": 2}, {"test_x": 8, "test_y": 9}):
        answer, found = solver.satisfiable(conditions, question, model)
        assert answer and all(evaluate(it, found, {}) for it in (*conditions, question))
    assert solver.satisfiable(conditions, ult(254, x), model)[0] is False


def test_session_answers_as_the_solver_does():
    from rvlook.symbolic.conditions import ult
    from rvlook.symbolic.nodes import INPUT, variable
    from rvlook.symbolic.sessions import Session
    from rvlook.symbolic.solver import Solver
    from rvlook.symbolic.words import word
    x, y, z = (word(variable("test_%s" % it, INPUT), 0, 0, 0) for it in "xyz")
    conditions, model = [ult(x, y), ult(y, z)], {"test_x": 1, "test_y": 2, "test_z": 3}
    session = Session(Solver(1000), conditions, [x, z], model)
    for bound in (0, 100, 252, 253, 254, 0):
        answer = session.satisfiable(ult(bound, x))
        assert answer is (bound < 253) and (not answer or session.value_of(x) > bound) and all(map(session.value_of, conditions))


def test_targets_in_a_jump_table_are_followed():
    """A function jumps to an address from a table: to a loop, to a return, or to the end of the loop."""
    low, jump, loop, back, end = 0x80020000, 0x00050067, 0xFFF50513, 0xFE051EE3, 0x00008067  # jr a0; addi a0, a0, -1; bnez a0; ret
    words = [jump, loop, back, end, 0, low + 4, low + 12, low + 8, 0, low + 12, low + 4]
    memory = b"".join(it.to_bytes(4, "little") for it in words)
    flow = Flows(memory, low, {low: 16}).of(low)
    assert set(flow.order) == {low, low + 4, low + 8, low + 12} and flow.heads[low + 8] == (low + 4,)
    assert set(Flows(memory[:32], low, {low: 4}).of(low).order) == {low}
    assert set(Flows(memory, low).of(low).order) == {low}


def edge(source, target, strict=(), weak=()):
    """Returns a way on which the words `strict` grow, and the words `weak` grow or are the same."""
    return Edge(source, target, {(it, True) for it in strict}, {(it, True) for it in (*strict, *weak)})


def test_loop_ends_if_a_word_grows_on_a_way_and_falls_on_none():
    assert circular([edge("a", "b", "x"), edge("b", "a", "", "x")]) == set()


def test_loop_ends_by_another_word_on_the_ways_that_are_left():
    ways = [edge("a", "b", "x"), edge("b", "a", "", "x"), edge("b", "b", "y", "x")]
    assert circular(ways) == set()


def test_loop_does_not_end_if_a_way_lets_the_word_fall():
    assert circular([edge("a", "b", "x"), edge("b", "a")]) == {"a", "b"}


def test_loop_does_not_end_if_no_word_changes():
    assert circular([edge("a", "b", "", "x"), edge("b", "a", "", "x")]) == {"a", "b"}


def test_way_out_of_a_loop_is_in_no_circle():
    assert circular([edge("a", "b"), edge("b", "c"), edge("a", "a", "x")]) == set()


def test_two_loops_end_each_by_a_word_of_its_own():
    assert circular([edge("a", "a", "x"), edge("a", "b"), edge("b", "b", "y")]) == set()
