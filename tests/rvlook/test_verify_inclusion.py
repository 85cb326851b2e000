"""No path is lost: random inputs are run on the bench, and each trace is that of an explored path whose conditions they fulfil. States at stops are
instances of the merged state. A second solver agrees that nothing exists where z3 says so."""
import random
import shutil
import subprocess

import pytest
from support.limits import HANG

pytest.importorskip("z3", reason="python3-z3 is not installed")

from conftest import EXAMPLES
from rvlook.image.files import image_of, read_file
from rvlook.image.variables import Variables
from rvlook.output.progress import Progress
from rvlook.protocol.run import Setup, run_of
from rvlook.image.symbols import symbols_of
from rvlook.symbolic import bounds, joins, merge, solver
from rvlook.symbolic.bounds import word_reader
from rvlook.symbolic.conditions import all_of, differ
from rvlook.symbolic.evaluation import evaluate
from rvlook.symbolic.fields import PathEnded
from rvlook.symbolic.facts import active, condition_of
from rvlook.symbolic.history import part_of
from rvlook.symbolic.means import Means
from rvlook.symbolic.nodes import Node
from rvlook.symbolic.options import VerifyOptions
from rvlook.symbolic.paths import ForkingState
from rvlook.symbolic.search import Search
from rvlook.symbolic.words import word
from rvlook.symbolic.world import World
from support.random_steps import OPTIONS

pytestmark = pytest.mark.usefixtures("processor_clock")
RUNS, STEPS = 60, 4000
BYTES = (0, 0, 1, 2, 3, 8, 16, 17, 31, 32, 64, 255)
HOST_INPUTS = EXAMPLES / "enclaves" / "host_inputs"


def world_of(bench, monkeypatch, task, corrected):
    """Returns the world of a function of host_inputs."""
    monkeypatch.setenv("RVBENCH", bench)
    symbols = symbols_of("symbols", read_file(str(HOST_INPUTS / "symbols")))
    image = image_of(str(HOST_INPUTS / "image"), "auto")
    setup = Setup(image, monitor=True, symbols=symbols).with_script(
        ["poke %x %02x" % (symbols.by_name[name].address, it) for name, it in (("task", task), ("corrected", corrected))], 100000)
    return World(run_of(setup), symbols, Variables(), VerifyOptions(**OPTIONS))


class Recorded(Search):
    """A search that keeps the conditions of each path of one activation, and what it did."""

    def explore(self, state):
        paths = self.paths
        super().explore(state)
        if self.paths > paths:
            self.kept = getattr(self, "kept", []) + [(state.conditions[:], part_of(state))]


def explored(world, **more):
    """Returns the finished search over a world."""
    search = Recorded(world, VerifyOptions(**{**OPTIONS, "seconds": 60, **more}))
    search.go(Progress())
    assert not search.queue
    return search


def random_window(rng, world):
    """Returns random bytes of the request, by address."""
    return {world.window[0] + n: rng.choice((*BYTES, rng.randrange(256))) for n in range(48) if rng.random() < .5}


def trace_of(world, changes):
    """Runs the first activation on the bench with other bytes of the window; returns its pcs."""
    with world.run.replay() as replay:
        replay.go(world.own_activations[0].position)
        replay.bench.ask(*["poke %x %02x" % it for it in changes.items()])
        lines = replay.bench.block(b"step 1\n" * STEPS, STEPS).splitlines()
    pcs = [world.pc]
    for line in lines:
        if b"world=host" in line:
            return pcs
        pcs.append(int(line[9:17], 16))
    return pcs


def runs_of(part, window, known):
    """Returns what a part of a path and those before it do with a window: the values of the inputs and the pcs. There is one pair for each of the
    joined paths that the inputs may take. `known` has the results for parts."""
    if id(part) not in known:
        before = [({}, [])]
        if part.join:
            sides = ((part.join.one, True), (part.join.two, False))
            before = [it for side, holds in sides for it in runs_of(side, window, known) if bool(evaluate(part.join.condition, it[0], {})) == holds]
        known[id(part)] = [(loaded(model, part.loads, window), pcs + part.pcs) for model, pcs in before]
    return known[id(part)]


def loaded(model, loads, window):
    """Returns the values of the inputs, with those of loads."""
    model = dict(model)
    for _, at, names in loads:
        place = evaluate(at, model, {})
        model.update({name: window.get(place + n, 0) for n, name in names})
    return model


def includes(path, window, pcs, known):
    """Returns whether the inputs fulfil the conditions of a path, and the path has these pcs."""
    conds, part = path
    return any(own[:len(pcs)] == pcs and all(evaluate(it, model, {}) for it in conds) for model, own in runs_of(part, window, known))


def missing(world, search, runs=RUNS):
    """Returns how many random runs no explored path includes."""
    rng, lost = random.Random(0), 0
    for _ in range(runs):
        changes = random_window(rng, world)
        window = {world.window[0] + n: it for n, it in enumerate(world.windows[0])}
        window.update(changes)
        pcs, known = trace_of(world, changes), {}
        lost += not any(includes(it, window, pcs, known) for it in search.kept)
    return lost


TASKS = (3, 4, 5, 6, 8, 9)


@pytest.mark.parametrize("task", TASKS)
def test_each_random_run_is_an_explored_path(bench, monkeypatch, task):
    world = world_of(bench, monkeypatch, task, 1)
    assert missing(world, explored(world, bound=100)) == 0


def one_round(self, here, model, other):
    """Leaves the other side of a branch to another path in its first round only."""
    key = self.pc, self.context
    if not self.branch_counts.get(key):
        LEAVE(self, here, model, other)
    self.branch_counts[key] = 2


LEAVE = ForkingState.leave_other_side
PLANTED = {
    "no question has an answer": (solver.Solver, "decide", lambda self, relevant, question, mask, model: (False, None)),
    "a branch divides a path only once": (ForkingState, "leave_other_side", one_round),
    "no guess holds, and z3 finds nothing": (solver.Solver, "solve", lambda self, asts, names: (False, None)),
    "a join keeps one path": (joins.Joins, "join_pair", lambda self, one, two: one),
    "a join loses conditions": (joins, "rest_of", lambda c, a, b: [c])}


def is_lost(bench, monkeypatch, task):
    """Returns whether some random run of a function is no explored path, or the search fails."""
    world = world_of(bench, monkeypatch, task, 1)
    try:
        return missing(world, explored(world, bound=100), 30) > 0
    except (AssertionError, PathEnded, KeyError):
        return True


@pytest.mark.parametrize("name", PLANTED)
def test_lost_path_is_noticed(bench, monkeypatch, name):
    monkeypatch.setattr(*PLANTED[name])
    monkeypatch.setattr(solver.Solver, "guess", solver.Solver.guess if not name.startswith("no guess") else lambda *_: None)
    assert any(is_lost(bench, monkeypatch, task) for task in TASKS)


# ---- merged states

class Stops(Search):
    """A search that keeps the state of each path at its first stop."""

    def merge_at_stop(self, state):
        super().merge_at_stop(state)
        if not state.is_merged and not state.activation:
            self.states = getattr(self, "states", []) + [(state.fork(state.pc), merge.key_of(state))]


def outside(search):
    """Returns the places at which a state of an unmerged path is no instance of the merged state."""
    found = []
    for state, key in search.states:
        it = search.merger.merged[key]
        for at, x in merge.raw_cells(state, merge.RESULTS):
            cell = it.cells.get(at, it.region_bytes[at - search.world.region[0]] if isinstance(at, int) else 0)
            found += [] if is_instance(search, state, at, x, cell) else [at]
        for at in merge.changed_bytes(bytes(state.region_bytes), it.region_bytes, search.world.region[0]):
            cell = it.cells.get(at, it.region_bytes[at - search.world.region[0]])
            number = state.region_bytes[at - search.world.region[0]]
            found += [] if at in state.symbolic_bytes or is_instance(search, state, at, number, cell) else [at]
    return found


def is_instance(search, state, at, x, cell):
    """Returns whether a byte of a state is among those of a cell, with its taint."""
    if not isinstance(cell, tuple):
        return x is cell or x == cell and not isinstance(x, Node) and not isinstance(cell, Node)
    taint, values = cell
    own = merge.taint_of(state, x) if isinstance(x, Node) else 0
    if own & ~taint:
        return False
    if values is None or not isinstance(x, Node):
        return values is None or x in values
    others = all_of(*(differ(word(x, 0, 0, 0), it) for it in values))
    return search.solver.satisfiable(state.conditions, others, state.model)[0] is False


def stops(bench, monkeypatch, task, is_joined=True):
    """Returns the finished search of a function of host_inputs, with its states at stops. Paths are joined before, or not."""
    world = world_of(bench, monkeypatch, task, 1)
    search = Stops(world, VerifyOptions(**{**OPTIONS, "seconds": 60, "merges": True, "activations": 0, "bound": 100}))
    search.joins = search.joins if is_joined else None
    search.go(Progress())
    return search


STOPPING = (1, 3, 8, 15)


@pytest.mark.parametrize("task", STOPPING)
def test_state_at_a_stop_is_an_instance_of_the_merged_state(bench, monkeypatch, task):
    search = stops(bench, monkeypatch, task)
    assert len(search.states) > 1 and outside(search) == []


def forgetful(self, it, at, x, y):
    """Joins two cells, and keeps the first."""
    return x


def untainted(x):
    """Returns the values of a cell without its taint."""
    return (0, x[1]) if isinstance(x, tuple) else (0, frozenset([x])) if isinstance(x, int) else (0, None)


MERGE_ERRORS = {
    "the first state is kept": (merge.Merger, "join_cell", forgetful), "a taint is dropped": (merge, "taint_and_values", untainted),
    "a change is lost": (merge, "changed_bytes", lambda one, two, base: [])}


@pytest.mark.parametrize("name", MERGE_ERRORS)
def test_error_of_a_merge_is_noticed(bench, monkeypatch, name):
    own = merge.changed_bytes
    monkeypatch.setattr(*MERGE_ERRORS[name])

    def is_noticed(task):
        search = stops(bench, monkeypatch, task, False)
        with monkeypatch.context() as patch:
            patch.setattr(merge, "changed_bytes", own)
            return outside(search) != []
    assert any(map(is_noticed, STOPPING))


def doubtful_facts(bench, monkeypatch, task):
    """Returns the facts of a merged state that some path does not fulfil at its first stop."""
    world = world_of(bench, monkeypatch, task, 1)
    options = VerifyOptions(**{**OPTIONS, "seconds": 60, "merges": True, "activations": 0, "bound": 100})
    search = Stops(world, options, Means(loops_from=3))
    search.joins, search.wanted_places = None, set(range(*world.region)) | {"x%d" % n for n in range(32)}
    search.go(Progress())
    assert any(it.facts for it in search.merger.merged.values())
    found = []
    for state, key in search.states:
        own = active(search.merger.merged[key].facts)
        found += [it for it in own if not evaluate(condition_of(it, word_reader(state)), state.model, {})]
    return found


@pytest.mark.parametrize("task", (3, 8))
def test_fact_of_a_merged_state_holds_at_each_stop(bench, monkeypatch, task):
    assert doubtful_facts(bench, monkeypatch, task) == []


def test_fact_that_is_not_asked_is_noticed(bench, monkeypatch):
    """With a planted error: each candidate is taken for a fact."""
    monkeypatch.setattr(bounds, "holding", lambda solver, conds, model, facts, words, is_late: list(facts))
    assert doubtful_facts(bench, monkeypatch, 3)


# ---- a second solver

def smt_of(search, asts):
    """Returns conditions as SMT-LIB text."""
    z = search.solver.z3
    solver_of_z3 = z.z3.SolverFor("QF_BV", z.owner)
    for it in asts:
        z.c.Z3_solver_assert(z.context, solver_of_z3.solver, it)
    return "(set-logic QF_BV)\n" + solver_of_z3.to_smt2() + "(exit)\n"


@pytest.mark.skipif(not shutil.which("boolector"), reason="boolector is not installed")
@pytest.mark.parametrize("task", TASKS)
def test_second_solver_agrees_that_nothing_exists(bench, monkeypatch, task):
    world = world_of(bench, monkeypatch, task, 1)
    search = Recorded(world, VerifyOptions(**{**OPTIONS, "seconds": 60, "bound": 100}))
    search.solver.proofs = []
    search.go(Progress())
    assert search.solver.proofs
    for asts in search.solver.proofs[:40]:
        done = subprocess.run(["boolector", "--smt2"], input=smt_of(search, asts), capture_output=True, text=True, check=False, timeout=HANG)
        assert done.stdout.split() == ["unsat"], done.stdout + done.stderr
