"""Proposes inputs to the subcommand `inputs`, by z3. With such inputs a trace takes a branch the other way, or an access reaches the border of its
object.

A *trace* is a run of `inputs` with some changed inputs. Its path is executed with the bytes of the window as expressions. Each byte has one value in
an activation."""
from __future__ import annotations

from collections import Counter
from typing import Counter as Counts, Dict, Iterator, List, Mapping, Optional, TYPE_CHECKING, Tuple

from rvlook.errors import RvlookError
from rvlook.finders.inputs.trace import Change
from rvlook.finders.inputs.values import Child, with_change
from rvlook.symbolic.accesses import Candidate
from rvlook.symbolic.conditions import eq
from rvlook.symbolic.evaluation import evaluate
from rvlook.symbolic.nodes import Node
from rvlook.symbolic.options import VerifyOptions
from rvlook.symbolic.search import Search
from rvlook.symbolic.state import State
from rvlook.symbolic.world import World

if TYPE_CHECKING:
    from rvlook.finders.inputs.search import InputSearch
    from rvlook.finders.inputs.trace import Trace
    from rvlook.symbolic.fields import AnyState, Load

MAX_PATH_STEPS = 30000  # the most steps of a path
MAX_LOOP_ROUNDS = 4  # the most rounds of a loop in which a path proposes models
MAX_MODELS_PER_TRACE = 24  # the most models of a trace that become new traces
MAX_TRACES = 16  # the most traces that are executed with expressions
QUERY_TIMEOUT_MS = 2000  # milliseconds of a query to z3
PATH_SECONDS = 60.0  # the time limit for one path
JOINED_GAP = 8  # two changed bytes less than this number of bytes apart become one change, with the bytes between them
Pair = Tuple[int, int]  # the pc of a branch, and the pc of the step after it


class Model:
    """Values for the inputs of a path that turn its last branch, or move its last access."""

    def __init__(self, state: AnyState, values: Mapping[str, int], pair: Optional[Pair] = None) -> None:
        self.loads: List[Load] = state.loads[:]
        self.leaving_steps: List[int] = [answer.step for answer in state.answers]  # the steps in which the enclave leaves
        self.values = values  # the values by the name of the variable
        self.pair = pair  # the branch that takes the other way with these values; None if the values move an access
        self.index = state.steps if pair is None else state.steps - 1  # the number of the step of the branch or access


class TraceState(State):
    """A state that proposes values at the borders of objects."""
    __slots__ = ()

    def ask_outside(self, address: Node, candidates: List[Candidate], is_sure: bool, kind: str) -> Optional[bool]:
        """Proposes addresses right before and right after the objects of an access, and the last address inside. `address` is the accessed
        address."""
        search: TracePath = self.search  # type: ignore[assignment]
        if self.is_base and search.is_new_access(self.pc, self.context):
            for candidate in candidates:
                extent = candidate.extent
                for at in (extent.high, extent.high - 1, extent.low - 1):
                    answer, model = search.solver.satisfiable(self.conditions, eq(address, at), self.model)
                    if answer:
                        search.models.append(Model(self, model))
        return True


class TracePath(Search):
    """The search that follows the path of a trace alone, and keeps a model for each branch that other inputs can turn."""
    state_type = TraceState

    def __init__(self, world: World, options: VerifyOptions) -> None:
        super().__init__(world, options)
        self.models: List[Model] = []
        self.accesses: Counts[Tuple[int, int]] = Counter()  # how often an access was executed, by pc and context

    def is_new_access(self, pc: int, context: int) -> bool:
        """Counts an access, and returns whether it is the first one of this instruction in this context."""
        self.accesses[pc, context] += 1
        return self.accesses[pc, context] == 1

    def add_path(self, state: State) -> None:
        """Continues the path of the trace itself. Another path becomes a model."""
        if state.is_base:
            super().add_path(state)
        else:
            self.models.append(Model(state, state.model, (state.pcs[-1], state.pc) if state.pcs else None))


class BranchModels:
    """Proposes inputs for the traces of a search of `inputs`. There are no proposals if z3 is missing."""

    def __init__(self) -> None:
        self.remaining_traces = MAX_TRACES  # how many traces may still be executed with expressions

    def __call__(self, search: InputSearch, trace: Trace) -> Iterator[Child]:
        """Yields new traces: `trace` with inputs that turn a branch as no trace has turned it, and with inputs that move an access to the border of
        its object."""
        if self.remaining_traces <= 0:
            return
        self.remaining_traces -= 1
        path = path_of(search, trace)
        if path is None:  # z3 is missing
            return
        first_pcs = [activation.pcs[:1] for activation in path.world.own_activations]
        first_pcs_of_trace = [trace.pcs[visit.first:visit.first + 1].tolist() for visit in trace.visits]
        if first_pcs != first_pcs_of_trace:
            return  # after a timer interrupt, an activation begins elsewhere
        child_count = 0
        for model in path.models:
            if model.pair is not None and (model.pair in search.judge.seen.pairs or compares_memory(search, trace, model.index)):
                continue
            child = child_of(search, trace, path.world, model)
            if child is not None and child_count < MAX_MODELS_PER_TRACE:
                child_count += 1
                yield child


def compares_memory(search: InputSearch, trace: Trace, index: int) -> bool:
    """Returns whether the branch in the step `index` of a trace compares an input with memory of the enclave, which the host does not know."""
    source_registers = search.tracer.code[trace.pcs[index]].sources
    return any(search.reader.is_private(trace, index, source) for source in source_registers)


def path_of(search: InputSearch, trace: Trace) -> Optional[TracePath]:
    """Executes the path of a trace with expressions. Returns the path, or None if z3 is missing."""
    run = search.run
    for change in trace.changes:
        run = run.with_lines(change.step, change.lines())
    options = VerifyOptions(search.tracer.slot, calm=True, merges=False, replay=0, bound=MAX_LOOP_ROUNDS, path_steps=MAX_PATH_STEPS,
                            timeout=QUERY_TIMEOUT_MS, seconds=PATH_SECONDS)
    try:
        path = TracePath(World(run, search.symbols, search.variables, options), options)
    except RvlookError:
        return None
    path.first_state().go()
    return path


def child_of(search: InputSearch, trace: Trace, world: World, model: Model) -> Optional[Child]:
    """Returns a new trace in which the host writes the values of a model to the window at the entries of the activations. Returns None if the trace
    has these values already."""
    changes = trace.changes
    first: Optional[int] = None  # the first step of the first activation whose values change
    for number, values in sorted(values_of(world, model).items()):
        visit = trace.visits[number]
        if first is None:
            first = visit.first
        for at, data in ranges_of(values, world, number):
            offset = at - world.window[0]
            old = world.windows[number][offset:offset + len(data)]
            step_before_entry = trace.steps[visit.first] - 1
            changes = with_change(changes, Change(step_before_entry, at, data, name=search.values.name(at), old=old.hex()))
    return None if first is None else Child(changes, first)


def values_of(world: World, model: Model) -> Dict[int, Dict[int, int]]:
    """Returns the values in a model of the bytes that the path loads from the window, by activation (counted from 0) and address. Leaves out a load
    whose bytes are all those of the run."""
    values_by_activation: Dict[int, Dict[int, int]] = {}
    low, high = world.window
    for step, load_address, names in model.loads:
        number = sum(end < step for end in model.leaving_steps)  # of the activation: how often the enclave has left before the load
        first = evaluate(load_address, model.values)
        data = {first + n: model.values[name] for n, name in names if low <= first + n < high}
        if number < len(world.windows) and any(world.windows[number][at - low] != value for at, value in data.items()):
            values_by_activation.setdefault(number, {}).update(data)
    return values_by_activation


def ranges_of(values: Mapping[int, int], world: World, number: int) -> List[Tuple[int, bytes]]:
    """Returns bytes of the window as ranges: the first address and the bytes. `values` has the bytes by address. Two bytes whose addresses differ by
    less than JOINED_GAP are in one range, with the bytes that the run itself has between them. `number` is that of the activation."""
    ranges: List[List[int]] = []  # the first and the last address of each range
    for at in sorted(values):
        if ranges and at - ranges[-1][1] < JOINED_GAP:
            ranges[-1][1] = at
        else:
            ranges.append([at, at])
    window_of_run = world.windows[number]
    base = world.window[0]
    return [(first, bytes(values.get(at, window_of_run[at - base]) for at in range(first, last + 1))) for first, last in ranges]
