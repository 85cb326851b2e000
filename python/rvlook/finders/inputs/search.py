"""The search of `inputs`: tries values, goes on from each trace that reaches something new, and combines changes. Several processes may trace
runs. A process begins with all that the search knows: decoded instructions, call contexts and their stack frames. It returns each trace with the
knowledge that it has gained. The search takes the traces in the order of the runs. If a trace depends on what an earlier one has found, the search
traces the run again. The result is therefore that of one process."""
from __future__ import annotations

from array import array
from collections import deque
from dataclasses import dataclass
from itertools import chain, islice
from typing import Callable, Iterator, Mapping, NamedTuple, Optional, Sequence

from rvlook.access.fields import WindowFields
from rvlook.finders.inputs.code import Code
from rvlook.finders.inputs.contexts import Contexts
from rvlook.finders.inputs.judge import TraceJudge
from rvlook.finders.inputs.objects import Objects
from rvlook.finders.inputs.secret_rules import SecretRules
from rvlook.finders.inputs.trace import Trace
from rvlook.finders.inputs.tracer import Started, Tracer
from rvlook.finders.inputs.values import Child, DetailReader, Details, HostRequest, Input, Values, reordered
from rvlook.image.variables import Variables
from rvlook.output.progress import Progress
from rvlook.protocol.jobs import results_of
from rvlook.protocol.run import Run
from rvlook.protocol.symbols import Symbols

MAX_CHANGES_PER_RUN = 4  # changes of inputs; the search goes on from no run with so many
BATCH_RUNS = 16  # runs from one trace before the runs from the next trace
RUNS_AHEAD = 2  # runs that are started before the one that is traced is complete


class TracerKnowledge(NamedTuple):
    """The knowledge of a tracer before runs that other processes trace."""
    pcs: frozenset[int]  # the pcs of decoded instructions
    contexts: int  # the number of call contexts
    frames: Mapping[int, int]  # sp of each context


class News(NamedTuple):
    """The knowledge that a tracer has gained in a run."""
    code: Mapping[int, Code]  # decoded instructions, by pc
    contexts: Sequence[tuple[int, int, bool]]  # caller's context, pc of the call, whether a trap
    frames: Mapping[int, int]  # new or changed sp, by context
    saved: Mapping[int, set[int]]  # addresses at which each context saves registers


def known_to(tracer: Tracer) -> TracerKnowledge:
    """Returns the present knowledge of a tracer."""
    return TracerKnowledge(frozenset(tracer.code), len(tracer.contexts.parents), dict(tracer.contexts.frames))


def news_since(tracer: Tracer, known: TracerKnowledge) -> News:
    """Returns the knowledge that a tracer has gained since it had the knowledge `known`."""
    contexts = tracer.contexts
    return News({pc: code for pc, code in tracer.code.items() if pc not in known.pcs},
                list(zip(contexts.parents, contexts.calls, contexts.traps))[known.contexts:], new_frames(contexts, known), contexts.saved)


def new_frames(contexts: Contexts, known: TracerKnowledge) -> dict[int, int]:
    """Returns the stack frames that are new or differ from the known ones, by context."""
    return {context: sp for context, sp in contexts.frames.items() if known.frames.get(context) != sp}


def traces_of(tracer: Tracer, parent: Trace, children: Sequence[Child], jobs: int) -> Iterator[Trace]:
    """Yields the traces of runs with changed inputs, in the order of the runs. Does `jobs` runs at the same time."""
    known = known_to(tracer)
    tracer.probes(parent)  # the processes inherit them

    def traced(number: int) -> tuple[Trace, News]:
        """Traces a run, by its number."""
        trace = tracer.child(parent, children[number].index, children[number].changes)
        trace.parts.clear()  # they save time only in the process of the judge
        return trace, news_since(tracer, known)

    for child, (trace, news) in zip(children, results_of(traced, len(children), jobs)):
        if has_taken_over(tracer, known, trace, news):
            yield trace
        else:
            yield tracer.child(parent, child.index, child.changes)


def has_taken_over(tracer: Tracer, known: TracerKnowledge, trace: Trace, news: News) -> bool:
    """Takes over a trace of another process, with its news. Returns whether that was possible: the process knew all that the trace could use, and its
    news do not contradict this process. `known` is what the processes knew before the runs."""
    contexts, number_here = tracer.contexts, list(range(known.contexts))  # by the number of a context there, its number here
    for caller, pc, is_trap in news.contexts:
        number_here.append(contexts.called(number_here[caller], pc, is_trap))
    frames = {number_here[context]: sp for context, sp in news.frames.items()}
    visited_contexts = {number_here[context] for context in {*trace.contexts, trace.context}}
    used_contexts = {*frames, *visited_contexts, *(contexts.parents[context] for context in visited_contexts)}
    # the process changed a known frame, decoded other code, or lacked a frame that this process has found meanwhile and that the trace may use
    if any(frame in known.frames for frame in frames) or any(tracer.code.get(pc, code) != code for pc, code in news.code.items()) or \
            any(frame in used_contexts and frames.get(frame) != sp for frame, sp in new_frames(contexts, known).items()):
        return False
    for pc, code in news.code.items():
        tracer.learn(pc, code)
    contexts.frames.update(frames)
    for context, saved_addresses in news.saved.items():
        contexts.saved.setdefault(number_here[context], set()).update(saved_addresses)
    contexts.version += 1
    trace.contexts, trace.context = array("I", [number_here[context] for context in trace.contexts]), number_here[trace.context]
    tracer.runs += 1
    tracer.count_end(trace)
    return True


@dataclass
class Parent:
    """A trace from which the search goes on: it tries further changes of the inputs of this trace."""
    trace: Trace  # the trace whose inputs are changed
    details: Details  # the loads and branches of the trace
    inputs: list[Input]  # the inputs that can be changed
    children: Iterator[Child]  # the runs that are still to be tried


class InputSearch:
    """A search over the inputs of an enclave. `jobs` processes trace its runs."""
    def __init__(self, run: Run, symbols: Symbols, variables: Variables, slot: int, seed: int) -> None:
        self.run, self.symbols, self.variables = run, symbols, variables  # `variables`: of the enclave
        self.tracer = Tracer(run, slot)  # runs the enclave
        self.base = self.tracer.base()  # the trace of the run itself
        assert self.tracer.enclave is not None
        self.objects = Objects(self.tracer.enclave, symbols, variables, self.tracer.contexts)  # names what is at an address
        self.fields = WindowFields(symbols)  # names offsets in the window
        self.reader = DetailReader(self.tracer, self.objects, self.fields)  # reads loads and branches of traces
        self.values = Values(self.tracer, self.objects, self.fields, self.reader, seed)  # finds the values to try
        self.judge = TraceJudge(self.tracer, self.objects, self.base)  # has the findings
        self.rules: Optional[SecretRules] = None  # the rules of the secret; None for no secret
        self.models: Callable[[InputSearch, Trace], Iterator[Child]] = lambda *_: iter(())  # a solver proposes these inputs
        self.base_details: Details  # the details of the trace of the run itself
        self.root: Optional[Parent] = None  # the run itself, until all its values were tried
        self.parents: deque[Parent] = deque()  # the other traces from which the search goes on
        self.tried_changes: set[tuple[object, ...]] = set()  # the changes of all runs so far
        self.inputs: dict[tuple[object, ...], Input] = {}  # the inputs by visit, address, width, kind and register
        self.continued_traces, self.is_exhausted = 0, False  # number of traces from which the search went on; whether all values were tried
        self.jobs = 1  # processes that trace the runs

    def start(self, secret_at: int | None, has_entry: bool) -> None:
        """Prepares the search: the addresses to try as pointers, that of the secret first, and the runs with one change. `has_entry` is --entry."""
        self.values.has_entry = has_entry
        targets = self.objects.object_starts(set(self.base.pcs))
        base = self.objects.enclave.base
        secret_first = [] if secret_at is None else [secret_at]
        self.values.target_addresses = list(dict.fromkeys([*secret_first, *targets[:3], base, *targets[3:]]))
        self.go_on_from(self.base)

    def go_on_from(self, trace: Trace) -> None:
        """Adds a trace to the traces from which the search goes on."""
        details = self.reader.read(trace)
        inputs = self.values.inputs(trace, details)
        for input_ in inputs:
            self.inputs.setdefault((input_.visit, input_.at, input_.width, input_.is_loaded_again, input_.register), input_)
        children = self.values.children(trace, details, inputs)
        orders = reordered(trace, self.requests(trace, details), self.values.name) if trace is self.base else iter(())
        runs = chain(islice(children, BATCH_RUNS), self.models(self, trace), islice(children, BATCH_RUNS), orders, children)
        parent = Parent(trace, details, inputs, runs)
        if trace is self.base:
            self.root, self.base_details = parent, details
        else:
            self.parents.appendleft(parent)
        self.continued_traces += 1

    def requests(self, trace: Trace, details: Details) -> list[HostRequest]:
        """Returns what each activation of a trace loads from the window. If a byte is loaded twice, its first value counts."""
        loads = [reversed(list(self.values.loads(trace, details, visit))) for visit in trace.visits]
        contents = [{at + n: value for _, at, data in loads_of_visit for n, value in enumerate(data)} for loads_of_visit in loads]
        return [HostRequest(trace.steps[visit.first] - 1, visit.first, content) for visit, content in zip(trace.visits, contents)]

    def go(self, runs: int, progress: Progress) -> None:
        """Tries values up to a number of runs. Ends the runs that were started if an exception stops it."""
        started: deque[Started] = deque()
        try:
            self.try_values(runs, progress, started)
        finally:
            for item in started:
                item.replay.bench.close()

    def try_values(self, runs: int, progress: Progress, started: deque[Started]) -> None:
        """Tries values until `runs` runs are done, or all values are tried. `started` has the runs that are started and not complete."""
        parent: Parent | None = None
        while self.root or self.parents:
            parent = self.next_parent(parent)
            batch = self.next_batch(parent, runs)
            is_parallel = self.jobs > 1 and len(batch) > 1
            for trace in traces_of(self.tracer, parent.trace, batch, self.jobs) if is_parallel else self.traced(parent.trace, batch, started):
                self.judge_and_go_on(trace)
                progress.show("%d of %d runs, %d reached something new, %d findings", self.tracer.runs, runs, self.continued_traces,
                              len(self.judge.findings))
            if parent is self.root:
                self.root = parent if len(batch) == BATCH_RUNS else None
            elif len(batch) == BATCH_RUNS:
                self.parents.append(parent)
            if self.tracer.runs >= runs:
                return
        self.is_exhausted = True

    def traced(self, parent: Trace, children: Sequence[Child], started: deque[Started]) -> Iterator[Trace]:
        """Yields the traces of runs. Keeps RUNS_AHEAD runs started besides the one that is traced, so that their processes run meanwhile."""
        for child in [*children, *[None] * RUNS_AHEAD]:
            if child is not None:
                started.append(self.tracer.start(parent, child.index, child.changes))
            if started and (child is None or len(started) > RUNS_AHEAD):
                yield self.tracer.finish(started.popleft())

    def next_parent(self, previous: Parent | None) -> Parent:
        """Returns the trace whose inputs the next runs change: every second time the run itself. `previous` is the one before; None at the start."""
        is_turn_of_root = previous is not self.root or not self.parents
        return self.root if self.root and is_turn_of_root else self.parents.popleft()

    def next_batch(self, parent: Parent, runs: int) -> list[Child]:
        """Returns the next runs from a trace that were not tried before: BATCH_RUNS of them, unless fewer are left."""
        batch: list[Child] = []
        for child in parent.children if self.tracer.runs < runs else ():
            key = tuple((change.step, change.at, change.register, change.value) for change in child.changes)
            if key not in self.tried_changes:
                self.tried_changes.add(key)
                batch.append(child)
            if len(batch) == min(BATCH_RUNS, runs - self.tracer.runs):
                break
        return batch

    def judge_and_go_on(self, trace: Trace) -> None:
        """Adds the findings of a trace, and goes on from the trace if it reached something new."""
        is_new = self.judge.judge_trace(trace)
        if self.rules:
            self.rules.judge_trace(trace)
        if is_new and len(trace.changes) < MAX_CHANGES_PER_RUN and len(trace):
            self.go_on_from(trace)
