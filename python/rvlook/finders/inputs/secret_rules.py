"""Rules over the outputs of a trace: the secret comes out at an input, comes out although a check failed, or an older state is accepted again."""
from __future__ import annotations

from dataclasses import dataclass
from typing import Iterator, NamedTuple, Sequence, TYPE_CHECKING

from rvlook.finders.inputs.code import A1, ENDS_BLOCK, Kind
from rvlook.finders.inputs.judge import InputFinding, FindingKind
from rvlook.finders.inputs.objects import ObjectPlace
from rvlook.finders.inputs.trace import Change, Trace, TraceVisit, runs_of
from rvlook.finders.leak import Public, equal_length
from rvlook.finders.secrets import LEAST, Secret, copies_in

if TYPE_CHECKING:
    from rvlook.finders.inputs.search import InputSearch

ANSWER_SIZE = 4  # bytes of a1
MAX_COMPARED_BYTES = 64  # of an output, in a run with another secret
MIN_NONZERO_BYTES = 3  # the least number of bytes that are not 0 in a state that is loaded from another address than it was stored at


@dataclass(frozen=True)
class Output:
    """A part of the secret that comes out of the enclave."""
    offset: int  # the offset of the part in the secret
    size: int  # bytes
    address: int | None  # the address in the window; None for a1 of the host
    index: int  # the index of the step that stored its last byte; for a1 of the step by which the enclave leaves
    end: int  # index of the step by which the enclave leaves
    is_public: bool  # whether --public names it


def steps_of(trace: Trace, visit: TraceVisit) -> range:
    """Returns the indices of an activation."""
    return range(visit.first, (len(trace) - 1 if visit.last is None else visit.last) + 1)


class SecretRules:
    """Finds the parts of a secret that come out of each trace, and compares them with the checks of the enclave."""
    def __init__(self, search: InputSearch, secret: Secret, public: Public) -> None:
        self.search, self.secret, self.public = search, secret, public  # `public`: the outputs that may depend on the secret
        self.reported_offsets: set[int] = set()  # offsets of bytes of the secret that come out and are not public
        self.findings: list[InputFinding] = []  # the bytes that come out
        self.traces_with_outputs: list[tuple[Trace, list[Output]]] = []  # traces with outputs, to be compared with the checks
        self.targets_of_failed_checks: dict[int, int] = {}  # by the pc of a branch that is a check: where it goes if the check fails
        self.usual_outputs = list(self.outputs(search.base))  # the outputs of the run itself
        self.report(search.base, self.usual_outputs)

    def judge_trace(self, trace: Trace) -> None:
        """Adds the findings of a trace of the search, and records a check that it shows."""
        outputs = list(self.outputs(trace))
        self.report(trace, outputs)
        if self.usual_outputs:
            self.record_check(trace, {trace.visit_at(output.end) for output in outputs})
            if outputs:
                self.traces_with_outputs.append((trace, outputs))

    def report(self, trace: Trace, outputs: Sequence[Output]) -> None:
        """Reports the bytes of the secret that come out and are not public, once each."""
        for output in outputs:
            offsets = range(output.offset, output.offset + output.size)
            if not output.is_public and not self.reported_offsets.issuperset(offsets) and self.depends_on_secret(trace, output):
                self.reported_offsets.update(offsets)
                self.add(trace, output)

    def add(self, trace: Trace, output: Output) -> None:
        """Adds the finding that a part of the secret comes out."""
        place = "the answer" if output.address is None else "%s (%08x)" % (self.search.values.name(output.address), output.address)
        note = "%d bytes of the secret, from offset %d, in %s" % (output.size, output.offset, place)
        self.findings.append(self.finding(FindingKind.SECRET, trace, output, place, note))

    @staticmethod
    def finding(kind: FindingKind, trace: Trace, output: Output, place: str, note: str) -> InputFinding:
        """Returns a finding about an output."""
        return InputFinding(kind, trace, output.index, trace.pcs[output.index], ObjectPlace(place), output.address or 0, note=note)

    def outputs(self, trace: Trace) -> Iterator[Output]:
        """Yields the parts of the secret that each activation stores to the window or answers."""
        for visit in trace.visits:
            content: dict[int, tuple[int, int]] = {}  # by address: each byte that was stored, and the index of the step that stored it last
            for index in steps_of(trace, visit):
                code = self.search.tracer.code[trace.pcs[index]]
                at = trace.addresses[index]
                if code.kind is Kind.STORE and self.search.objects.enclave.shares(at) and index not in trace.traps:
                    content.update((at + n, (trace.values[index] >> 8 * n & 0xFF, index)) for n in range(code.width))
            last = steps_of(trace, visit)[-1]
            yield from self.stored(trace, content, last)
            word = visit.answer[1].to_bytes(ANSWER_SIZE, "little")  # a1 of the host
            offset = self.secret.bytes.find(word) if len(set(word)) > 1 else -1  # equal bytes may be a coincidence
            if offset >= 0 and visit.ended_by in ("stop", "exit"):
                yield Output(offset, ANSWER_SIZE, address=None, index=last, end=last, is_public=self.public.answer)

    def stored(self, trace: Trace, content: dict[int, tuple[int, int]], last: int) -> Iterator[Output]:
        """Yields the copies of parts of the secret among stored bytes. `content` has these bytes; `last` is the index of the step that leaves."""
        for first, data in runs_of({at: value for at, (value, _) in content.items()}):
            for copy in copies_in(data, self.secret.bytes):
                addresses = range(first + copy.at, first + copy.at + copy.size)
                writers = [content[at][1] for at in addresses]
                is_public = all(self.public.has(at) or self.public.has(trace.pcs[index]) for at, index in zip(addresses, writers))
                yield Output(copy.offset, copy.size, addresses[0], max(writers), last, is_public)

    def depends_on_secret(self, trace: Trace, output: Output) -> bool:
        """Returns whether an output is another one if the secret is its complement. Else the host gave the bytes itself."""
        run, secret = self.search.run, self.secret
        run = run.with_lines(secret.step, secret.with_bytes(bytes(n ^ 0xFF for n in secret.bytes)).lines())
        for change in trace.changes:
            run = run.with_lines(change.step, change.lines())
        with run.replay() as replay:
            replay.go(trace.steps[output.end])
            if output.address is None:
                return replay.bench.register(A1) != trace.visits[trace.visit_at(output.end)].answer[1]
            size = min(output.size, MAX_COMPARED_BYTES)
            return replay.bench.memory(output.address, size) != self.secret.bytes[output.offset:output.offset + size]

    def record_check(self, trace: Trace, visits: set[int]) -> None:
        """Records a check that a trace with one change shows. The branch by which it leaves the trace of the run itself is a check if the trace then
        keeps the secret inside. A branch that depends on memory of the region is also a check if the answer of the activation changes. `visits` are
        the activations of the trace with an output."""
        base = self.search.base
        branch = first_difference(base, trace) - 1  # index of the last step in common
        if len(trace.changes) != 1 or not 0 <= branch < min(len(trace), len(base)) - 1:
            return
        code, number = self.search.tracer.code[base.pcs[branch]], base.visit_at(branch)
        silent_visits = {base.visit_at(output.end) for output in self.usual_outputs} - visits  # activations that keep the secret inside
        is_other_answer = number < len(trace.visits) and trace.visits[number].answer != base.visits[number].answer
        if code.kind is Kind.BRANCH and (silent_visits and number <= min(silent_visits) or is_other_answer and self.is_private(branch)):
            self.targets_of_failed_checks[base.pcs[branch]] = trace.following(branch)

    def is_private(self, index: int) -> bool:
        """Returns whether a branch of the run itself depends on memory of the region."""
        base = self.search.base
        return any(self.search.reader.is_private(base, index, source) for source in self.search.tracer.code[base.pcs[index]].sources)

    def unchecked_outputs(self) -> Iterator[InputFinding]:
        """Yields the findings that the secret came out although a check failed, or without the check."""
        reported_pcs: set[int] = set()
        base = self.search.base
        usual_targets = branches_of(self.search, base, range(len(base) - 1))
        usual_branches = [branches for *_, branches in self.segments([(base, self.usual_outputs)])]  # before each output of the run itself
        for trace, output, branches in self.segments(self.traces_with_outputs):
            for pc, target in sorted(self.targets_of_failed_checks.items()):
                is_skipped = pc not in branches and all(pc in branch for branch in usual_branches) and not self.has_passed(trace, pc, target, output)
                is_failed = branches.get(pc) == {target} and target not in usual_targets.get(pc, ())
                if (is_skipped or is_failed) and pc not in reported_pcs:
                    reported_pcs.add(pc)
                    where = self.search.symbols.line(pc) or self.search.symbols.name(pc) or "%08x" % pc
                    note = "the secret comes out %s %s" % ("without the check at" if is_skipped else "although the check fails at", where)
                    yield self.finding(FindingKind.CHECK, trace, output, where, note)

    def has_passed(self, trace: Trace, pc: int, target: int, output: Output) -> bool:
        """Returns whether a check passed in an activation before that of an output: it may count for the later ones, as a session does."""
        first = trace.visits[trace.visit_at(output.end)].first
        return bool(branches_of(self.search, trace, range(first)).get(pc, set()) - {target})

    def segments(self, traces: Sequence[tuple[Trace, list[Output]]]) -> Iterator[tuple[Trace, Output, dict[int, set[int]]]]:
        """Yields each output of these traces with the branches since the end of the activation with the output before it. Leaves out outputs up to
        which a trace has the same steps as the run itself, unless it is the trace of the run itself."""
        base = self.search.base
        for trace, outputs in traces:
            first, common_steps = 0, 0 if trace is base else first_difference(base, trace)
            for output in outputs:
                if output.end > common_steps and output.end >= first:
                    yield trace, output, branches_of(self.search, trace, range(first, output.end))
                first = max(first, output.end + 1)


def branches_of(search: InputSearch, trace: Trace, indices: range) -> dict[int, set[int]]:
    """Returns for each branch in a range of steps, by its pc, the pcs to which it goes."""
    targets: dict[int, set[int]] = {}
    for index in indices:
        if search.tracer.code[trace.pcs[index]].kind is Kind.BRANCH:
            targets.setdefault(trace.pcs[index], set()).add(trace.pcs[index + 1])
    return targets


def first_difference(one: Trace, two: Trace) -> int:
    """Returns the index of the first step at which two traces have different pcs."""
    return equal_length(one.pcs, 0, two.pcs, 0)


class OlderState(NamedTuple):
    """An older state, which the host gives to the enclave again."""
    change: Change  # the input that gives the state
    visit: int  # the activation that gets the state, from 0
    stored_in: int | None  # the activation that stored it, from 0; None if the host gave it


def older_states(search: InputSearch, loaded: dict[int, bytes]) -> Iterator[OlderState]:
    """Yields older states for each activation of the run itself. `loaded` has the bytes of each load from the window. A state is a range of bytes
    that the enclave stored in an earlier activation and loads now, at any address: the host may have kept it. A state is older if the enclave made
    the present state from it. Values that exist side by side, such as handles, are not older states."""
    base = search.base
    stores = [dict(window_bytes(search, base, visit, Kind.STORE, loaded)) for visit in base.visits]
    loads = [dict(window_bytes(search, base, visit, Kind.LOAD, loaded)) for visit in base.visits]
    for number, visit in enumerate(base.visits):
        for loaded_at, data in runs_of(loads[number]):
            for state, size in stored_states(loaded_at, data, stores[:number]):
                address, present = loaded_at + state.offset, data[state.offset:state.offset + size]
                for value, stored_in in versions(stores[:number], loads[:number], state, loaded_at, size):
                    if value != present and present in successors(stores[:number], loads[:number], state.at, value):
                        step, name = base.steps[visit.first] - 1, search.values.name(address)
                        yield OlderState(Change(step, address, value, register=0, name=name, old=present.hex()), number, stored_in)


class StoredState(NamedTuple):
    """A state that an earlier activation stored, and that an activation loads."""
    offset: int  # the offset of the state in the loaded bytes
    at: int  # address at which the state was stored


def stored_states(first: int, data: bytes, stores: list[dict[int, int]]) -> Iterator[tuple[StoredState, int]]:
    """Yields each part of the bytes loaded from an address that an earlier activation stored, the last such activation first, with its size in bytes.
    At another address a few small numbers are equal by chance, so a state there has several bytes that are not 0."""
    for content in reversed(stores):
        for at, value in runs_of(content):
            for copy in copies_in(data, value):
                is_same_address = first + copy.at == at + copy.offset
                nonzero_bytes = copy.size - data[copy.at:copy.at + copy.size].count(0)
                if copy.size >= LEAST and (is_same_address or nonzero_bytes >= MIN_NONZERO_BYTES):
                    yield StoredState(copy.at, at + copy.offset), copy.size


def versions(stores: list[dict[int, int]], loads: list[dict[int, int]], state: StoredState, at: int, size: int) -> Iterator[tuple[bytes, int | None]]:
    """Yields the values that activations stored at the state's address, with their numbers, and those they loaded at its new address, with None."""
    for number, content in enumerate(stores):
        if all(state.at + n in content for n in range(size)):
            yield bytes(content[state.at + n] for n in range(size)), number
    for content in loads:
        if all(at + state.offset + n in content for n in range(size)):
            yield bytes(content[at + state.offset + n] for n in range(size)), None


def successors(stores: list[dict[int, int]], loads: list[dict[int, int]], at: int, value: bytes) -> set[bytes]:
    """Returns the states that activations stored at an address after they had loaded a value, or a state made from the value."""
    ancestors, successors_so_far = {value}, set()
    for stored, loaded in zip(stores, loads):
        if all(at + n in stored for n in range(len(value))) and any(old in data for _, data in runs_of(loaded) for old in ancestors):
            successors_so_far.add(bytes(stored[at + n] for n in range(len(value))))
            ancestors |= successors_so_far
    return successors_so_far


def window_bytes(search: InputSearch, trace: Trace, visit: TraceVisit, kind: Kind, loaded: dict[int, bytes]) -> Iterator[tuple[int, int]]:
    """Yields the address and the value of each byte of the window that an activation stores, or that it loads before it stores to it."""
    stored_addresses: set[int] = set()
    for index in steps_of(trace, visit):
        code, at = search.tracer.code[trace.pcs[index]], trace.addresses[index]
        if code.kind is Kind.STORE and search.objects.enclave.shares(at):
            stored_addresses.update(range(at, at + code.width))
            if kind is Kind.STORE:
                yield from ((at + n, trace.values[index] >> 8 * n & 0xFF) for n in range(code.width))
        elif code.kind is Kind.LOAD and kind is Kind.LOAD and index in loaded:
            yield from ((at + n, value) for n, value in enumerate(loaded[index]) if at + n not in stored_addresses)


def replayed_states(search: InputSearch, loaded: dict[int, bytes]) -> Iterator[InputFinding]:
    """Yields the findings of accepted older states: no other branch than in the run itself, but another answer or other stored bytes."""
    base, tried_changes = search.base, set()
    usual = {(base.pcs[n], base.following(n)) for n in range(len(base)) if search.tracer.code[base.pcs[n]].kind in ENDS_BLOCK}
    for state in older_states(search, loaded):
        key = state.change.step, state.change.at, state.change.value
        if key in tried_changes:
            continue
        tried_changes.add(key)
        trace = search.tracer.child(base, base.visits[state.visit].first, (state.change,))
        search.judge.judge_trace(trace)
        if len(trace.visits) <= state.visit or trace.visits[state.visit].last is None:
            continue
        steps = steps_of(trace, trace.visits[state.visit])
        pairs = {(trace.pcs[n], trace.following(n)) for n in steps if search.tracer.code[trace.pcs[n]].kind in ENDS_BLOCK}
        if pairs <= usual and visible_results(search, trace, state.visit) != visible_results(search, base, state.visit):
            origin = "that the host gave it before" if state.stored_in is None else "that activation %d stored" % (state.stored_in + 1)
            note = "activation %d accepts the state %s in %s" % (state.visit + 1, origin, state.change.name)
            yield InputFinding(FindingKind.REPLAY, trace, steps[-1], trace.pcs[steps[-1]], ObjectPlace(state.change.name), state.change.at, note=note)


def visible_results(search: InputSearch, trace: Trace, number: int) -> tuple[object, ...]:
    """Returns what the host can observe of the activation with a number: how it ends, and what it stores to the window."""
    visit = trace.visits[number]
    return visit.ended_by, visit.answer, tuple(window_bytes(search, trace, visit, Kind.STORE, {}))
