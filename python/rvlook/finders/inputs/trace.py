"""A trace of an enclave: each of its steps with the address and the value of its access, and each of its activations. The probes of a trace are
commands that show whether another run takes the same steps, and which of its accesses differ."""
from __future__ import annotations

from array import array
from bisect import bisect_left
from dataclasses import dataclass, field
from itertools import compress, count
from operator import ne
from typing import Iterator, Mapping, NamedTuple, Optional, Sequence, Tuple

from rvlook.finders.inputs.code import ENDS_BLOCK, Code, Kind
from rvlook.protocol.replies import Enclave, poke_commands

ROOT = 0  # the context outside every call
NO_PC = -1  # the value in place of a pc when the enclave does not run
READ_RESULT = b"reg 10\nreg 11\n"  # reads a0 and a1 of the host, after an activation
PLACE_LENGTH = len(b" pc=80000000 mode=S world")  # characters of a reply that are compared: its pc and its mode


class Change(NamedTuple):
    """An input of the host: bytes that are poked after a step, or the value of a register that is set then."""
    step: int  # number of the step of the run after which the host gives it
    at: int  # address; 0 for a register
    value: bytes  # the new bytes, little-endian in a register
    register: int = 0  # the number of the register; 0 for bytes in memory
    name: str = ""  # the name of the input, for the report
    old: str = ""  # the value without the change, as hexadecimal digits

    def lines(self) -> list[str]:
        """Returns the commands that make the change."""
        if self.register:
            return ["setreg %d %x" % (self.register, int.from_bytes(self.value, "little"))]
        return poke_commands(self.at, self.value)


Changes = Tuple[Change, ...]


class TraceVisit(NamedTuple):
    """An activation of the enclave in a trace."""
    first: int  # index of its first step
    last: Optional[int] = None  # index of its last step; None if the trace ends inside
    ended_by: str = ""  # exit, stop or timer; empty if the trace ends inside
    answer: Tuple[int, int] = (0, 0)  # a0 and a1 of the host after it


@dataclass(eq=False)
class Trace:
    """The steps of an enclave in a run with changed inputs. The parent of a trace is the trace whose inputs were changed. `end` is `halted` if the
    host halts, and `limit` if the trace was cut. It is `waits` if the enclave waits for the host to change the window, and `stuck` if the enclave
    does not return for another reason. An index counts the steps of the trace from 0."""
    changes: Changes = ()  # the changes that were made to the inputs of the run
    steps: array[int] = field(default_factory=lambda: array("I"))  # the number of each step in the run
    pcs: array[int] = field(default_factory=lambda: array("I"))  # the pc of each step
    addresses: array[int] = field(default_factory=lambda: array("I"))  # the address of each load and store; a1 of a call of the monitor
    values: array[int] = field(default_factory=lambda: array("I"))  # the value of each store; a6 of a call of the monitor
    contexts: array[int] = field(default_factory=lambda: array("I"))  # the number of the call context of each step
    traps: dict[int, tuple[int, int]] = field(default_factory=dict)  # the cause and the value of each trap, by index of the step
    visits: list[TraceVisit] = field(default_factory=list)  # the activations
    end: str = ""  # halted, limit, waits or stuck, see above; empty while it is not known
    changed_indices: list[int] = field(default_factory=list)  # the indices whose access differs from that of the parent
    new_ranges: list[tuple[int, int]] = field(default_factory=list)  # ranges of indices of steps that the parent does not have
    next_pc: int = 0  # the pc after the last step
    context: int = ROOT  # the call context after the last step
    total: int = 0  # number of steps of the run, also of steps of the host
    probes: Optional[Probes] = None  # made when another run first follows this trace
    parts: list[tuple[int, Trace]] = field(default_factory=list)  # steps that other traces have too, with the index of the first
    unusual: Optional[tuple[int, list[int]]] = None  # of a part that was judged: the version of the judge then, and the unusual indices

    def __len__(self) -> int:
        return len(self.pcs)

    def prefix(self, count: int, changes: Changes) -> Trace:
        """Returns the first `count` steps as a trace with other changes. An activation that ends later is open in it."""
        visits = [visit for visit in self.visits if visit.first < count]
        if visits:
            last = visits[-1].last
            if last is None or last >= count:
                visits[-1] = TraceVisit(visits[-1].first)
        return Trace(changes, self.steps[:count], self.pcs[:count], self.addresses[:count], self.values[:count], self.contexts[:count],
                     {n: trap for n, trap in self.traps.items() if n < count}, visits,
                     context=self.contexts[count] if count < len(self) else self.context)

    def since(self, begin: int) -> Trace:
        """Returns the steps from an index on as a trace without changes."""
        trace = Trace()
        trace.append(self, begin, len(self), 0)
        return trace

    def cut(self, count: int) -> None:
        """Removes all steps but the first `count`."""
        first = self.prefix(count, self.changes)
        self.steps, self.pcs, self.addresses, self.values, self.contexts = first.steps, first.pcs, first.addresses, first.values, first.contexts
        self.traps, self.visits, self.context = first.traps, first.visits, first.context
        self.changed_indices = [index for index in self.changed_indices if index < count]
        self.parts = [(at, part) for at, part in self.parts if at + len(part) <= count]

    def append(self, parent: Trace, first: int, end: int, later: int) -> None:
        """Adds the steps of another trace with indices from `first` to before `end`. Their numbers in the run are greater by `later`."""
        shift = len(self) - first  # the difference of the indices of a step
        self.steps.extend([step + later for step in parent.steps[first:end]] if later else parent.steps[first:end])
        self.pcs += parent.pcs[first:end]
        self.addresses += parent.addresses[first:end]
        self.values += parent.values[first:end]
        self.contexts += parent.contexts[first:end]
        self.traps.update((n + shift, trap) for n, trap in parent.traps.items() if first <= n < end)
        self.context = parent.contexts[end] if end < len(parent) else parent.context
        is_open = bool(self.visits) and self.visits[-1].last is None  # the last activation, so that the first added one may continue it
        for visit in parent.visits:
            begin, is_whole = max(first, visit.first), visit.last is not None and visit.last < end
            if begin < end and (visit.last is None or first <= visit.last):
                begin_here = self.visits.pop().first if is_open and begin == first else begin + shift
                last = visit.last + shift if visit.last is not None and is_whole else None
                self.visits.append(TraceVisit(begin_here, last, visit.ended_by, visit.answer) if is_whole else TraceVisit(begin_here))

    def differences(self) -> Iterator[tuple[Sequence[int], Optional[Trace]]]:
        """Yields the indices of the steps that differ from the steps of the parent, or that come right before such steps, in order. The steps of a
        part are a group of their own, with the part."""
        single_indices, begin = set(self.changed_indices), 0  # `single_indices`: of steps in no part
        for first, end in self.new_ranges:
            single_indices.update(range(max(0, first - 1), end))
        for at, part in self.parts:
            single_indices.difference_update(range(at, at + len(part)))
        indices = [index for index in sorted(single_indices) if index < len(self.pcs)]
        for at, part in self.parts:
            end = bisect_left(indices, at)
            yield indices[begin:end], None
            yield range(at, at + len(part)), part
            begin = end
        yield indices[begin:], None

    def visit_at(self, index: int) -> int:
        """Returns the number, from 0, of the activation that includes the step at an index."""
        return max(n for n, visit in enumerate(self.visits) if visit.first <= index)

    def following(self, index: int) -> int:
        """Returns the pc after a step of the enclave, or NO_PC if the enclave leaves with it."""
        for visit in self.visits:
            if visit.last == index:
                return NO_PC
        return self.pcs[index + 1] if index + 1 < len(self.pcs) else self.next_pc


def runs_of(content: Mapping[int, int]) -> Iterator[tuple[int, bytes]]:
    """Yields the address and the bytes of each range without gaps. `content` has the bytes by address."""
    addresses = sorted(content)
    start = 0
    for n in range(1, len(addresses) + 1):
        if n == len(addresses) or addresses[n] != addresses[n - 1] + 1:
            yield addresses[start], bytes(content[address] for address in addresses[start:n])
            start = n


class TraceProbe(NamedTuple):
    """Commands of a trace, and where they are sent."""
    step_index: int  # index of the step of the trace to which the commands belong
    position: int  # number of steps of the run before the commands
    question: bytes = b""  # commands that read registers; empty: only the pc is compared
    is_after: bool = False  # whether the commands come after the step, not before it


@dataclass
class ProbeComparison:
    """The result of a comparison with a parent, by indices of the parent."""
    end: Optional[int] = None  # the first step that may differ; None if all steps are the same
    changed_accesses: dict[int, list[int]] = field(default_factory=dict)  # the registers of each access that differs
    changed_answers: dict[int, tuple[int, int]] = field(default_factory=dict)  # a0 and a1 after each activation whose results differ


class Probes:
    """The probes of a trace, in order, and the replies to them. A probe has one reply to its first command, and one for each register."""
    def __init__(self, probes: Sequence[TraceProbe]) -> None:
        self.probes = probes  # the probes in the order of the run
        self.indices = [probe.step_index for probe in probes]  # the indices of their steps
        self.texts = [b""] * len(probes)  # the commands of each probe
        self.replies_before = [0]  # number of replies before those to each probe
        self.probe_of_reply: list[int] = []  # the number of the probe of each reply
        for number, probe in enumerate(probes):
            steps = probe.position - probes[number - 1].position if number else 0
            self.texts[number] = (b"step %d\n" % steps if steps else b"reg 0\n") + probe.question
            self.probe_of_reply += [number] * (1 + probe.question.count(b"\n"))
            self.replies_before.append(len(self.probe_of_reply))
        self.expected: list[bytes] = []  # the replies to all probes in the run of the trace itself

    def text_from(self, first: int, position: int) -> tuple[bytes, int]:
        """Returns the commands of the probes from number `first` on, for a run at a position, and the number of their replies."""
        if first >= len(self.probes):
            return b"", 0
        probe = self.probes[first]
        steps = probe.position - position
        head = (b"step %d\n" % steps if steps else b"reg 0\n") + probe.question  # `reg 0` takes the place of a reply with a pc
        return head + b"".join(self.texts[first + 1:]), len(self.probe_of_reply) - self.replies_before[first]

    def compare(self, first: int, replies: Sequence[bytes]) -> ProbeComparison:
        """Compares the replies to the probes from number `first` on with the replies of the trace."""
        comparison = ProbeComparison()
        start = self.replies_before[first]
        expected = self.expected[start:]
        if first >= len(self.probes) or replies == expected:
            return comparison
        for number in compress(count(), map(ne, replies, expected)):  # the replies that differ
            if not number and is_same_pc(replies[number], expected[number]):
                continue
            owner = self.probe_of_reply[start + number]  # the number of the probe
            probe, offset = self.probes[owner], start + number - self.replies_before[owner]
            if not offset:  # another pc: the paths differ somewhere after the previous probe
                before = self.probes[owner - 1] if owner > first else None
                comparison.end = probe.step_index if before is None else before.step_index + before.is_after
                return comparison
            first_value = number - offset + 1
            values = [int(value[-8:], 16) for value in replies[first_value:first_value + probe.question.count(b"\n")]]
            if probe.is_after:
                comparison.changed_answers[probe.step_index] = values[0], values[1]
            else:
                comparison.changed_accesses[probe.step_index] = values
        return comparison


def is_same_pc(reply: bytes, expected: bytes) -> bool:
    """Returns whether the reply to a first probe, after any number of steps, has the expected pc and mode. After no step, a reply has no pc."""
    start, expected_start = reply.find(b" pc="), expected.find(b" pc=")
    return start < 0 or expected_start < 0 or reply[start:start + PLACE_LENGTH] == expected[expected_start:expected_start + PLACE_LENGTH]


def each_probe(trace: Trace, code: Mapping[int, Code], enclave: Enclave) -> Iterator[TraceProbe]:
    """Yields the probes of a trace: before each access whose address may change, after each branch, and at the end of each activation."""
    last_steps, previous_kind = {visit.last for visit in trace.visits}, Kind.BRANCH  # as after a branch, the first step has a probe
    for index, pc in enumerate(trace.pcs):
        instruction = code[pc]
        question = question_of(instruction, enclave.shares(trace.addresses[index]))
        if question or previous_kind in ENDS_BLOCK or index in trace.traps or index - 1 in trace.traps:
            yield TraceProbe(index, trace.steps[index] - 1, question)
        previous_kind = instruction.kind
        if index in last_steps:
            yield TraceProbe(index, trace.steps[index], READ_RESULT, is_after=True)
            previous_kind = Kind.BRANCH


def question_of(code: Code, is_window: bool) -> bytes:
    """Returns the commands that read the registers of an access; empty for one relative to sp. Reads a stored value only if it goes to the window."""
    if not code.probes or code.is_sp_relative:
        return b""
    registers = code.probes if is_window or code.kind is Kind.ECALL else code.probes[:1]
    return b"".join(b"reg %d\n" % register for register in registers)
