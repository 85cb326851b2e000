"""Judges traces: which code and which objects a trace reaches that no earlier trace reached, and which of its steps are findings."""
from __future__ import annotations

from collections import defaultdict
from dataclasses import dataclass, field
from enum import Enum
from typing import Iterator, Optional, Sequence, Tuple

from rvlook.finders.inputs.code import ENDS_BLOCK, Code, Kind
from rvlook.finders.inputs.contexts import MONITOR_CALL
from rvlook.finders.inputs.objects import ObjectPlace, Objects
from rvlook.finders.inputs.trace import NO_PC, Trace
from rvlook.finders.inputs.tracer import Tracer
from rvlook.protocol.names import MARKS

MEASURE, DIGEST_SIZE = 5, 32  # the number of the monitor call `measure`, and the bytes that it stores
CALL_CAUSES = (3, 8, 9)  # causes of traps that are no faults: ebreak, ecall from U and ecall from S
MAX_STRIDE = 64  # bytes between two accesses of a loop
MAX_STEPS_BACK = 400  # steps in which the access of the last round of a loop is searched
MIN_CHOSEN_ADDRESSES = 3  # an access with so many addresses is at an address that the host chooses
FAULT = ObjectPlace("a fault")  # the place of an access that traps
JUMPS = (Kind.BRANCH, Kind.CALL, Kind.RETURN)  # the jumps, whose findings do not depend on the changes of a trace
Key = Tuple[int, int]  # a call context and a pc
StepKey = Tuple[int, int, int]  # a pc, a call context, and an address


class FindingKind(Enum):
    """The kind of a finding, with its name in the report."""
    LOAD = "load"  # a load from an object that the instruction usually does not reach
    STORE = "store"  # a store to such an object
    CALL = "call"  # a call or jump to an address that the host chooses
    RETURN = "return"  # a return to another address than that of the call
    FAULT = "fault"  # a trap that the run itself does not have
    STUCK = "no return"  # the enclave does not return
    SECRET = "secret"  # the secret comes out at an input
    CHECK = "check"  # the secret comes out although a check failed, or without the check
    REPLAY = "replay"  # an older state is accepted again


@dataclass
class InputFinding:
    """A finding of `inputs`: a step of a trace that does what the run itself does not do."""
    kind: FindingKind  # the kind of the finding
    trace: Trace  # the trace, which has the changes that lead to the finding
    index: int  # the index of the step in the trace
    pc: int  # the pc of the step
    place: ObjectPlace = ObjectPlace("")  # the object at the address
    address: int = 0  # the address of the access, the target of the jump, or the value of the trap
    usual: tuple[str, ...] = ()  # names of the objects that the instruction reaches in other runs
    is_walk: bool = False  # whether the access moves over the end of a usual object
    note: str = ""  # a further text for the report
    is_sure: bool = True  # false: a finding only if the access reaches MIN_CHOSEN_ADDRESSES addresses in all traces
    context: int = 0  # the call context of the step
    after: tuple[Key, ...] = ()  # accesses before it in the trace that were no sure findings then

    @property
    def cost(self) -> tuple[int, int]:
        """Returns the number of changes and of changed bytes."""
        return len(self.trace.changes), sum(len(change.value) for change in self.trace.changes)


@dataclass
class Seen:
    """The results of the traces so far."""
    pairs: set[tuple[int, int]] = field(default_factory=set)  # pcs before and after the end of a block
    usual_objects: dict[Key, set[ObjectPlace]] = field(default_factory=dict)  # the objects that each access reaches in the run itself
    first_objects: dict[Key, set[ObjectPlace]] = field(default_factory=dict)  # the objects that each other access reached when it was first seen
    addresses: dict[Key, set[int]] = field(default_factory=lambda: defaultdict(set))  # the addresses of each access
    reached_objects: set[tuple[Key, ObjectPlace]] = field(default_factory=set)  # the objects that accesses reach in any trace
    usual_targets: dict[Key, set[int]] = field(default_factory=lambda: defaultdict(set))  # the targets of jumps in the run itself
    usual_traps: set[tuple[int, int]] = field(default_factory=set)  # pc and cause, in the run itself
    pcs: set[int] = field(default_factory=set)  # the pcs of all steps


class TraceJudge:
    """Judges the traces of a search."""
    def __init__(self, tracer: Tracer, objects: Objects, base: Trace) -> None:
        self.tracer, self.objects, self.base, self.seen = tracer, objects, base, Seen()  # `base` is the trace of the run itself
        self.findings: dict[tuple[object, ...], InputFinding] = {}  # the best one for each access, object and kind
        self.usual_steps: set[StepKey] = set()  # steps without a trap that are no finding
        self.version = 0  # the version of the contexts when `usual_steps` was last cleared
        for index in range(len(base)):
            self.add_usual(base, index)

    def add_usual(self, trace: Trace, index: int) -> None:
        """Records what a step of the run itself does as usual, so that it is no finding in other traces."""
        pc, code, key = trace.pcs[index], self.code(trace, index), (trace.contexts[index], trace.pcs[index])
        self.seen.pcs.add(pc)
        if index in trace.traps:
            self.seen.usual_traps.add((pc, trace.traps[index][0]))
        if self.is_access(trace, index):
            for place in self.places(trace, index):
                self.seen.usual_objects.setdefault(key, set()).add(place)
                self.seen.reached_objects.add((key, place))
            self.seen.addresses[key].add(trace.addresses[index])
        if code.kind in ENDS_BLOCK:
            self.seen.pairs.add((pc, trace.following(index)))
            self.seen.usual_targets[key].add(trace.following(index))

    def judge_trace(self, trace: Trace) -> bool:
        """Adds the findings of a trace. Returns whether to go on from it: it reached something new, and no finding makes later steps meaningless."""
        is_new, sure_finding = False, None
        unsure_accesses: list[Key] = []
        for index in self.unusual(trace):
            pc = trace.pcs[index]
            is_new = self.reaches_new(trace, index) or is_new
            if sure_finding and sure_finding.pc != pc:  # a finding at a later instruction would be a consequence of the sure one
                continue
            finding = self.finding_of(trace, index)
            if finding:
                finding.after = tuple(access for access in unsure_accesses if access[1] != pc)
                self.add(finding)
                if finding.is_sure or finding.kind is not FindingKind.LOAD:
                    sure_finding = finding
                else:
                    unsure_accesses.append((finding.context, pc))
                if finding.place is FAULT or finding.kind in (FindingKind.CALL, FindingKind.RETURN):
                    return False
            elif self.code(trace, index).kind in JUMPS and index not in trace.traps:
                self.usual_steps.add(self.step_key(trace, index))
        if sure_finding or trace.end == "waits":
            return False
        if trace.end == "stuck":
            pc = trace.pcs[-1]
            place = ObjectPlace(self.objects.symbols.function(pc) or "")
            self.add(InputFinding(FindingKind.STUCK, trace, len(trace) - 1, pc, place, after=tuple(unsure_accesses)))
            return False
        return is_new

    def unusual(self, trace: Trace) -> Iterator[int]:
        """Yields the indices of the steps that may be findings: they differ from the parent's, are not plain, and are not in `usual_steps`. Adds the
        pcs of all other steps to `seen`."""
        if self.version != self.tracer.contexts.version:
            self.version = self.tracer.contexts.version
            self.usual_steps.clear()
        for indices, part in trace.differences():
            pcs, begin = part.pcs if part else [trace.pcs[index] for index in indices], 0  # the pcs before `begin` are in `seen`
            unusual: list[int] = []
            for n in self.indices_to_judge(trace, indices, pcs, part):
                if indices[n] in trace.traps or self.step_key(trace, indices[n]) not in self.usual_steps:
                    self.seen.pcs.update(pcs[begin:n])
                    begin = n
                    unusual.append(n)
                    yield indices[n]
            self.seen.pcs.update(pcs[begin:])
            if part:
                part.unusual = self.version, unusual

    def indices_to_judge(self, trace: Trace, indices: Sequence[int], pcs: Sequence[int], part: Trace | None) -> Sequence[int]:
        """Returns the positions in `indices` of steps that may be unusual. If the part was judged before, these were unusual then."""
        if part and part.unusual and part.unusual[0] == self.version:
            return part.unusual[1]
        plain = self.tracer.plain
        return [n for n, pc in enumerate(pcs) if pc not in plain or indices[n] in trace.traps]

    def step_key(self, trace: Trace, index: int) -> StepKey:
        """Returns pc and context of a step, and the pc after a jump or the address of an access. They decide whether the step is a finding."""
        pc = trace.pcs[index]
        return pc, trace.contexts[index], trace.following(index) if self.tracer.code[pc].kind in JUMPS else trace.addresses[index]

    def add(self, finding: InputFinding) -> None:
        """Adds a finding, unless there is one at the same pc and place that is as good. It replaces one that needs more changes or is not sure."""
        context = finding.context if finding.kind in (FindingKind.LOAD, FindingKind.STORE) else 0
        key = (finding.kind, 0 if finding.kind is FindingKind.STUCK else finding.pc, context, finding.place)
        old = self.findings.get(key)
        if old is None or (not finding.is_sure, finding.cost) < (not old.is_sure, old.cost):
            self.findings[key] = finding

    def code(self, trace: Trace, index: int) -> Code:
        """Returns the instruction of a step."""
        return self.tracer.code[trace.pcs[index]]

    def is_access(self, trace: Trace, index: int) -> bool:
        """Returns whether a step accesses memory at an address that the trace has: a load, a store, or the call `measure`."""
        code = self.code(trace, index)
        if code.kind is Kind.ECALL:
            trap = trace.traps.get(index)
            return trace.values[index] == MEASURE and trap is not None and trap[0] == MONITOR_CALL
        return code.is_access

    def places(self, trace: Trace, index: int) -> list[ObjectPlace]:
        """Returns the objects that an access reaches: at its first and at its last byte."""
        width = DIGEST_SIZE if self.code(trace, index).kind is Kind.ECALL else self.code(trace, index).width
        address, context, pc = trace.addresses[index], trace.contexts[index], trace.pcs[index]
        first = self.objects.object_at(address, context, pc)
        last = self.objects.object_at(address + width - 1, context, pc) if width > 1 else first
        return [first] if first == last else [first, last]

    def reaches_new(self, trace: Trace, index: int) -> bool:
        """Returns whether a step reaches a pair of pcs, or an object by an instruction, that no step before it did."""
        pc, code, is_new = trace.pcs[index], self.code(trace, index), False
        self.seen.pcs.add(pc)
        if code.kind in ENDS_BLOCK:
            pair = pc, trace.following(index)
            is_new = pair not in self.seen.pairs
            self.seen.pairs.add(pair)
        if self.is_access(trace, index) and index not in trace.traps:
            key = trace.contexts[index], pc
            for place in self.places(trace, index):
                is_new = is_new or (key, place) not in self.seen.reached_objects
                self.seen.reached_objects.add((key, place))
        return is_new

    def finding_of(self, trace: Trace, index: int) -> InputFinding | None:
        """Returns the finding of a step, or None."""
        code, pc = self.code(trace, index), trace.pcs[index]
        key, trap = (trace.contexts[index], pc), trace.traps.get(index)
        if code.is_access and not code.is_sp_relative and (trap is None or trap[0] not in CALL_CAUSES or code.kind is Kind.ECALL):
            finding = self.access_finding(trace, index, key) if self.is_access(trace, index) else None
            if finding:
                return finding
        if code.kind in (Kind.INDIRECT, Kind.RETURN):
            return self.jump_finding(trace, index, key)
        if trap and trap[0] not in CALL_CAUSES and (pc, trap[0]) not in self.seen.usual_traps:
            note = "a %s" % MARKS["%08x" % trap[1]] if "%08x" % trap[1] in MARKS else "cause %d" % trap[0]
            return InputFinding(FindingKind.FAULT, trace, index, pc, FAULT, trap[1], note=note, context=key[0])
        return None

    def access_finding(self, trace: Trace, index: int, key: Key) -> InputFinding | None:
        """Returns the finding of an access that reaches an object which it usually does not reach, or that traps."""
        kind = FindingKind.LOAD if self.code(trace, index).kind is Kind.LOAD else FindingKind.STORE
        (context, pc), address, trap = key, trace.addresses[index], trace.traps.get(index)
        if trap and trap[0] != MONITOR_CALL:
            if (pc, trap[0]) in self.seen.usual_traps:
                return None
            usual = self.seen.usual_objects.get(key) or self.seen.first_objects.get(key) or set()
            return InputFinding(kind, trace, index, pc, FAULT, address, names(usual), note="cause %d" % trap[0], context=context)
        places = self.places(trace, index)
        usual = self.seen.usual_objects.get(key) or self.seen.first_objects.setdefault(key, set(places))
        self.seen.addresses[key].add(address)
        unusual = next((place for place in places if place not in usual), None)
        if unusual is None:
            self.usual_steps.add((pc, context, address))
            return None
        previous = self.previous(trace, index, key)
        is_walk = previous is not None and abs(address - trace.addresses[previous]) <= MAX_STRIDE
        if is_walk and self.is_inner(unusual, usual):
            return None
        is_sure = is_walk or len(self.seen.addresses[key]) >= MIN_CHOSEN_ADDRESSES or len(places) > 1
        return InputFinding(kind, trace, index, pc, unusual, address, names(usual), is_walk, is_sure=is_sure, context=context)

    @staticmethod
    def is_inner(place: ObjectPlace, usual: set[ObjectPlace]) -> bool:
        """Returns whether an object belongs to the same variable as a usual object that is no array. A loop may walk from one to the other."""
        return any(other.variable and other.variable == place.variable and not other.is_array for other in usual)

    def previous(self, trace: Trace, index: int, key: Key) -> Optional[int]:
        """Returns the index of the last step before `index` with this pc and call context, or None."""
        for earlier in range(index - 1, max(-1, index - MAX_STEPS_BACK), -1):
            if (trace.contexts[earlier], trace.pcs[earlier]) == key:
                return earlier
        return None

    def jump_finding(self, trace: Trace, index: int, key: Key) -> InputFinding | None:
        """Returns the finding of a jump to an address in a register: one that the host chooses, or a return to another address."""
        (context, pc), target, is_return = key, trace.following(index), self.code(trace, index).kind is Kind.RETURN
        if target == NO_PC or target in self.seen.usual_targets[key]:
            return None
        if is_return:
            is_finding = not self.tracer.contexts.is_return_address(context, target)
        else:
            host_values, function = {int.from_bytes(change.value, "little") for change in trace.changes}, self.objects.symbols.function
            is_switch = not self.code(trace, index).link and function(target) == function(pc)  # whether it is the jump of a switch statement
            is_finding = not self.objects.is_function(target) and not is_switch or target in host_values
        if not is_finding:
            return None
        usual_places = {self.objects.object_at(usual, context, pc) for usual in self.seen.usual_targets[key] if usual != NO_PC}
        return InputFinding(FindingKind.RETURN if is_return else FindingKind.CALL, trace, index, pc, self.objects.object_at(target, context, pc),
                            target, names(usual_places), context=context)

    def sure_findings(self) -> Iterator[InputFinding]:
        """Yields the findings that are sure now: also an access whose address the host chooses. Leaves out findings that follow from another."""
        for finding in self.findings.values():
            if (finding.is_sure or self.is_chosen((finding.context, finding.pc))) and not any(map(self.is_chosen, finding.after)):
                yield finding

    def is_chosen(self, key: Key) -> bool:
        """Returns whether an access has so many addresses that the host chooses them."""
        return len(self.seen.addresses[key]) >= MIN_CHOSEN_ADDRESSES


def names(places: set[ObjectPlace]) -> tuple[str, ...]:
    """Returns the names of objects in order."""
    return tuple(sorted(place.name for place in places))
