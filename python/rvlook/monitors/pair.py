"""Runs a script on both monitors, item by item, and stops at the first difference. Counts what the scripts covered: each result of each call, each
switch between worlds, and each redirected exception."""
from __future__ import annotations

from collections import Counter
from dataclasses import dataclass, field
from typing import Iterator, NamedTuple

from rvlook.monitors.comparison import MonitorDifference, differences, memory_difference
from rvlook.monitors.items import Item
from rvlook.monitors.sides import DECIDING_BITS, MonitorSetup, Side, SideState, Stay
from rvlook.protocol.bench import Closing
from rvlook.protocol.names import ECALL_FROM_S, NUMBERED, STATUSES, TIMER, Call
from rvlook.protocol.replies import Enclave

DONE, OTHER = "done", "other"
HOST, ENCLAVE = "host", "enclave"
HOST_RESULTS = {  # the results that each call of the host can have
    Call.create.name: (DONE, "BadRegion", "BadWindow", "Overlap", "BadEntry", "NoSlot"), Call.destroy.name: (DONE, "NoEnclave"),
    Call.run.name: (DONE, "NoEnclave", "BadState"), Call.resume.name: (DONE, "NoEnclave", "BadState"),
    Call.measure.name: (DONE, "NoEnclave", "BadAddress"), Call.stop.name: ("NotSupported",), Call.exit.name: ("NotSupported",),
    OTHER: ("NotSupported",)}
ENCLAVE_RESULTS = {**dict.fromkeys(HOST_RESULTS, ("NotSupported",)), Call.measure.name: (DONE, "BadAddress"), Call.stop.name: (DONE,),
                   Call.exit.name: (DONE,)}
SWITCHES = ("run", "resume after stop", "resume after timer in S", "resume after timer in U", "stop", "exit", "timer in S", "timer in U",
            "destroy of Fresh", "destroy of Stopped", "destroy of Exited")
CAUSES = {"S": (0, 1, 2, 3, 5, 7), "U": (0, 1, 2, 3, 5, 7, 8)}  # causes of the exceptions that can occur in each mode
A0 = 10


@dataclass(frozen=True)
class Cell:
    """One cell of the coverage table."""
    group: str  # the group, such as `switch`
    name: str  # the name in the group
    count: int  # how often scripts reached it


@dataclass
class ScriptCoverage:
    """Counts of what one or more scripts have covered."""
    scripts: int = 0  # the number of scripts
    steps: int = 0  # below M
    returns: int = 0  # the number of returns from M
    spent: int = 0  # steps in M
    longest_stay: tuple[int, str] = (0, "")  # steps of the longest stay in M, and its item
    calls: Counter[tuple[str, str, str]] = field(default_factory=Counter)  # side, call, result
    switches: Counter[str] = field(default_factory=Counter)  # the number of switches by name, see SWITCHES
    redirected: Counter[tuple[str, str, int]] = field(default_factory=Counter)  # side, mode, cause

    def add(self, other: ScriptCoverage) -> None:
        """Adds the counts of more scripts."""
        self.scripts, self.steps = self.scripts + other.scripts, self.steps + other.steps
        self.returns, self.spent = self.returns + other.returns, self.spent + other.spent
        self.longest_stay = max(self.longest_stay, other.longest_stay)
        self.calls.update(other.calls)
        self.switches.update(other.switches)
        self.redirected.update(other.redirected)

    def cells(self) -> Iterator[Cell]:
        """Yields all cells of the table."""
        for side, results in ((HOST, HOST_RESULTS), (ENCLAVE, ENCLAVE_RESULTS)):
            for call, statuses in results.items():
                yield from (Cell("call of the %s" % side, "%s %s" % (call, status), self.calls[side, call, status]) for status in statuses)
        yield from (Cell("switch", switch, self.switches[switch]) for switch in SWITCHES)
        for side in (HOST, ENCLAVE):
            yield from (Cell("exception of the %s" % side, "cause %d in %s" % (cause, mode), self.redirected[side, mode, cause])
                        for mode, causes in CAUSES.items() for cause in causes)

    def empty(self) -> list[str]:
        """Returns the names of the empty cells."""
        return ["%s: %s" % (cell.group, cell.name) for cell in self.cells() if not cell.count]


class PairStep(NamedTuple):
    """An item that was done."""
    item: Item
    world: str  # the world that did it
    result: str  # the result in words; empty without a trap


@dataclass
class PlayedScript:
    """A script that was run."""
    name: str  # the name of the script
    steps: list[PairStep] = field(default_factory=list)  # up to the first difference
    differences: list[MonitorDifference] = field(default_factory=list)  # the differences at that step
    coverage: ScriptCoverage = field(default_factory=ScriptCoverage)  # the coverage of the script
    own_log: list[str] = field(default_factory=list)  # lines of the author's side
    reference_log: list[str] = field(default_factory=list)  # lines of the reference
    stays: list[Stay] = field(default_factory=list)  # the stays of the author's side in M

    @property
    def items(self) -> list[Item]:
        """Returns the items that were done."""
        return [step.item for step in self.steps]


class BothSides(Closing):
    """Does each item on the author's monitor and on the reference. `compares_memory`: after each trap, and not only at the end."""

    def __init__(self, setup: MonitorSetup, name: str, compares_memory: bool = True) -> None:
        self.setup, self.compares_memory, self.played = setup, compares_memory, PlayedScript(name)  # `played`: the script so far
        self.own, self.reference = Side(setup, is_own=True), Side(setup, is_own=False)  # the two monitors
        self.world, self.has_trapped = "host", False  # the world that runs; whether a trap has occurred
        self.table: list[Enclave] = []  # the table of the enclaves, as the reference has it
        self.left_by: dict[str, str] = {}  # how each enclave that is Stopped was left
        try:
            self.compare(self.own.begin(), self.reference.begin(), has_trap=True)
        except BaseException:
            self.close()
            raise

    def close(self) -> None:
        """Ends both benches, and keeps their logs."""
        self.own.close()
        self.reference.close()
        self.played.own_log, self.played.reference_log, self.played.stays = self.own.log, self.reference.log, self.own.stays

    @property
    def is_alike(self) -> bool:
        """Returns whether there is no difference so far."""
        return not self.played.differences

    def do(self, item: Item) -> bool:
        """Does an item on both sides; returns whether they are still alike."""
        world, mode = self.world, self.reference.mode
        own, reference = self.own.step(item), self.reference.step(item)
        self.world = reference.world or world
        self.played.coverage.steps += item.steps
        self.played.steps.append(PairStep(item, world, self.result_of(item, world, reference)))
        has_trap = reference.trap != "-"
        self.compare(own, reference, has_trap)
        if has_trap and not own.fault:
            self.count(item, world, mode, (own, reference))
        return self.is_alike

    def compare(self, own: SideState, reference: SideState, has_trap: bool) -> None:
        """Notes the differences after a step."""
        self.has_trapped = self.has_trapped or reference.trap != "-"
        if not self.has_trapped:  # the values of mepc, mcause and mtval after reset are not specified
            own = own._replace(above=own.above[:len(DECIDING_BITS)] + reference.above[len(DECIDING_BITS):])
        self.played.differences = differences(own, reference, self.setup)
        if has_trap and not own.fault and self.compares_memory:
            self.compare_memory()

    def compare_memory(self) -> None:
        """Notes the first difference of memory, if there is no other difference."""
        if self.is_alike:
            self.played.differences = memory_difference(self.own.memory(), self.reference.memory())

    def result_of(self, item: Item, world: str, state: SideState) -> str:
        """Returns the result of a step that `world` did: the world that runs then or the status of a call, or the trap; empty without a trap."""
        if state.cause == ECALL_FROM_S and item.call_number is not None:
            return self.world if self.world != world else STATUSES.get(state.registers[A0], DONE)
        next_world = ", then %s" % self.world if self.world != world else ""
        return "" if state.trap == "-" else "trap %s%s" % (state.trap, next_world)

    def count(self, item: Item, world: str, mode: str, states: tuple[SideState, SideState]) -> None:
        """Counts what the trap of an item covers. `world` and `mode` are those before the item; `states` are those of both sides after it."""
        own, reference = states
        coverage, side = self.played.coverage, HOST if world == "host" else ENCLAVE
        coverage.returns += 1
        coverage.spent += own.spent
        coverage.longest_stay = max(coverage.longest_stay, (own.spent, item.text))
        if reference.cause == ECALL_FROM_S:
            self.count_call(item, side, reference)
        elif reference.cause != TIMER:
            coverage.redirected[side, mode, int(reference.cause, 16)] += 1
        if self.world != world:
            self.count_switch(item, world, "timer in %s" % mode if reference.cause == TIMER else "")
        if reference.cause in (ECALL_FROM_S, TIMER):
            self.table = self.reference.enclaves()

    def count_call(self, item: Item, side: str, state: SideState) -> None:
        """Counts the result of a call by the host or an enclave (`side`), and the state of an enclave that the call destroyed."""
        number = item.call_number
        name = NUMBERED[number].name if number in NUMBERED and number is not None else OTHER
        is_switch = self.world == "host" if side == ENCLAVE else self.world != "host"  # a0 is then no status
        status = DONE if is_switch else STATUSES.get(state.registers[A0], DONE)
        self.played.coverage.calls[side, name, status] += 1
        if (name, status) == ("destroy", DONE):
            slot = dict(item.registers)[A0]
            destroyed = next(enclave for enclave in self.table if enclave.slot == slot)
            self.played.coverage.switches["destroy of %s" % destroyed.state] += 1
            self.left_by.pop(destroyed.world, None)

    def count_switch(self, item: Item, world: str, timer: str) -> None:
        """Counts a switch from `world` to another one by an item or the timer. `timer` is the name of the switch by the timer, else empty."""
        if world != "host":
            kind = timer or NUMBERED[item.call_number or 0].name
            self.left_by[world] = kind
        else:
            kind = "resume after " + self.left_by[self.world] if self.world in self.left_by else "run"
        if kind == "exit":
            del self.left_by[world]
        self.played.coverage.switches[kind] += 1

    def end(self) -> PlayedScript:
        """Compares all memory at the end of a script; returns the script as it was run."""
        self.compare_memory()
        self.played.coverage.scripts += 1
        return self.played


def play(setup: MonitorSetup, name: str, items: list[Item], compares_memory: bool = True) -> PlayedScript:
    """Runs a script on both monitors up to the first difference."""
    with BothSides(setup, name, compares_memory) as pair:
        for item in items:
            if not (pair.is_alike and pair.do(item)):
                break
        pair.end()
    return pair.played
