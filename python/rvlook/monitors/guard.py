"""The runs of `guard`, which checks a monitor whose calls are unknown.

A run with marks writes random values into the registers of each world that traps, and checks the state of the hart at each return from M. Further
runs come in pairs that differ in a secret. Others find the code of the monitor that no run executed."""
from __future__ import annotations

import random
from collections import Counter, defaultdict
from dataclasses import dataclass, field
from typing import Callable, NamedTuple

from rvlook.monitors import checks
from rvlook.monitors.checks import A0, A7, LeftWorld, MemoryAndRights
from rvlook.monitors.guarded import SWITCHED_STATUS, Guarded, HartState, NewVector, StayInM
from rvlook.monitors.ownership import HOST, MONITOR, OwnedRange, Ownership
from rvlook.monitors.rights import Right, rights_of
from rvlook.monitors.sides import MonitorSetup, word_at
from rvlook.monitors.twins import TwinResult, TwinRuns, secrets_of
from rvlook.monitors.unexecuted import Block, MonitorBlocks, code_of, unexecuted
from rvlook.output.progress import Progress
from rvlook.protocol.jobs import results_of, uninterrupted
from rvlook.protocol.names import CSRS, ECALL_FROM_S
from rvlook.protocol.replies import value_of
from rvlook.protocol.symbols import Symbols

MAX_TIMER_INTERVAL = 24  # the timer is raised after 0 to 23 steps of an enclave
MARK_BITS = 0x40000001  # bits that every mark has, so that it is not a small number


class Violation(NamedTuple):
    """A check that failed."""
    check: str  # the name of the check
    text: str  # what was found
    step: int  # below M, after which it was found
    pc: int  # the pc of the world that had trapped, or of the host before the first trap
    pc_in_m: int = 0  # pc of M if M itself fails, else 0


@dataclass
class Guard:
    """One run with marks, and its checks."""
    setup: MonitorSetup  # the monitor
    ownership: Ownership  # the ownership of the memory, at the present step
    limit: int  # steps below M
    timers: str = ""  # seed of the steps before which the timer is raised; empty: never
    violation: Violation | None = None  # the first one; None if there is none
    counts: Counter[str] = field(default_factory=Counter)  # the counts of steps, returns and other events, by name
    activity: dict[str, Counter[str]] = field(default_factory=lambda: defaultdict(Counter))  # of each owner: entered, left, continued, given_back
    log: list[str] = field(default_factory=list)  # the lines that repeat the run
    vectors: set[int] = field(default_factory=set)  # addresses to which traps go
    handled: Counter[int] = field(default_factory=Counter)  # pc of each trap in M from which M returned
    loop: int | None = None  # pc of a trap that recurs for ever and ends the run; None without one

    def __post_init__(self) -> None:
        self.draw = random.Random("guard %s" % self.timers)  # draws the steps before which the timer is raised
        self.world, self.calls = HOST, 0  # the world that continues; the calls of the host so far
        # what the author declares; `ownership` has the ranges that exist at the present step
        self.declared = getattr(self, "declared", self.ownership)
        self.live: set[OwnedRange] = set()  # the live ranges
        self.left_worlds: dict[str, LeftWorld] = {}  # the enclaves and the host, as each was left
        self.loaded: dict[OwnedRange, int] = {}  # ranges that are not live and that M loaded, and pc of the trap
        self.exposed: dict[OwnedRange, int] = {}  # those ranges of `loaded` to which the host may store afterwards, and pc of the host then
        # the world that was left last
        self.last_left = LeftWorld(HartState(registers=(), csrs={}, pc=0, mode="S", entries=b"", pc_in_m=0), registers={}, csrs={}, is_call=False)

    def run(self) -> Violation | None:
        """Runs up to the first violation, the limit, or the end of the host; returns the violation. Starts again if M uses a new trap vector."""
        while True:
            try:
                self.run_once()
                return self.violation
            except NewVector as new_vector:
                self.vectors.add(new_vector.address)
                self.ownership, self.violation = self.declared, None
                self.counts, self.activity, self.handled = Counter(), defaultdict(Counter), Counter()
                self.__post_init__()

    def run_once(self) -> None:
        """Runs up to the first violation, the limit, or the end of the host. Raises NewVector if M uses a trap vector that has no breakpoint."""
        with Guarded(self.setup, self.vectors, self.ownership.is_monitor) as machine:
            self.log, self.vectors = machine.log, machine.vectors
            stay = machine.begin()
            self.last_left = LeftWorld(stay.exit, registers={}, csrs={}, is_call=False)
            self.arrive(machine, stay, memory=b"", tval=0)
            while not self.violation and self.loop is None:
                machine.leave()
                cause = self.next_trap(machine)
                if cause is None:
                    break
                self.trap(machine, cause)
            self.counts["steps below M"] = machine.steps

    def next_trap(self, machine: Guarded) -> str | None:
        """Runs to the next trap; returns its cause, or None at the limit. In a run with timer interrupts raises the timer after random steps."""
        steps_left = self.limit - machine.steps
        is_timer_raised = self.timers and (self.world != HOST or self.draw.random() < .2)  # for the host less often
        if is_timer_raised:
            cause = machine.to_trap(min(steps_left, self.draw.randrange(MAX_TIMER_INTERVAL)))
            if cause is not None:
                return cause
            machine.do("timer on")
        return machine.to_trap(self.limit - machine.steps)

    def trap(self, machine: Guarded, cause: str) -> None:
        """Puts marks into the registers of the world that trapped, runs M up to its return, and makes the checks."""
        entry = machine.state()
        if machine.loop.detects(cause, entry, machine.steps):
            self.loop = entry.pc
            return
        self.calls += cause == ECALL_FROM_S and self.world == HOST
        tval = value_of(machine.do("csr %x" % CSRS["mtval"])[0])
        left_world = self.set_marks(entry, cause)
        before, rights = machine.memory(), rights_of(entry.entries, self.setup.ram)
        machine.set_state(left_world.registers, left_world.csrs)
        stay = machine.to_return(cause, entry, [range_.first for range_ in self.ownership.private() if range_ not in self.live])
        self.last_left = left_world
        self.counts["returns from M"] += 1
        if stay.fault:
            self.check(stay.fault, "trap in M", machine, stay.fault_pc)
            return
        memory = MemoryAndRights(before, machine.memory(), rights)
        self.check(checks.changed_bytes(self.ownership, self.world, memory), "integrity", machine)
        live = set(self.live)
        self.arrive(machine, stay, memory.after, tval)
        self.check(checks.zeroed_range(sorted(live & self.live, key=lambda it: it.first), memory), "integrity", machine)

    def set_marks(self, entry: HartState, cause: str) -> LeftWorld:
        """Draws the marks for the world that trapped; returns its state with them. The arguments of a call, a0 to a7, get no marks."""
        is_call = cause == ECALL_FROM_S
        registers = {n: self.mark() for n in range(1, 32) if not (is_call and A0 <= n <= A7)}
        csrs = {name: self.mark() for name in checks.MARKED_CSRS}
        csrs["sepc"] &= ~3  # these bits of sepc are always 0
        csrs["sstatus"] = SWITCHED_STATUS if cause in checks.SWITCHING else self.draw.getrandbits(32) & SWITCHED_STATUS
        return LeftWorld(entry, registers, csrs, is_call)

    def mark(self) -> int:
        """Returns a random value, which very likely occurs nowhere else."""
        return self.draw.getrandbits(32) | MARK_BITS

    # ---- checks

    def check(self, text: str, name: str, machine: Guarded, pc_in_m: int = 0) -> None:
        """Notes a violation if the check `name` has returned a text that is not empty. The first violation of the run is kept."""
        if text and not self.violation:
            self.violation = Violation(name, text, machine.steps, self.last_left.state.pc, pc_in_m)

    def arrive(self, machine: Guarded, stay: StayInM, memory: bytes, tval: int) -> None:
        """Makes the checks of a return from M, and gives the world that continues its values in place of the marks. `memory` is all of it after the
        range of the monitor, at the return. `tval` is mtval at the trap. Both are unused at the return from the boot."""
        self.ownership = self.declared.active(lambda at: word_at(machine.bench, at), self.calls)
        left_name, owner = self.world, self.ownership.owner_of(stay.exit.pc)
        self.handled.update(stay.handled)
        if stay.fault:
            self.check(stay.fault, "trap in M", machine, stay.fault_pc)
            return
        self.world = left_name if owner is None or owner == MONITOR else owner
        if stay.cause and self.world == left_name:
            self.check_same_world(machine, stay, tval)
        elif stay.cause:
            self.counts["switches"] += 1
            self.check_switch(machine, left_name, stay.exit)
            self.check(checks.marks_in_memory(self.ownership, left_name, self.last_left, memory), "memory", machine)
        self.check_access(machine, stay, memory)

    def check_same_world(self, machine: Guarded, stay: StayInM, tval: int) -> None:
        """Checks a trap after which the same world continues."""
        left_world, world = self.last_left, self.world
        if stay.cause not in checks.SWITCHING and checks.is_redirect(stay):
            self.check(checks.wrong_redirect(world, left_world, stay, tval), "redirect", machine)
            old = left_world.state
            csrs = {"sscratch": old.csrs["sscratch"], "sstatus": checks.redirected_status(old.csrs["sstatus"], old.mode)}
            machine.set_state(self.restored(left_world, stay.exit, is_call=False), csrs)
            return
        if stay.cause in checks.SWITCHING:
            self.check(checks.changed_context(self.ownership, world, left_world, stay.exit), "context", machine)
        else:
            self.check(checks.wrong_emulation(world, left_world, stay), "context", machine)
        machine.set_state(self.restored(left_world, stay.exit, left_world.is_call), {name: left_world.state.csrs[name] for name in left_world.csrs})

    def restored(self, left_world: LeftWorld, state: HartState, is_call: bool) -> dict[int, int]:
        """Returns the registers before the marks, for the registers that still have their marks."""
        return {n: left_world.state.registers[n] for n, mark in left_world.registers.items()
                if state.registers[n] == mark and not (is_call and n in self.ownership.hands)}

    def check_switch(self, machine: Guarded, left_name: str, state: HartState) -> None:
        """Checks a switch to another world, which continues or is entered for the first time."""
        left_world, continued = self.last_left, self.left_worlds.pop(self.world, None)
        self.left_worlds[left_name] = left_world
        self.activity[left_name]["left"] += 1
        self.activity[self.world]["entered"] += 1
        self.activity[self.world]["continued"] += continued is not None
        self.check(checks.visible_mark(self.ownership, left_name, left_world, self.world, state), "registers", machine)
        if continued is None:
            self.check(checks.leftover(left_name, left_world, self.world, state), "registers", machine)
            return
        self.counts["worlds that continue"] += 1
        self.check(checks.changed_context(self.ownership, self.world, continued, state), "context", machine)
        machine.set_state(self.restored(continued, state, continued.is_call), {name: continued.state.csrs[name] for name in continued.csrs})

    def check_access(self, machine: Guarded, stay: StayInM, memory: bytes) -> None:
        """Checks the access rights of the world that continues, and which ranges are live from now on."""
        state = stay.exit
        rights = rights_of(state.entries, self.setup.ram)
        private, closed = self.ownership.private(), checks.closed_ranges(self.ownership, rights)
        for owned in [range_ for range_ in self.live if range_.is_timed and range_ not in private]:
            self.give_back(machine, owned, memory, rights=())
        for owned in private:
            self.activity.setdefault(owned.owner, Counter())
            if owned.is_timed:
                self.live.add(owned)
            elif self.world == owned.owner or self.world == HOST and owned in closed:
                self.check(self.exposed_text(owned, stay), "access", machine)
                self.live.add(owned)
            elif owned in self.live and self.world == HOST:
                self.give_back(machine, owned, memory, rights)
            elif self.world == HOST:
                self.note_load(owned, stay, rights)
        self.check(checks.forbidden_access(self.ownership, self.world, state.pc, rights, self.live), "access", machine)
        self.check(checks.missing_access(self.ownership, self.world, state.pc, rights, self.live), "access", machine)

    def give_back(self, machine: Guarded, owned: OwnedRange, memory: bytes, rights: tuple[Right, ...]) -> None:
        """Checks that the bytes of a range that the host gets back, or that no longer exists, are zeros. From now on it is not live."""
        self.check(checks.not_zeroed(owned, memory, rights), "zeros", machine)
        self.live.discard(owned)
        self.left_worlds.pop(owned.owner, None)
        self.activity[owned.owner]["given_back"] += 1
        self.counts["ranges given back"] += 1

    def note_load(self, owned: OwnedRange, stay: StayInM, rights: tuple[Right, ...]) -> None:
        """Notes if M has loaded the first byte of a range that is not live, as for a measurement, and if the host may store to it after that."""
        if owned.first in stay.loaded:
            self.loaded[owned] = stay.entry.pc
        if owned in self.loaded and "w" in checks.may_at(rights, owned.first):
            self.exposed.setdefault(owned, stay.exit.pc)

    def exposed_text(self, owned: OwnedRange, stay: StayInM) -> str:
        """Returns a text if the host could store to a range after M had loaded it and before it becomes live (time of check to time of use). Returns
        an empty text if it could not, or if M loads the range again in the stay in which it becomes live."""
        store_pc, trap_pc = self.exposed.pop(owned, None), self.loaded.pop(owned, 0)
        if store_pc is None or owned in self.live or owned.first in stay.loaded:
            return ""
        return "host at %08x could store to %s of %s, which M had loaded at the trap at %08x" % (store_pc, owned, owned.owner, trap_pc)


class GuardPlan(NamedTuple):
    """The runs to do: one without timer interrupts, then `timers` runs with them."""
    setup: MonitorSetup  # the monitor
    ownership: Ownership  # the ownership of the memory
    symbols: Symbols  # the symbols of the monitor
    limit: int  # steps below M of each run
    seed: int  # the seed of the timer interrupts
    timers: int  # number of runs with timer interrupts
    jobs: int  # runs at the same time

    def name(self, number: int) -> str:
        """Returns the name of a run with marks."""
        return "timers %d-%d" % (self.seed, number) if number else "no timer"

    def guarded(self, number: int) -> Guard:
        """Does a run with marks. Number 0 has no timer interrupts."""
        guard = Guard(self.setup, self.ownership, self.limit, "%d-%d" % (self.seed, number) if number else "")
        guard.run()
        return guard


@dataclass
class GuardResults:
    """The results of all runs. A result is None if its task was not done, because of a violation or Ctrl-C."""
    guards: list[Guard] = field(default_factory=list)  # the runs with marks
    pairs: list[TwinResult] | None = None  # the pairs of runs with different secrets
    code: MonitorBlocks | None = None  # the code of the monitor
    never: list[Block] | None = None  # blocks that no run executes
    is_interrupted: bool = False  # whether Ctrl-C ended the runs

    @property
    def violation(self) -> Violation | None:
        """Returns the first violation."""
        violations = [guard.violation for guard in self.guards if guard.violation]
        violations += [Violation("noninterference", "%s, which depends on %s" % (pair.difference, pair.secret.text), pair.step, pair.pc)
                       for pair in self.pairs or () if pair.difference]
        return violations[0] if violations else None

    @property
    def finding(self) -> str:
        """Returns the first violation as a text; empty without a violation."""
        return "%s: %s" % (self.violation.check, self.violation.text) if self.violation else ""

    @property
    def activity(self) -> dict[str, Counter[str]]:
        """Returns how often each owner was entered, left, continued and given back, in all runs with marks together."""
        counts_by_owner: dict[str, Counter[str]] = defaultdict(Counter)
        for guard in self.guards:
            for owner, counts in guard.activity.items():
                counts_by_owner[owner].update(counts)
        return counts_by_owner

    @property
    def handled(self) -> Counter[int]:
        """Returns how often each instruction of M trapped, and M returned from the trap."""
        return sum((guard.handled for guard in self.guards), Counter())

    @property
    def loops(self) -> list[int]:
        """Returns pc of each run that ended in a loop of traps."""
        return [guard.loop for guard in self.guards if guard.loop is not None]


def do_runs(plan: GuardPlan, progress: Progress, show: Callable[[int, Guard], None]) -> GuardResults:
    """Does all runs up to the first violation or Ctrl-C. Calls `show` with the number and the result of each run with marks."""
    results = GuardResults()
    try:
        for number, guard in enumerate(results_of(plan.guarded, plan.timers + 1, plan.jobs)):
            with uninterrupted():
                results.guards.append(guard)
                show(number, guard)
            progress.bar(number + 1, plan.timers + 1, "runs with marks")
            if guard.violation:
                return results
        compare_pairs(plan, results, progress)
        if not results.violation:
            results.code = code_of(plan.setup, plan.ownership, plan.symbols, results.guards[0].vectors)
            results.never = unexecuted(plan.setup, results.code, [guard.log for guard in results.guards], progress)
    except KeyboardInterrupt:
        results.is_interrupted = True
    return results


def compare_pairs(plan: GuardPlan, results: GuardResults, progress: Progress) -> None:
    """Does the pairs of runs up to the first difference."""
    vectors = set().union(*(guard.vectors for guard in results.guards))
    secrets = secrets_of(plan.setup, plan.ownership, plan.limit, vectors)
    results.pairs = []
    comparisons = [TwinRuns(plan.setup, plan.ownership, plan.limit, vectors, secret).compare for secret in secrets]
    for pair in results_of(lambda number: comparisons[number](), len(comparisons), plan.jobs):
        results.pairs.append(pair)
        progress.bar(len(results.pairs), len(comparisons), "pairs of runs")
        if pair.difference:
            break
