"""Compares an author's monitor with the monitor of rvbench over directed and random scripts, in one or more processes. Shrinks a script after which
two monitors differ, by delta debugging (Zeller, 1999): leaves out halves, quarters, and then single items."""
from __future__ import annotations

import time
from dataclasses import dataclass, field, replace
from typing import Iterator, Sequence

from rvlook.monitors.comparison import DifferenceKind, MonitorDifference
from rvlook.monitors.directed import RandomScript, ReferenceState, corner_scripts, directed_scripts, large_scripts, long_scripts, refusal_scripts
from rvlook.monitors.items import Item
from rvlook.monitors.pair import BothSides, PlayedScript, ScriptCoverage, play
from rvlook.monitors.placement import Placement
from rvlook.monitors.sides import MonitorSetup
from rvlook.output.progress import Progress
from rvlook.protocol.jobs import results_of

DEEP_RAM = 0x400000  # bytes of RAM for the scripts with large blocks, with --deep
MAX_SHRINK_RUNS, MAX_SHRINK_SECONDS = 300, 60  # after which a script is not shrunk further
# Kinds whose name is a part of what differs. The names of the others have addresses or causes in them.
NAMED_KINDS = (DifferenceKind.register, DifferenceKind.csr, DifferenceKind.entry)


@dataclass(frozen=True)
class Task:
    """A script to run: its items, or the seed of a random script."""
    name: str  # the name of the script
    items: tuple[Item, ...] = ()  # empty for a random script
    seed: str = ""  # the seed of a random script; else empty
    count: int = 0  # items of a random script
    ram: int = 0  # bytes; 0: as in the setup
    is_long: bool = False  # whether memory is compared only at the end, not after each trap

    def setup(self, setup: MonitorSetup) -> MonitorSetup:
        """Returns the setup with the size of RAM that the script needs."""
        return setup.with_ram(self.ram) if self.ram else setup


@dataclass(frozen=True)
class ScriptPlan:
    """The scripts to run: those of the table, then random ones."""
    tries: int  # number of random scripts
    count: int  # items of each random script
    seed: str  # the seed of the random scripts
    only: str = ""  # a part of the names of the scripts to run; empty: all
    seconds: float | None = None  # the most seconds; None: no limit
    jobs: int = 1  # number of processes
    is_deep: bool = False  # adds scripts with many calls, and with large blocks in a larger RAM
    has_ram: bool = False  # whether the user gave the size of the RAM, which then stays


@dataclass
class ConformOutcome:
    """The result of the scripts that were run."""
    coverage: ScriptCoverage = field(default_factory=ScriptCoverage)  # the coverage of the scripts
    different: PlayedScript | None = None  # the first script with a difference; None if there is none
    task: Task | None = None  # the task of that script
    not_run: int = 0  # scripts that were not run, because of a difference, the time limit or Ctrl-C
    is_interrupted: bool = False  # whether Ctrl-C ended the comparison


def tasks_of(plan: ScriptPlan, ram: int, placement: Placement | None = None) -> list[Task]:
    """Returns the scripts of a plan in their order, for a RAM of this many bytes. `placement` moves them."""
    tasks = [Task(name, tuple(items)) for scripts in (directed_scripts, refusal_scripts) for name, items in scripts(ram)]
    tasks += [Task(name, tuple(items)) for name, items in corner_scripts()]
    large_ram = DEEP_RAM if plan.is_deep and not plan.has_ram else ram
    tasks += [Task(name, tuple(items), ram=large_ram if large_ram != ram else 0, is_long=True) for name, items in large_scripts(large_ram)]
    if plan.is_deep:
        tasks += [Task(name, tuple(items), is_long=True) for name, items in long_scripts()]
    seeds = ["%s-%d" % (plan.seed, n) for n in range(plan.tries)]
    random_tasks = [Task("random script " + seed, seed=seed, count=plan.count) for seed in seeds]
    if placement:
        tasks = [replace(task, items=tuple(map(placement.item, task.items))) for task in tasks]
    return [task for task in tasks + random_tasks if plan.only in task.name]


def perform(setup: MonitorSetup, task: Task) -> PlayedScript:
    """Runs one script on both monitors."""
    if task.seed:
        return play_random(setup, task)
    return play(task.setup(setup), task.name, list(task.items), compares_memory=not task.is_long)


def play_random(setup: MonitorSetup, task: Task) -> PlayedScript:
    """Runs a random script. Its next items are drawn while it runs, because they depend on the state that the reference has reached."""
    placement = setup.placement
    source = RandomScript(task.seed, placement.ram)
    with BothSides(setup, task.name) as pair:
        while pair.is_alike and len(pair.played.steps) < task.count:
            table, reference = [placement.enclave_before(enclave) for enclave in pair.table], pair.reference
            for item in source.items(ReferenceState(pair.world, reference.mode, placement.address_before(reference.pc), table)):
                if not pair.do(placement.item(item)):
                    break
        pair.end()
    return pair.played


def compare(setup: MonitorSetup, plan: ScriptPlan) -> ConformOutcome:
    """Runs the scripts of a plan up to the first difference, the time limit or Ctrl-C."""
    tasks, outcome, began = tasks_of(plan, setup.placement.ram, setup.memory), ConformOutcome(), time.monotonic()
    outcome.not_run = len(tasks)
    try:
        with Progress() as progress:
            for played in all_played(setup, tasks, plan.jobs):
                outcome.not_run -= 1
                progress.bar(len(tasks) - outcome.not_run, len(tasks), played.name)
                outcome.coverage.add(played.coverage)
                if played.differences:
                    outcome.different, outcome.task = played, tasks[len(tasks) - outcome.not_run - 1]
                    break
                if plan.seconds is not None and time.monotonic() - began > plan.seconds:
                    break
    except KeyboardInterrupt:
        outcome.is_interrupted = True
    return outcome


def all_played(setup: MonitorSetup, tasks: Sequence[Task], jobs: int) -> Iterator[PlayedScript]:
    """Yields the results of scripts in their order. Other processes run them if there is more than one job."""
    return results_of(lambda number: perform(setup, tasks[number]), len(tasks), jobs)


def signature(difference: MonitorDifference) -> tuple[DifferenceKind, str]:
    """Returns the kind of a difference, and its name if the kind is in NAMED_KINDS. A shrunk script must show a difference with the same ones."""
    return difference.kind, difference.name if difference.kind in NAMED_KINDS else ""


class Shrinker:
    """Shrinks the script of one difference."""

    def __init__(self, setup: MonitorSetup, played: PlayedScript) -> None:
        self.setup, self.played, self.runs, self.is_interrupted = setup, played, 0, False  # `played`: the shortest script so far
        self.signature, self.deadline = signature(played.differences[0]), float("inf")  # `deadline`: in seconds of the monotonic clock

    @property
    def is_over(self) -> bool:
        """Returns whether the limit of runs or of seconds is reached."""
        return self.runs >= MAX_SHRINK_RUNS or time.monotonic() > self.deadline

    def is_shorter(self, items: list[Item]) -> bool:
        """Runs some items of the script; returns whether they show the same difference. If so, they become the script, up to the difference."""
        self.runs += 1
        played = play(self.setup, self.played.name, items, self.signature[0] is DifferenceKind.memory)  # compares memory only if it must differ
        if not played.differences or signature(played.differences[0]) != self.signature:
            return False
        self.played = played
        return True

    def leave_out(self, size: int) -> bool:
        """Tries to leave out each `size` consecutive items. Keeps them if the difference needs them. Returns whether it left out any."""
        start, is_any_left_out = 0, False
        while start < len(self.played.items) and not self.is_over:
            items = self.played.items
            if self.is_shorter(items[:start] + items[start + size:]):
                is_any_left_out = True
            else:
                start += size
        return is_any_left_out

    def shrink(self) -> Shrinker:
        """Leaves out halves, quarters, and then single items, until no item can be left out, or until Ctrl-C."""
        size = max(1, len(self.played.items) // 2)
        self.deadline = time.monotonic() + MAX_SHRINK_SECONDS
        try:
            while not self.is_over:
                is_shorter = self.leave_out(size)
                if size == 1 and not is_shorter:
                    break
                size = max(1, size // 2)
        except KeyboardInterrupt:
            self.is_interrupted = True
        return self
