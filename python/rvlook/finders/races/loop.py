"""Endless loops in which no other hart can affect a hart: how they are detected, and which of their states represents them."""
from __future__ import annotations

from typing import Iterator, NamedTuple, Tuple

from rvlook.errors import RvlookError
from rvlook.finders.races.machine import CachedState, HartRun, Look, RaceMachine, Schedule, digest_of

LoopState = Tuple[int, int, int, Tuple[int, ...]]  # pc, number of the context, hash of the memory, and x0 to x31


class Loop(NamedTuple):
    """An endless loop of a hart that no other hart can affect."""
    has_accesses: bool  # whether the hart loads or stores in the loop
    has_changes: bool  # whether memory changes in the loop
    length: int  # steps of one round


class LoopDetector:
    """Detects that a hart returns to an earlier state by Brent's algorithm: compares with one marked state, and marks states 1, 2, 4, 8 and so on."""
    def __init__(self) -> None:
        self.calls_at_mark, self.calls, self.next_mark = 0, 0, 1  # calls of `length`: at the mark, so far, and at the next mark
        self.marked_state: LoopState | None = None  # the state to compare with; None before the first mark

    def length(self, hart_run: HartRun) -> int:
        """Returns the number of steps of the loop, or 0 while no loop is detected. Must be called before each step."""
        if self.marked_state and hart_run.pc == self.marked_state[0] and state_of(hart_run) == self.marked_state:
            return self.calls + 1 - self.calls_at_mark
        self.calls += 1
        if self.calls == self.next_mark:
            self.marked_state, self.calls_at_mark, self.next_mark = state_of(hart_run), self.calls, 2 * self.next_mark
        return 0


def state_of(hart_run: HartRun) -> LoopState:
    """Returns all that may change in a hart's independent steps."""
    return hart_run.pc, hart_run.context, hart_run.digest, tuple(hart_run.registers)


def do_steps(machine: RaceMachine, hart_run: HartRun, count: int, schedule: Schedule) -> Iterator[Look]:
    """Does `count` steps of a hart; yields the access of each step after the step."""
    for _ in range(count):
        look = machine.look(hart_run)
        machine.step(hart_run, look, schedule)
        yield look


def loop_of(machine: RaceMachine, hart_run: HartRun, length: int, schedule: Schedule) -> tuple[Loop, LoopState]:
    """Goes through a loop of `length` steps twice; returns the loop, and the state that represents it. This is the least state by pc, registers and
    the bytes that the loop itself stores, so that it does not depend on stores of other harts."""
    digest, has_accesses, has_changes = hart_run.digest, False, False
    stored: set[int] = set()
    for look in do_steps(machine, hart_run, length, schedule):
        has_accesses, has_changes = has_accesses or bool(look.kind), has_changes or hart_run.digest != digest
        if look.kind == "w":
            stored.update(range(look.address, look.address + look.width))
    other_digest = hart_run.digest  # the digest of the bytes that the loop does not store
    for address in stored.intersection(hart_run.memory):
        other_digest ^= digest_of(address, hart_run.memory[address])
    states = []
    for _ in do_steps(machine, hart_run, length, schedule):
        states.append((hart_run.pc, tuple(hart_run.registers), hart_run.digest ^ other_digest, hart_run.context))
    pc, registers, loop_digest, context = min(states)
    return Loop(has_accesses, has_changes, length), (pc, context, loop_digest ^ other_digest, registers)


def first_arrival(machine: RaceMachine, state: CachedState, hart_run: HartRun, wanted: LoopState, min_steps: int) -> HartRun:
    """Reruns a hart from `state` to the state `wanted` of its loop, `min_steps` steps or more. `hart_run` has passed it, so all steps are cached."""
    again, max_steps = HartRun(machine, state, hart_run.hart), hart_run.steps_done
    while again.steps_done < min_steps or state_of(again) != wanted:
        if again.steps_done > max_steps:
            raise RvlookError("hart %d does not return to the loop detected at %08x" % (hart_run.hart, hart_run.pc))
        machine.step(again, machine.look(again), lambda: [])
    return again
