"""Finds what last stored a byte, by a repetition of the run with a watchpoint."""
from __future__ import annotations

from typing import Iterable, Iterator, List, Optional, Sequence, Tuple

from rvlook.output.printer import place_text
from rvlook.protocol.instructions import instruction_of
from rvlook.protocol.run import Setup
from rvlook.protocol.timeline import Action, ScheduledSteps, Timeline, actions_between

MOST_ACCESSES = 50  # the most accesses that are examined, from the last one on

Access = Tuple[int, bool]  # the step of a load or store, and whether the test wrote there by a `poke` after that step instead


def writer_of(setup: Setup, past: Sequence[Action], address: int) -> Optional[str]:
    """Returns what last stored the byte at an address, as text. Returns None if nothing has stored it, or if the store is not among the last
    MOST_ACCESSES accesses."""
    for step, is_poke in reversed(accesses(setup, past, address)[-MOST_ACCESSES:]):
        if is_poke:
            return "the test, after step %d" % step
        store = store_at(setup, past, step)
        if store is not None:
            return store
    return None


def accesses(setup: Setup, past: Iterable[Action], address: int) -> List[Access]:
    """Repeats the run with a watchpoint; returns the accesses to the byte at an address, in the order of the run."""
    accesses: List[Access] = []
    with Timeline(setup) as replay:
        replay.do("watch %x" % address)
        for action in past:
            if isinstance(action, ScheduledSteps):
                accesses += [(step, False) for step in watched_steps(replay, action)]
            else:
                replay.do_all([*action.chosen, action.text])
                if action.text.startswith("poke") and int(action.text.split()[1], 16) == address:
                    accesses.append((replay.position, True))
    return accesses


def watched_steps(replay: Timeline, steps: ScheduledSteps) -> Iterator[int]:
    """Repeats steps; yields the number of each one that accesses the watched byte."""
    for hart, count in steps.by_hart():
        while count:
            ran = replay.run(hart, count)
            count -= ran.steps
            if ran.why.startswith("watch"):
                yield replay.position


def store_at(setup: Setup, past: Iterable[Action], step: int) -> Optional[str]:
    """Returns the instruction of a step as text if it is a store; else None."""
    before = tuple(actions_between(past, -1, step - 1))
    hart = next((action.last for action in actions_between(past, step - 1, step) if isinstance(action, ScheduledSteps)), 0)
    with Timeline(setup, before, hart) as timeline:
        pc = timeline.ask("regs")[0][32][3:]  # the line after x0 to x31 is `pc=ADDRESS`
        instruction = instruction_of(timeline.ask("dis " + pc)[0][0].encode())
        if instruction is None or instruction.memory is None or instruction.memory.kind != "w":
            return None
        return "%s at %s, step %d, in %s" % (instruction.abi, place_text(pc, setup.symbols), step, timeline.worlds[hart])
