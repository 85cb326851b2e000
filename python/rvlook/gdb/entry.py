"""Finds where the host entered the enclave on a hart: the last step that brought the hart to another world. It is searched from the present
step back, and cached for as long as the hart cannot have left the enclave."""
from __future__ import annotations

from typing import NamedTuple

from rvlook.gdb.lookahead import blocks_of, query_steps
from rvlook.gdb.target import SAVED
from rvlook.protocol.names import NUMBER_OF
from rvlook.protocol.timeline import ScheduledSteps, Timeline, actions_between

FIRST_PART, MORE = 4096, 8  # steps of the first part that is searched, and the factor for the next
PC, CALL = 32, 4  # the number of pc among the registers, and the bytes of an ecall


class Entered(NamedTuple):
    """The step that entered the enclave."""
    step: int  # the number of the step
    pc: str  # the pc of the ecall, eight hexadecimal digits
    values: tuple[str, ...]  # the registers of the host before it, in hexadecimal digits

    @property
    def registers(self) -> dict[str, str]:
        """Returns the registers with which the host continues, by the names for the debugger."""
        after = "%08x" % ((int(self.pc, 16) + CALL) & 0xFFFFFFFF)
        return {"host_pc": after, **{"host_" + name: self.values[NUMBER_OF[name]] for name in SAVED}}


class LastEntries:
    """Caches for each hart the entry that was found last."""

    def __init__(self) -> None:
        # By hart: the entry; the step up to which it is valid; and a timeline with its `moved`, which are unchanged as long as the hart stays.
        self.known: dict[int, tuple[Entered | None, int, tuple[Timeline, int] | None]] = {}

    def limit(self, position: int) -> None:
        """Limits the cache to the steps up to this one, because later steps may change."""
        self.known = {hart: (entry, min(valid_to, position), witness) for hart, (entry, valid_to, witness) in self.known.items()}

    def find(self, timeline: Timeline, hart: int) -> Entered | None:
        """Finds the step that entered the enclave on a hart; None if the hart is in no enclave."""
        timeline.settle()
        if not timeline.worlds[hart].startswith("e"):
            return None
        entry, valid_to, witness = self.known.get(hart, (None, 0, None))
        present_witness = (timeline, timeline.moved[hart])
        if entry and timeline.position < entry.step:
            entry, valid_to = None, 0
        if not entry or witness != present_witness and timeline.position > valid_to:
            step = last_switch(timeline, hart, valid_to if entry else 0)
            entry = self.at(timeline, hart, step) if step else entry
        self.known[hart] = entry, max(valid_to, timeline.position) if entry else 0, present_witness
        return entry

    @staticmethod
    def at(timeline: Timeline, hart: int, step: int) -> Entered:
        """Returns the entry into an enclave that a step made on a hart."""
        with timeline.again(step - 1) as before:
            before.choose(hart)
            values = [line[-8:] for line in before.ask("regs")[0]]
        return Entered(step, values[PC], tuple(values[:PC]))


def last_switch(timeline: Timeline, hart: int, lowest: int) -> int | None:
    """Returns the last step after `lowest` that brought a hart to another world, or None."""
    end, size = timeline.position, FIRST_PART
    while end > lowest:
        first = max(lowest, end - size)
        for start, steps in reversed(blocks_with_traps(timeline, hart, first, end)):
            step = switch_in(timeline, hart, start, steps)
            if step:
                return step
        end, size = first, size * MORE
    return None


def blocks_with_traps(timeline: Timeline, hart: int, first: int, end: int) -> list[tuple[int, ScheduledSteps]]:
    """Returns the blocks in which a hart trapped, as it does at each switch of world, each with the step before it."""
    blocks = []
    with timeline.again(first) as ahead:
        for steps in blocks_of(ahead, actions_between(timeline.past, first, end)):
            start = ahead.position
            if any(ran.trap for stepped_hart, _, ran in query_steps(ahead, steps.turns, steps.count, is_single=False) if stepped_hart == hart):
                blocks.append((start, steps))
    return blocks


def switch_in(timeline: Timeline, hart: int, start: int, steps: ScheduledSteps) -> int | None:
    """Returns the last step of a block that brought a hart to another world, or None."""
    last_switch = None
    with timeline.again(start) as ahead:
        ahead.settle()
        world = ahead.worlds[hart]
        for step, (stepped_hart, _, ran) in enumerate(query_steps(ahead, steps.turns, steps.count, is_single=True), start + 1):
            if stepped_hart == hart and ran.world != world:
                last_switch, world = step, ran.world
    return last_switch
