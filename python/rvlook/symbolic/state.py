"""The steps of a path: executes instructions until the path ends, waits for others, or is merged."""
from __future__ import annotations

from typing import Optional

from rvlook.symbolic.calls import FETCH, CallState
from rvlook.symbolic.decode import Decoded, decode
from rvlook.symbolic.fields import CODE_CHANGED, TIME_OVER, INCLUDED_IN_MERGED, STVEC, PathEnded
from rvlook.symbolic.instructions import Step, compiled
from rvlook.symbolic.nodes import M32, Word
from rvlook.symbolic.schedule import WAITS_FOR_OTHERS, count_round, waiting
from rvlook.symbolic.words import operation

STEPS_PER_TIME_CHECK = 32  # steps between two checks of the time; z3 may need seconds for each step


def fetch_fault(state: CallState, pc: int) -> int:
    """Executes the fetch of an instruction outside the region: it traps. Returns the next pc."""
    return state.trap(FETCH, pc)


class State(CallState):
    """The state of a path that executes steps."""
    __slots__ = ()

    def go(self) -> str:
        """Executes steps until the path ends or waits. Returns the reason."""
        search = self.search
        code = search.code
        limit = search.options.path_steps
        try:
            while True:
                for _ in range(STEPS_PER_TIME_CHECK):
                    pc = self.pc
                    step = code.get(pc)
                    if step is None:
                        step = self.compile_at(pc)
                    self.pc = step(self, pc)
                    self.pcs.append(pc)
                if search.is_late():
                    raise PathEnded(TIME_OVER)
                if self.joined_steps + self.steps > limit:
                    raise PathEnded("steps")
                if self.joined_steps + self.steps > search.patience and not self.is_base:
                    search.endless.at_end(self)
        except PathEnded as end:
            reason = str(end)
            if reason not in (WAITS_FOR_OTHERS, TIME_OVER):  # the path was ended in the middle of a step, which is its last one
                self.pcs.append(self.pc)
            return reason

    def merge_after_divisions(self, pc: int) -> None:
        """Merges the path at the head of a loop, and ends the path, if a branch in the loop has divided it at least `loops_from` times. If the search
        has not merged at this head before, the whole search ends instead. The next search then merges paths at this head from the first round on.
        A search that does not merge loops only records the head."""
        search = self.search
        head = pc, self.context
        flow = search.flows.by_entry.get(self.entry)
        if search.is_trial or flow is None or flow.innermost_head(pc) != pc or head in search.divided:
            return
        if self.is_base:
            if head in search.heads and not self.is_covered:
                search.merge_at_head(self)
                self.is_covered = True
            return
        # How often the path has divided at each branch whose innermost loop this is. The keys (pc, ~context) and (-pc, context) match no branch.
        divisions = [n for (branch, context), n in self.branch_counts.items() if context == self.context and flow.innermost_head(branch) == pc]
        if not search.loops_from:
            if divisions:
                search.divided.add(head)
        elif head in search.heads or max(divisions, default=0) >= search.loops_from:
            if head not in search.heads:
                search.heads.add(head)
                search.is_outgrown = True
                raise PathEnded(TIME_OVER)
            search.merge_at_head(self)
            raise PathEnded(INCLUDED_IN_MERGED)

    def step(self) -> None:
        """Executes one step of the path."""
        pc = self.pc
        self.pc = (self.search.code.get(pc) or self.compile_at(pc))(self, pc)
        self.pcs.append(pc)

    def compile_at(self, pc: int) -> Step:
        """Returns the function that executes the instruction at a pc, as the image has it. Ends the path if any path has changed the instruction, or
        if the pc is outside the region and the enclave has no trap handler."""
        search = self.search
        low, high = search.world.region
        is_in_region = low <= pc and pc + 4 <= high
        if not is_in_region:
            if not self.csr[STVEC]:
                raise PathEnded("outside")
            return fetch_fault
        if pc in search.written or any(pc + n in self.symbolic_bytes for n in range(4)):
            search.changed_code.add(pc)
            raise PathEnded(CODE_CHANGED)
        step = compiled(decode(search.world.word_at(pc)))
        search.code[pc] = waiting(step) if pc in search.meeting_points else step
        return search.code[pc]

    def wait_for_others(self, pc: int) -> None:
        """Makes the path wait at a pc where paths meet, until the search continues it. Does nothing if no other path is left, for the run itself, or
        if the search does not join paths."""
        search = self.search
        if len(search.queue) and not self.is_base and not search.is_trial and search.joins:
            count_round(search.flows, self, pc)
            raise PathEnded(WAITS_FOR_OTHERS)

    def present_instruction(self) -> Decoded:
        """Returns the instruction at the present pc, as the image has it."""
        return decode(self.search.world.word_at(self.pc))

    def has_origin(self) -> bool:
        """Returns whether the instruction at the pc is a load or store whose address has an origin. The enclave has then computed the address itself.
        A pointer of the host has no origin."""
        instruction = self.present_instruction()
        return instruction.kind in ("load", "store") and self.tags[instruction.rs1] is not None

    def access_address(self) -> Optional[Word]:
        """Returns the address that the load or store at the pc accesses; None for another instruction."""
        instruction = self.present_instruction()
        if instruction.kind not in ("load", "store"):
            return None
        return operation("add", self.regs[instruction.rs1], instruction.imm & M32)
