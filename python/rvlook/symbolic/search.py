"""The search over all paths of an enclave.

The search executes a path until it ends or divides (`State.go`), and keeps the other paths in a queue. Paths at the same place may be joined without
loss (`joins`), or merged at stops and at the heads of loops into states that include them (`merge`, `loops`)."""
from __future__ import annotations

import time
from collections import Counter
from typing import Any, Counter as Counts, List, Set, Tuple, TYPE_CHECKING

from rvlook.symbolic.bounds import Bounds
from rvlook.symbolic.endless import Endless
from rvlook.symbolic.extents import Extents
from rvlook.symbolic.fields import CSRS, START_AT_ENTRY, EXITED, TIME_OVER, STOPPED, AnyState, TimeIsOver
from rvlook.symbolic.flow import Flows
from rvlook.symbolic.history import history_of
from rvlook.symbolic.indices import Indices
from rvlook.symbolic.joins import Joins
from rvlook.symbolic.judge import Judge
from rvlook.symbolic.loops import Loops, Turn
from rvlook.symbolic.means import Means
from rvlook.symbolic.merge import Merged, Merger
from rvlook.symbolic.nodes import CHECK, SECRET, forget, variable
from rvlook.symbolic.origins import How, Origin
from rvlook.symbolic.replay import Replayer
from rvlook.symbolic.schedule import WAITS_FOR_OTHERS, Schedule, waiting
from rvlook.symbolic.solver import Solver
from rvlook.symbolic.state import State

if TYPE_CHECKING:
    from rvlook.output.progress import Progress
    from rvlook.symbolic.options import VerifyOptions
    from rvlook.symbolic.world import World

POINTER_MARGIN = 4096  # bytes around region and window; an address there that lui or auipc computes may be the upper part of a pointer
FIRST_REPLAYS = 10  # how many of the first paths are all replayed; of later paths, every Nth is replayed (--replay N)
STATE_QUESTION_ACTIVATIONS = 3  # from this number of activations on, the question `state` is asked, for which a path must have one history
WINDOW_REGISTER = 12  # a2, which has the address of the window at the first entry
MIN_PATIENCE_STEPS = 20000  # a path is not examined for an endless loop before this number of steps plus twice the steps of the run itself


class Search(Judge):
    """The search over all paths of an enclave with given means."""
    state_type = State  # the class of the states; a subclass may execute paths in another way

    def __init__(self, world: World, options: VerifyOptions, means: Means = Means()) -> None:
        super().__init__()
        if means == Means():
            forget()
        self.world = world  # the enclave
        self.means = means  # the method of this search
        self.options = means.options(options)
        self.set_limits()
        self.set_counts()
        self.solver = Solver(self.options.timeout, is_rough=means.is_rough, has_many=means.loops_from > 0, is_far=means.is_far)
        self.extents = Extents(world)  # the objects of the enclave
        self.replayer = Replayer(world)  # replays paths on the simulator
        self.flows = Flows(*world.code)  # the control flow of functions, for the order of paths
        self.indices = Indices(Flows(*world.code))  # the registers that are indices of short arrays
        self.bounds = Bounds(self)  # the facts that merged states may have
        self.endless = Endless(self)  # notices endless loops
        self.queue = Schedule(self.flows, means.is_rare_first)  # the paths that are not explored yet
        self.meeting_points: Set[int] = set()  # the pcs at which paths wait for each other
        self.joins = Joins(self) if self.may_join() else None
        self.merger = Merger(self) if self.options.merges else None  # merges the states of stops
        self.merge_queue: List[Tuple[Any, Merged]] = []  # the merged states that are to be explored, each with the Merger or LoopMerger it belongs to
        self.loops = Loops(self)  # merges paths at the heads of loops
        self.loops_from = means.loops_from  # how often a path divides in a loop before paths are merged at its head, 0 for never
        self.heads: Set[Tuple[int, int]] = set()  # the heads at which paths are merged: pc and context
        self.divided: Set[Tuple[int, int]] = set()  # without merged loops: the heads of loops in which a path has divided: pc and context
        self.sides_taken: Set[Tuple[int, bool]] = set()  # the branches (pcs) that a path has executed, and whether it took the branch
        self.began = time.perf_counter()
        self.deadline = self.began + self.options.seconds  # the end of the time, by time.perf_counter()

    def set_limits(self) -> None:
        """Sets the limits of paths: the range of pointers, the steps before a path is examined for an endless loop, and the activations."""
        world = self.world
        self.low_pointer = min(world.region[0], world.window[0]) - POINTER_MARGIN  # the range of addresses to which lui and auipc may point
        self.high_pointer = max(world.region[1], world.window[1]) + POINTER_MARGIN
        steps_of_run = sum(len(activation.pcs) for activation in world.own_activations)
        self.patience = MIN_PATIENCE_STEPS + 2 * steps_of_run  # steps after which a path is examined for an endless loop
        self.activations = self.options.activations or len(world.own_activations)  # how many activations a path has at most

    def set_counts(self) -> None:
        """Sets the counters of the search and the results of replays to zero."""
        self.calls = 1  # the number of the last call; calls are numbered over all paths
        self.paths = 0  # paths that have ended
        self.steps = 0  # steps of all paths
        self.divisions = 0  # how often a path has divided
        self.start_count = 0  # how many paths have begun in a merged state
        self.trial_counts: Counts[int] = Counter()  # by the pc of a branch: how often a loop was tried with the values of one model
        self.replays: Counts[str] = Counter()  # how many replays were as predicted ("same") or not ("other")
        self.wrong_replays: List[str] = []  # how replays of paths differ from what was predicted
        self.not_replayed = 0  # paths that were not replayed, since the time was over
        self.not_confirmed = 0  # findings that were not replayed, since the time was over
        self.has_begun = False  # whether anything was explored
        self.is_cut = False  # whether Ctrl-C ended the search

    def may_join(self) -> bool:
        """Returns whether paths are joined. The search for rare branches needs single paths. The question `state` also needs them: it compares the
        states of several stops of one path."""
        if self.means.is_rare_first:
            return False
        return self.options.merges or not self.means.is_whole or self.activations < STATE_QUESTION_ACTIVATIONS

    def is_late(self) -> bool:
        """Returns whether this search must stop: the time is over, or a new search has to begin with the results of this one (`is_outgrown`)."""
        return self.is_outgrown or time.perf_counter() > self.deadline

    # ---- paths

    def first_state(self) -> State:
        """Returns the state at the first entry of the enclave."""
        world = self.world
        state = self.state_type.__new__(self.state_type)
        state.begin_path(START_AT_ENTRY, activation=0, start_number=0)
        state.search = self
        state.is_base = True
        state.start_head = None
        state.value_followed = 0
        state.pc = world.pc
        state.mode = 1
        state.regs = world.regs[:]
        state.csr = dict.fromkeys(CSRS, 0)
        state.region_bytes = bytearray(world.memory)
        state.window_memory = bytearray(world.windows[0])
        state.tags = [None] * 32
        state.mem_tags = {}
        state.csr_tags = {}
        state.context = 0
        state.calls = None
        state.call = 1
        state.entry = world.pc
        state.areas = ()
        state.stack_bottom = world.objects.stack
        state.conditions = []
        state.public = set()
        low, high = world.window
        if low < high and state.regs[WINDOW_REGISTER] == low:
            state.tags[WINDOW_REGISTER] = Origin(How.SYMBOL, low)
        state.symbolic_bytes = {}
        state.model = {}
        for values, name_format, taint in ((world.secret, "k_%08x", SECRET), (world.check, "c_%08x", CHECK)):
            for address, value in values.items():
                state.symbolic_bytes[address] = variable(name_format % address, taint)
                state.model[name_format % address] = value
        return state

    def add_path(self, state: State) -> None:
        """Adds a path to the queue, unless a merged state includes it. The path of the run itself is always added."""
        if not self.is_trial and (state.is_base or not state.is_covered):
            self.queue.add(state)

    def add_divided_path(self, state: State) -> None:
        """Adds the new path to the queue after a path has divided, and counts the division."""
        self.divisions += 1
        self.add_path(state)

    def note_flow(self, entry: int) -> None:
        """Adds the meeting points of a function that is called for the first time. `entry` is its first instruction. Paths that arrive at a meeting
        point wait there for other paths."""
        flow = self.flows.of(entry)
        if flow is None:
            return
        for pc in flow.meeting_points - self.meeting_points:
            self.meeting_points.add(pc)
            if pc in self.code:
                self.code[pc] = waiting(self.code[pc])

    def merge_at_stop(self, state: AnyState) -> None:
        """Merges a path that stops, and queues the merged state if it has changed."""
        merged = self.merger.merge(state) if self.merger else None
        if merged is not None:
            self.merge_queue.append((self.merger, merged))

    def merge_at_head(self, state: AnyState) -> None:
        """Merges a path at the head of a loop, and queues the merged state if it has changed."""
        changed = self.loops.merge(state)
        if changed is not None:
            self.merge_queue.append(changed)

    def go(self, progress: Progress) -> None:
        """Explores paths until no path and no merged state is left, or the time is over."""
        if not self.has_begun:
            self.has_begun = True
            self.add_path(self.first_state())
        while not self.is_late():
            if not self.queue and not self.merge_queue:
                self.merge_queue += self.loops.last_pass()
            if not self.queue and not self.merge_queue:
                break
            if not self.queue:
                merger, merged = self.merge_queue.pop(self.next_merged_index())
                self.add_path(merger.state_to_explore(merged))
            for state in self.take_paths():
                state.resumed_at = state.pc if state.pc in self.meeting_points else None  # the path does not wait there again
                progress.show("%d paths, %d left, %d findings, %d steps", self.paths, len(self.queue), len(self.findings), self.steps)
                self.explore(state)

    def take_paths(self) -> List[State]:
        """Removes the next paths from the queue, which are all at one place. Returns them joined as far as possible, or as they are if the time is
        over before they are joined."""
        states = self.queue.take()
        if self.joins and len(states) > 1:
            try:
                return self.joins.join_paths(states)
            except TimeIsOver:
                pass
        return states

    def explore_again(self) -> None:
        """Queues the first path and the merged states of all stops, to explore them again."""
        self.add_path(self.first_state())
        if self.merger is None:
            return
        for merged in self.merger.merged.values():
            if not merged.is_queued:
                merged.is_queued = True
                self.merge_queue.append((self.merger, merged))

    def next_merged_index(self) -> int:
        """Returns the index in `merge_queue` of the merged state that is explored next: the first of those with the least turn."""
        turns: List[Turn] = [self.loops.turn(merged) for _, merged in self.merge_queue]
        return turns.index(min(turns))

    def explore(self, state: State) -> None:
        """Executes a path until it ends or waits for other paths. Replays each of the first paths that end, and every Nth of the later ones
        (--replay N)."""
        steps_before = state.steps
        why = state.go()
        self.steps += state.steps - steps_before
        if why in (TIME_OVER, WAITS_FOR_OTHERS):
            self.add_path(state)
            return
        self.end_counts[why] += 1
        self.paths += 1
        if not self.options.replay or state.is_merged:
            return
        if self.paths <= FIRST_REPLAYS or self.paths % self.options.replay == 0:
            self.replay(state, why)

    def replay(self, state: State, why: str) -> None:
        """Replays a path on rvbench, and records a difference. `why` is the reason for which the path has ended. The last step of a path is replayed
        only if it leaves the enclave."""
        history = history_of(state, state.model)
        pcs = history.pcs if why in (EXITED, STOPPED) else history.pcs[:-1]
        replayed = self.replayer.go(pcs, history, state.model, is_whole=True)
        if replayed.is_late:
            self.not_replayed += 1
        else:
            self.replays["other" if replayed.wrong else "same"] += 1
        if replayed.wrong:
            self.wrong_replays.append("path %d (%s, %d steps): %s" % (self.paths, why, len(pcs), replayed.wrong))
