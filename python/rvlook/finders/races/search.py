"""The search of `races` over all orders of two harts and all timer interrupts, with partial-order reduction. It switches harts only before
a dependent step. A step is dependent if it calls the monitor, if it accesses memory that is ever part of a region, or if it accesses a shared
byte. A byte is shared if both harts access it and at least one writes it. The search is repeated as long as more shared bytes are found. Equal
points are joined; the simplest schedule to each is found first, by preemptions, timer interrupts, switches and steps."""
from __future__ import annotations

import heapq
import itertools
from collections import defaultdict
from dataclasses import dataclass, field
from typing import Any, Callable, Iterable, Iterator, List, NamedTuple, Optional, Tuple, Union

from rvlook.finders.outcomes import Watched
from rvlook.finders.races.loop import Loop, LoopDetector, first_arrival, loop_of
from rvlook.finders.races.machine import CachedState, CallResult, HartContext, HartRun, Look, RaceMachine, Schedule, Segment, StepResult
from rvlook.finders.races.time_limit import OutOfTime, TimeLimit
from rvlook.protocol import names

MAX_STATES = 500000  # states, each with the hart that stepped last; at this number the search ends incomplete
MAX_MOVES_ALONE = 10000  # moves of one hart in succession; beyond it the hart is given up, and the search is incomplete
SEARCH_SHARE = 0.85  # the search's part of the time limit; the rest is for the analysis of the graph and for the replays


class DependentStep(NamedTuple):
    """The dependent step of a move. In a move of independent steps only, `pc` and `look` are None."""
    steps_before: int  # number of steps of the move before this one
    pc: Optional[int]  # None if the move has no dependent step
    look: Optional[Look]  # the access of the step; None if the move has no dependent step
    world: str  # the world in which the step begins
    took_timer: bool  # whether the step took the timer interrupt


class Move(NamedTuple):
    """A dependent step with the independent steps before and after it, or only independent steps."""
    state: CachedState  # the state after the move
    steps: int  # number of all steps of the move
    dependent: DependentStep  # has the pc None if all steps are independent
    has_changes: bool  # whether memory or the enclave table changed


class SearchPoint(NamedTuple):
    """A state of the machine, with what decides which moves may follow it. The search visits each point once."""
    state: CachedState  # the state of the machine
    last_hart: Optional[int]  # the hart that moved last; None at the start
    timers: int  # timer interrupts so far
    has_switched: bool  # whether a switch or an interrupt has occurred; always true if all orders are searched


Vertex = Tuple[Any, ...]  # a point, or a part of one
MoveKey = Tuple[CachedState, int, bool]  # a state, the hart that moves, and whether the timer interrupt comes before the move
Agent = Union[int, Tuple[int, str]]  # a hart, or a hart in a world
Heap = List[Tuple["Cost", int, "SearchNode"]]  # the nodes that wait, by their cost and then by their number


class Cost(NamedTuple):
    """The cost of a schedule. Two costs are compared field by field: the first field that differs decides."""
    preemptions: int = 0  # switches from a hart that could make progress
    timers: int = 0  # timer interrupts
    switches: int = 0  # the number of all changes of the hart
    steps: int = 0  # the number of steps of all harts

    @property
    def level(self) -> tuple[int, int]:
        """Returns the two numbers that SearchBounds limits. The search visits all nodes of one level before those of the next."""
        return self.preemptions, self.timers


class Edge(NamedTuple):
    """A move of a hart in the graph of orders."""
    target: Vertex  # the vertex after the move
    hart: int  # the hart that moves
    move: Move
    preemptions: int  # 1 if the move begins with a preemption, else 0


class SearchNode(NamedTuple):
    """A point with a schedule that leads to it."""
    point: SearchPoint
    cost: Cost = Cost()  # the cost of the schedule
    parent: Optional[SearchNode] = None  # the node before; None at the start
    move: Optional[Move] = None  # the move from the parent; None at the start
    is_timer: bool = False  # whether the timer interrupt came before the move
    moves_alone: int = 0  # moves of the last hart in succession, without a switch or a timer interrupt
    first_switch: int = 0  # the first step of the run to which the next switch may be attributed

    @property
    def hart(self) -> int:
        """Returns the hart of the last move. The start has no last move."""
        assert self.point.last_hart is not None
        return self.point.last_hart

    @property
    def last_move(self) -> Move:
        """Returns the last move. The start has no last move."""
        assert self.move is not None
        return self.move

    def path(self) -> list[SearchNode]:
        """Returns the nodes on the path from the start, without the start."""
        nodes, node = [], self
        while node.parent:
            nodes.append(node)
            node = node.parent
        return nodes[::-1]

    def schedule(self) -> list[Segment]:
        """Returns the schedule that leads to the node."""
        return schedule_of((node.hart, node.last_move, node.is_timer) for node in self.path())


def schedule_of(moves: Iterable[tuple[int, Move, bool]]) -> list[Segment]:
    """Returns moves as a schedule. On the bare bench the timer interrupt is cleared after it was taken."""
    segments: list[Segment] = []
    clears_timer = False
    for hart, move, is_timer in moves:
        if clears_timer:
            segments.append(Segment(hart, 0, "off"))
        if is_timer:
            segments.append(Segment(hart, 0, "on"))
        if segments and segments[-1].hart == hart:
            segments[-1] = segments[-1]._replace(steps=segments[-1].steps + move.steps)
        else:
            segments.append(Segment(hart, move.steps))
        clears_timer = move.dependent.took_timer and move.dependent.world == "bare"
    return segments + ([Segment(segments[-1].hart, 0, "off")] if clears_timer else [])


class TouchedBytes:
    """The bytes that each agent loaded, stored and executed. An agent is a hart; with timer interrupts it is a hart in a world."""
    def __init__(self) -> None:
        self.read: dict[Agent, set[int]] = defaultdict(set)  # addresses of loaded bytes
        self.written: dict[Agent, set[int]] = defaultdict(set)  # addresses of stored bytes
        self.executed: dict[Agent, set[int]] = defaultdict(set)  # addresses of instructions

    def shared(self) -> set[int]:
        """Returns the bytes that two agents accessed, at least one of them by a store."""
        shared = set()
        for writer, other in itertools.permutations(set(self.read) | set(self.written) | set(self.executed), 2):
            shared |= self.written[writer] & (self.read[other] | self.written[other])
            shared |= {address for address in self.written[writer] if address & -4 in self.executed[other]}
        return shared


@dataclass
class Graph:
    """The orders that one round of the search has found."""
    nodes: dict[Vertex, SearchNode] = field(default_factory=dict)  # the first node of each vertex
    edges: dict[Vertex, list[Edge]] = field(default_factory=dict)  # the moves from each vertex
    moves: dict[MoveKey, Move | None] = field(default_factory=dict)  # the computed moves; None: the hart stops
    loops: dict[tuple[CachedState, int], Loop] = field(default_factory=dict)  # endless loops that no other hart can affect, by state and hart
    unended_in_move: set[tuple[CachedState, int]] = field(default_factory=set)  # states in which a hart was given up within a move
    unended_alone: set[tuple[CachedState, int]] = field(default_factory=set)  # states in which a hart was given up after MAX_MOVES_ALONE moves


class SearchBounds(NamedTuple):
    """The bounds of a search of schedules."""
    preemptions: Optional[int] = None  # the most preemptions; None: any number
    timers: int = 0  # the most timer interrupts
    steps: int = 1000000  # the most steps of one move; a hart that exceeds them is given up
    first: int = 0  # the first switch or timer interrupt comes right after this step of the run, or later,
    last: Optional[int] = None  # and at the latest right after this one; None: no limit

    @property
    def is_part(self) -> bool:
        """Returns whether only a part of the orders is searched."""
        return self.first > 0 or self.last is not None


class ScheduleSearch:
    """The search of all orders within bounds. With `is_plain` it switches harts before each step, without partial-order reduction."""
    def __init__(self, machine: RaceMachine, bounds: SearchBounds = SearchBounds(), is_plain: bool = False, outcome: Watched = Watched(),
                 limit: TimeLimit = TimeLimit()) -> None:
        self.machine, self.bounds, self.outcome, self.limit = machine, bounds, outcome, limit  # `outcome` distinguishes final states
        self.progress: Callable[[ScheduleSearch], None] = lambda _: None  # a caller may set it; is called at each point
        self.prepare: Callable[[Heap], None] = lambda _: None  # a caller may set it; receives the nodes that wait
        self.new_move: Callable[[MoveKey, Schedule], Move | None] = self.compute_move  # a caller may replace it
        # steps of enclaves that store to one of these are dependent; -1 is no address, and makes the set nonempty if there are timer interrupts
        self.watched_bytes = frozenset((*outcome.addresses, -1)) if bounds.timers else frozenset()
        self.is_always_dependent = is_plain or not machine.monitor  # on the bare bench a trap handler uses the registers of the code it interrupts
        self.is_outcome_visible = self.is_always_dependent  # whether steps that may change the outcome are dependent
        self.shared_bytes: frozenset[int] = frozenset()  # the shared bytes of this round
        # the accesses so far; the number of the round, from 1; and how many regions were known at the start of the round
        self.touches, self.rounds, self.region_count = TouchedBytes(), 0, 0
        self.why_cut: str | None = None  # what ended the search early; None: nothing did
        self.whole_level: tuple[int, int] | None = None  # the highest level that was searched completely; None before the first
        self.graph = Graph()  # the graph of this round
        self.earlier_graph: Graph | None = None  # the graph of the round that searched `whole_level`; None after a complete round
        self.reduced_graph: Graph | None = None  # the graph of the last round before `show_outcome`
        self.reset()

    def reset(self) -> None:
        """Begins a new round of the search, with an empty graph."""
        self.cycles: dict[tuple[CachedState, int], int] = {}  # steps in which a hart returns to a state; 0: never
        self.visited: set[SearchPoint] = set()  # the points that were visited
        self.graph = Graph()
        self.transitions, self.level, self.queued = 0, (0, 0), 0  # number of transitions, level of the current node, number of queued nodes

    def run(self) -> ScheduleSearch:
        """Repeats the search until a round finds no new shared bytes, or until the time limit."""
        is_done = False
        try:
            with self.limit.until(SEARCH_SHARE):
                while not is_done:
                    self.rounds += 1
                    self.reset()
                    is_done = self.search()
        except KeyboardInterrupt:
            self.why_cut = "Ctrl-C"
        except OutOfTime:
            self.why_cut = "--seconds"
        return self

    def show_outcome(self) -> None:
        """Makes each step that may change the outcome dependent in the following rounds. Each value of the outcome then has a node."""
        self.is_outcome_visible, self.reduced_graph, self.whole_level, self.earlier_graph = True, self.graph, None, None

    def graphs(self) -> list[Graph]:
        """Returns the graphs whose final states are reported."""
        return [graph for graph in (self.reduced_graph, self.earlier_graph, self.graph) if graph]

    def is_hidden(self, hart: int) -> bool:
        """Returns whether independent steps of a hart may change the outcome, so that its values between two nodes are not in the graph."""
        if any(owner == hart for owner, _ in self.outcome.registers):
            return True
        agents = [agent for agent in self.touches.written if hart in (agent, agent[0] if isinstance(agent, tuple) else agent)]
        stored = set().union(*(self.touches.written[agent] for agent in agents))
        return any(address in stored or self.machine.overlaps_region(address, 1) for address in self.outcome.addresses - self.shared_bytes)

    def is_whole(self) -> bool:
        """Returns whether all orders within the bounds were searched, and no hart was given up."""
        return not self.why_cut and not any(graph.unended_alone or graph.unended_in_move for graph in self.graphs())

    def has_grown(self) -> bool:
        """Returns whether more bytes are shared, or more regions exist, than at the start of the round. Adds these bytes to the shared bytes."""
        region_count, shared = len(self.machine.regions), self.touches.shared()
        if self.is_always_dependent or shared <= self.shared_bytes and region_count == self.region_count:
            return False
        self.shared_bytes |= shared
        return True

    def search(self) -> bool:
        """Searches one round; returns False if more bytes turned out to be shared."""
        serial, self.region_count = itertools.count(), len(self.machine.regions)  # nodes of equal cost leave the heap in the order of serial numbers
        start = SearchNode(SearchPoint(self.machine.start, last_hart=None, timers=0, has_switched=not self.bounds.is_part))
        heap: Heap = [(start.cost, next(serial), start)]
        while heap:
            cost, _, node = heapq.heappop(heap)
            if node.point in self.visited:
                continue
            if cost.level > self.level:
                if self.has_grown():
                    return False
                if self.whole_level is None or self.level >= self.whole_level:
                    self.whole_level, self.earlier_graph = self.level, self.graph
                self.level = cost.level
            self.visited.add(node.point)
            self.graph.nodes.setdefault(self.vertex(node), node)
            self.queued = len(heap)
            self.progress(self)
            self.prepare(heap)
            if len(self.visited) >= MAX_STATES:
                self.why_cut = "the limit of %d states" % MAX_STATES
                return True
            for following in self.next_nodes(node):
                heapq.heappush(heap, (following.cost, next(serial), following))
        self.earlier_graph = None
        return not self.has_grown()

    def vertex(self, node: SearchNode) -> Vertex:
        """Returns the vertex of a node in the graph of orders. The last hart does not matter if the preemptions are not bounded."""
        point = node.point
        return point if self.bounds.preemptions is not None else (point.state, point.timers, point.has_switched)

    def edges_of(self, node: SearchNode) -> list[Edge]:
        """Returns an empty list for the edges from a node. If an earlier node has filled the list of the vertex, the new list is not in the graph."""
        vertex, edges = self.vertex(node), self.graph.edges
        return edges.setdefault(vertex, []) if vertex not in edges else []

    def next_nodes(self, node: SearchNode) -> Iterator[SearchNode]:
        """Yields the nodes that follow, with their cost."""
        state, last_hart, timers, has_switched = node.point
        if node.moves_alone > MAX_MOVES_ALONE:
            self.graph.unended_alone.add((state, node.hart))
            for hart in range(self.machine.hart_count):
                self.move(state, hart, node.schedule)  # puts into `graph.moves` which harts have ended, for the report
            return
        cost, edges = node.cost, self.edges_of(node)
        harts = range(self.machine.hart_count)
        # whether a switch is no preemption; with one hart there is no switch
        is_free = last_hart is None or all(hart == last_hart for hart in harts) or self.is_free(state, last_hart, node.schedule)
        for hart in harts:
            is_switch = last_hart is not None and hart != last_hart
            preemptions = cost.preemptions + (is_switch and not is_free)
            if self.bounds.preemptions is not None and preemptions > self.bounds.preemptions:
                continue
            for is_timer in (False, True) if timers < self.bounds.timers else (False,):
                move = self.move(state, hart, node.schedule, is_timer)
                if move is None or not has_switched and (is_switch or is_timer) and not self.is_in_part(node, hart):
                    continue
                self.transitions += 1
                is_break = is_switch or is_timer
                point = SearchPoint(move.state, hart, timers + is_timer, has_switched or is_break)
                new_cost = Cost(preemptions, cost.timers + is_timer, cost.switches + is_switch, cost.steps + move.steps)
                new = SearchNode(point, new_cost, parent=node, move=move, is_timer=is_timer, moves_alone=1 if is_break else node.moves_alone + 1,
                                 first_switch=cost.steps + move.dependent.steps_before + 1)
                edges.append(Edge(self.vertex(new), hart, move, preemptions - cost.preemptions))
                yield new

    def is_in_part(self, node: SearchNode, hart: int) -> bool:
        """Returns whether a first switch or timer interrupt after a node is equivalent to one at a step from `bounds.first` to `bounds.last`. It is
        equivalent to one before each of the independent steps around it, and in an endless loop to one in each later round."""
        state, last_hart = node.point.state, node.point.last_hart
        following = self.move(state, hart if last_hart is None else last_hart, node.schedule)
        low, high = node.first_switch, node.cost.steps + (following.dependent.steps_before if following else 0)  # the steps with equivalent switches
        is_late = following is None or high >= self.bounds.first
        if not is_late and last_hart is not None and self.is_in_loop(state, last_hart, node.schedule):
            length = self.cycles[state, last_hart]
            rounds = -((high - self.bounds.first) // length)  # up to `bounds.first`, rounded up
            low += rounds * length
            is_late = True
        return is_late and (self.bounds.last is None or low <= self.bounds.last)

    def move(self, state: CachedState, hart: int, schedule: Schedule, is_timer: bool = False) -> Move | None:
        """Returns the move of a hart, or None if the hart stops. `schedule` returns the schedule that leads to the state."""
        key = (state, hart, is_timer)
        moves = self.graph.moves
        if key not in moves:
            moves[key] = self.new_move(key, schedule)
        return moves[key]

    def compute_move(self, key: MoveKey, schedule: Schedule) -> Move | None:
        """Computes a move, or None if the hart stops."""
        state, hart, is_timer = key
        return self.timer_move(state, hart, schedule) if is_timer else self.hart_move(state, hart, schedule)

    def timer_move(self, state: CachedState, hart: int, schedule: Schedule) -> Move | None:
        """Returns the move of a timer interrupt, or None if no timer interrupt can come. The host under the monitor is never interrupted."""
        hart_run = HartRun(self.machine, state, hart)
        world = hart_run.hart_context.world
        if world == "host" or hart_run.hart_context.is_timer_pending or self.machine.is_over(hart_run):
            return None
        pc, before = hart_run.pc, (hart_run.digest, hart_run.table)
        hart_run.set_timer_pending()
        look = self.machine.look(hart_run)
        result = self.machine.step(hart_run, look, schedule)
        self.record_access(hart, world, pc, look, result)
        dependent = DependentStep(steps_before=0, pc=pc, look=look._replace(kind="timer"), world=world, took_timer=is_timer_taken(result))
        return Move(self.state_after(hart_run, result), steps=1, dependent=dependent, has_changes=(hart_run.digest, hart_run.table) != before)

    @staticmethod
    def state_after(hart_run: HartRun, result: StepResult | None) -> CachedState:
        """Returns the state after a step. On the bare bench the timer interrupt is cleared after it was taken."""
        if is_timer_taken(result) and hart_run.hart_context.world == "bare":
            hart_run.set_timer_pending(is_pending=False)
        return hart_run.cached_state()

    def hart_move(self, state: CachedState, hart: int, schedule: Schedule) -> Move | None:
        """Returns a move: independent steps, a dependent one, and those after it; or None if the hart stops, is given up, or returns to its state."""
        machine, hart_run, detector = self.machine, HartRun(self.machine, state, hart), LoopDetector()
        dependent: DependentStep | None = None

        def schedule_to_here() -> list[Segment]:
            return schedule() + ([Segment(hart, hart_run.steps_done)] if hart_run.steps_done else [])

        result, has_changes, before, skipped_steps = None, False, (hart_run.digest, hart_run.table), 0
        while not machine.is_over(hart_run):
            look = machine.look(hart_run)
            is_dependent = self.is_dependent(hart_run, look)
            if is_dependent and dependent:
                break
            length = 0 if is_dependent else detector.length(hart_run)
            if length and machine.limit:
                skipped_steps += hart_run.skip(length)
                detector = LoopDetector()
                continue
            if length:
                hart_run = self.run_to_loop_state(state, hart_run, length, dependent.steps_before + 1 if dependent else 0, schedule_to_here)
                break
            if hart_run.steps_done - skipped_steps > self.bounds.steps:
                self.graph.unended_in_move.add((state, hart))
                return None
            world, pc = hart_run.hart_context.world, hart_run.pc
            result = machine.step(hart_run, look, schedule_to_here)
            has_changes = has_changes or (hart_run.digest, hart_run.table) != before
            self.record_access(hart, world, pc, look, result)
            if is_dependent:
                dependent, detector = DependentStep(hart_run.steps_done - 1, pc, look, world, is_timer_taken(result)), LoopDetector()
                if dependent.took_timer and world == "bare":
                    break
        state_after = self.state_after(hart_run, result if dependent and dependent.took_timer else None)
        if not hart_run.steps_done or not dependent and state_after._replace(steps=()) == state._replace(steps=()):
            return None
        dependent = dependent or DependentStep(hart_run.steps_done, pc=None, look=None, world=hart_run.hart_context.world, took_timer=False)
        return Move(state_after, hart_run.steps_done, dependent, has_changes)

    def run_to_loop_state(self, state: CachedState, hart_run: HartRun, length: int, min_steps: int, schedule: Schedule) -> HartRun:
        """Runs a hart from `state`, at least `min_steps` steps, to the state that represents all states of its endless loop, and records the loop.
        `hart_run` is in the loop; `length` is the number of steps of a round."""
        loop, loop_state = loop_of(self.machine, hart_run, length, schedule)
        arrived = first_arrival(self.machine, state, hart_run, loop_state, min_steps)
        self.graph.loops[arrived.cached_state()._replace(steps=()), hart_run.hart] = loop
        return arrived

    def is_dependent(self, hart_run: HartRun, look: Look) -> bool:
        """Returns whether the next step of a hart is dependent: another hart could affect it or be affected."""
        if self.is_always_dependent or look.uses_table:
            return True
        shared = self.shared_bytes
        if shared and not shared.isdisjoint(range(hart_run.pc, hart_run.pc + 4)):
            return True
        if self.watched_bytes and self.is_watched(hart_run.hart_context, look):
            return True
        if self.is_outcome_visible and self.outcome.may_change(hart_run.hart, look):
            return True
        if not look.kind or is_in_own_region(hart_run.hart_context, look):
            return False
        return not shared.isdisjoint(range(look.address, look.address + look.width)) or self.machine.overlaps_region(look.address, look.width)

    def is_watched(self, context: HartContext, look: Look) -> bool:
        """Returns whether a step of an enclave is dependent because the host may not resume the enclave after a timer interrupt. This is so if the
        step stores a part of the outcome, or if the steps are limited."""
        if context.world == "host":
            return False
        return bool(self.machine.limit) or look.kind == "w" and not self.watched_bytes.isdisjoint(range(look.address, look.address + look.width))

    def record_access(self, hart: int, world: str, pc: int, look: Look, result: StepResult) -> None:
        """Records the accesses of a step of a hart in a world. `pc` is the pc before the step."""
        agent: Agent = (hart, world) if self.bounds.timers else hart
        self.touches.executed[agent].add(pc)
        if look.kind in ("r", "w"):
            context = self.machine.contexts[look.key[0]]
            if not is_in_own_region(context, look):
                touched = self.touches.read if look.kind == "r" else self.touches.written
                touched[agent].update(range(look.address, look.address + look.width))
        elif isinstance(result, CallResult) and look.kind == "call" and result.writes:
            self.touches.written[agent].update(address for address, _ in result.writes)

    def is_free(self, state: CachedState, hart: int, schedule: Schedule) -> bool:
        """Returns whether a switch from a hart is no preemption: the hart stops, or returns by itself to its state."""
        return self.move(state, hart, schedule) is None or self.is_in_loop(state, hart, schedule)

    def is_in_loop(self, state: CachedState, hart: int, schedule: Schedule) -> bool:
        """Returns whether a hart returns by itself to this state. Puts the number of steps, or 0, into `cycles`, also for the states on the way."""
        chain: dict[CachedState, int] = {}  # the index of each state on the way
        passed_steps, first_state, move = [0], state, None  # `passed_steps`: by index, the steps from `first_state` to the state
        while (state, hart) not in self.cycles and state not in chain and len(chain) <= MAX_MOVES_ALONE:
            chain[state] = len(chain)
            move = self.move(state, hart, lambda: schedule() + ([Segment(hart, passed_steps[-1])] if passed_steps[-1] else []))
            if move is None:
                break
            state = move.state
            passed_steps.append(passed_steps[-1] + move.steps)
        first = chain[state] if state in chain and move else len(chain)
        self.cycles.update({(state, hart): passed_steps[-1] - passed_steps[first] if index >= first else 0 for state, index in chain.items()})
        return bool(self.cycles[first_state, hart])


def is_timer_taken(result: StepResult | None) -> bool:
    """Returns whether a step was a timer interrupt. `result` is None if there was no step."""
    if result is None:
        return False
    return result.trap.startswith(names.TIMER) if isinstance(result, CallResult) else result.trap_cause == names.TIMER


def is_in_own_region(context: HartContext, look: Look) -> bool:
    """Returns whether an enclave accesses its own region, which no other world accesses while it runs."""
    if not context.blocks:
        return False
    region, region_size, _, _ = context.blocks
    return region <= look.address and look.address + look.width <= region + region_size
