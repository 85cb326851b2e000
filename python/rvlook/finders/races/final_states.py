"""The final states that a search has found. Each is a strongly connected component of the graph of orders in which each hart can run for
ever. A hart has ended if it accesses no memory there. If a hart runs on, its component has a final state for each set of values that
recurs. Orders are counted over the components: rounds of an endless loop are left out."""
from __future__ import annotations

from collections import defaultdict, deque
from dataclasses import dataclass, replace
from typing import Any, Callable, Iterable, Iterator, Mapping, NamedTuple, Optional, Sequence, Set, Tuple

from rvlook.errors import RvlookError
from rvlook.finders.outcomes import Observed, Value, value_in
from rvlook.finders.races.loop import Loop, do_steps
from rvlook.finders.races.machine import CachedState, HartRun, RaceMachine, Segment
from rvlook.finders.races.search import Edge, Graph, Move, ScheduleSearch, SearchNode, Vertex, schedule_of
from rvlook.finders.races.time_limit import OutOfTime

# how a hart ended; `waits` and `runs on` are endless loops without and with changes of memory
ENDED, HALTS, WAITS, RUNS_ON, UNFINISHED, NOT_SEARCHED = "ended", "halts", "waits", "runs on", "unfinished", "not searched"
GRACE, SLACK = 0.01, 0.3  # time beyond the limit for the analysis, and again for the replays: this share of the limit, and these seconds


class HartEnd(NamedTuple):
    """How and where a hart ended."""
    how: str  # one of the constants ENDED to NOT_SEARCHED
    pc: Optional[int]  # None unless the hart ended or halts


class OutcomeState(NamedTuple):
    """A state in which the outcome has some values, and the schedule that leads to it."""
    vertex: Vertex  # a vertex of the strongly connected component
    state: CachedState  # the state, at the vertex or after it
    tail: Tuple[Segment, ...] = ()  # the schedule from the vertex to the state


@dataclass
class FinalState:
    """A final state: a report of the harts and the outcome, with a schedule that leads to it."""
    harts: tuple[HartEnd, ...]  # how and where each hart ended
    values: tuple[Value, ...]  # the values of the outcome, in its order
    node: SearchNode  # has the simplest schedule
    round: tuple[Segment, ...]  # the schedule of an endless loop from the state; empty for no loop
    orders: int  # number of schedules that lead to the final state
    state: CachedState  # the state of the machine
    tail: tuple[Segment, ...] = ()  # schedule from the node to the state, if a hart runs on alone
    number: int = 0  # from 1 on; 0 before the numbering

    @property
    def steps(self) -> int:
        """Returns the number of steps of the schedule."""
        return self.node.cost.steps + sum(move.steps for move in self.tail)

    def schedule(self) -> list[Segment]:
        """Returns the schedule that leads to the final state."""
        return self.node.schedule() + list(self.tail)


class FinalStates:
    """All final states of a search."""
    def __init__(self, search: ScheduleSearch, outcome: Sequence[Observed]) -> None:
        self.search, self.machine, self.outcome, self.orders = search, search.machine, outcome, 0  # `orders`: number of schedules
        self.by_report: dict[tuple[tuple[HartEnd, ...], tuple[Value, ...]], FinalState] = {}  # the final states by their reports
        self.are_hidden = self.is_cut = False  # values may be missing; the time limit was reached
        try:
            with search.limit.until(1 + GRACE, SLACK):
                for graph in search.graphs():
                    self.orders = 0
                    for end in self.of_graph(graph):
                        self.add(end)
        except OutOfTime:
            self.is_cut = True
        self.ends = sorted(self.by_report.values(), key=lambda it: (it.node.cost, it.steps))  # the simplest first
        self.renumber()

    def renumber(self) -> None:
        """Numbers the final states from 1 on."""
        for number, end in enumerate(self.ends, 1):
            end.number = number

    def keep(self, wanted: Sequence[FinalState]) -> None:
        """Leaves out all final states but `wanted`, because the time was over before the others were replayed."""
        self.is_cut = self.is_cut or len(wanted) < len(self.ends)
        self.ends = [end for end in self.ends if end in wanted]
        self.renumber()

    def add(self, end: FinalState) -> None:
        """Adds a final state. Joins final states with equal reports, and keeps the simplest schedule."""
        key = end.harts, end.values
        old = self.by_report.setdefault(key, end)
        if old is not end:
            best = min(old, end, key=lambda it: (it.node.cost, it.steps))
            best.orders = old.orders + end.orders
            self.by_report[key] = best

    def of_graph(self, graph: Graph) -> Iterator[FinalState]:
        """Yields the final states of one round of the search."""
        if self.search.bounds.preemptions is not None:
            graph = with_preemptions(graph, self.search.bounds.preemptions)
        components = Components(graph)
        parts, component_of = components.parts, components.component_of
        paths = paths_of(graph, parts, component_of)
        for index, vertices in enumerate(parts):
            component = Component(self.search, graph, vertices, component_of)
            ends_of_harts = component.hart_ends()
            if ends_of_harts:
                self.orders += paths[index]
                yield from self.of_component(component, ends_of_harts, paths[index])

    def of_component(self, component: Component, ends_of_harts: Sequence[str], orders: int) -> Iterator[FinalState]:
        """Yields the final states of a component: one for each set of values, or one if they are not known. `orders` counts the paths to it."""
        hart_ends = tuple(component.hart_end(hart) if how == ENDED else HartEnd(how, None) for hart, how in enumerate(ends_of_harts))
        vertex = component.vertices[0]
        states_by_values = {(): OutcomeState(vertex, component.graph.nodes[vertex].point.state)}  # type: dict[tuple[Value, ...], OutcomeState]
        if NOT_SEARCHED not in ends_of_harts and (UNFINISHED not in ends_of_harts or ENDED in ends_of_harts):
            states_by_values, is_hidden = component.values(self.outcome)
            self.are_hidden = self.are_hidden or is_hidden
        endless = [hart for hart, how in enumerate(ends_of_harts) if how in (WAITS, RUNS_ON)]
        for values, (vertex, state, tail) in states_by_values.items():
            yield FinalState(hart_ends, values, component.graph.nodes[vertex], component.round(vertex, state, endless, tail), orders, state, tail)


class Component:
    """A strongly connected component of the graph of orders."""
    def __init__(self, search: ScheduleSearch, graph: Graph, vertices: Iterable[Vertex], component_of: Mapping[Vertex, int]) -> None:
        self.search, self.machine, self.graph = search, search.machine, graph  # the vertices and edges are those of `graph`
        self.vertices = sorted((vertex for vertex in vertices if vertex in graph.nodes), key=lambda it: graph.nodes[it].cost)  # the vertices by cost
        self.all_vertices = set(vertices)  # also vertices that were not visited
        self.moves = moves_inside(graph, vertices, component_of) if self.vertices else {}  # the moves of each hart, within the component
        self.state = graph.nodes[self.vertices[0]].point.state if self.vertices else search.machine.start  # the state of the first vertex

    def loop(self, hart: int) -> Loop | None:
        """Returns the endless loop of a hart that no other hart can affect, or None."""
        return self.graph.loops.get((self.state._replace(steps=()), hart))

    def hart_ends(self) -> tuple[str, ...] | None:
        """Returns how each hart ended in this component; None if a hart would continue to another component."""
        if not self.vertices:
            return None
        is_still = not any(move.has_changes for moves in self.moves.values() for move in moves)
        harts = range(self.machine.hart_count)
        is_still = is_still and not any(loop and loop.has_changes for loop in map(self.loop, harts))
        is_given_up = any((self.state, hart) in self.graph.unended_alone for hart in harts)
        ends = [self.how_ended(hart, is_still, is_given_up) for hart in harts]
        known_ends = tuple(end for end in ends if end is not None)
        return known_ends if len(known_ends) == len(ends) else None

    def how_ended(self, hart: int, is_still: bool, is_given_up: bool) -> str | None:
        """Returns how a hart ended in this component, or None if the hart would continue to another component. `is_still`: no hart changes memory
        here; `is_given_up`: some hart was given up here, so the search did not go on with the others."""
        state, graph, endless = self.state, self.graph, WAITS if is_still else RUNS_ON
        if hart in self.moves:
            return endless if any(move.dependent.look and move.dependent.look.kind for move in self.moves[hart]) else ENDED
        if (state, hart) in graph.unended_alone:
            return UNFINISHED
        if graph.moves.get((state, hart, False), self) is None:  # the move was computed: the hart stops; `self` is in place of an unknown move
            if (state, hart) in graph.unended_in_move:
                return UNFINISHED
            loop = self.loop(hart)
            return endless if loop and loop.has_accesses else ENDED
        return NOT_SEARCHED if is_given_up else None

    def hart_end(self, hart: int) -> HartEnd:
        """Returns how and where a hart ended. The hart HALTS if it was expected to end elsewhere."""
        machine, nodes = self.machine, self.graph.nodes
        pc = min(machine.pc(nodes[vertex].point.state, hart) for vertex in self.vertices)
        if hart in self.moves:
            pc = min(pc, *(hart_run.pc for hart_run in self.run_alone(hart)))
        return HartEnd(HALTS if machine.ends and not machine.limit and pc not in machine.ends else ENDED, pc)

    def run_alone(self, hart: int) -> Iterator[HartRun]:
        """Runs a hart alone from the component's first state back to it; yields it after each step. Raises RvlookError without a return."""
        hart_run, loop = HartRun(self.machine, self.state, hart), self.loop(hart)
        start = full_state(hart_run)
        max_steps = loop.length if loop and hart not in self.moves else sum(move.steps for move in self.moves[hart])
        first_node = self.graph.nodes[self.vertices[0]]
        for _ in do_steps(self.machine, hart_run, max_steps, lambda: first_node.schedule() + [Segment(hart, hart_run.steps_done)]):
            yield hart_run
            if full_state(hart_run) == start:
                return
        raise RvlookError("hart %d does not return to its state in the endless loop at %08x" % (hart, hart_run.pc))

    def values(self, outcome: Sequence[Observed]) -> tuple[dict[tuple[Value, ...], OutcomeState], bool]:
        """Returns the recurring values of the outcome, each with a vertex, a state and the schedule between them; and whether some may be missing."""
        states_by_values: dict[tuple[Value, ...], OutcomeState] = {}
        for vertex in self.vertices:
            state = self.graph.nodes[vertex].point.state
            states_by_values.setdefault(values_in(self.machine, outcome, state), OutcomeState(vertex, state))
        if self.search.is_outcome_visible:
            return states_by_values, False
        harts_without_moves = [hart for hart in range(self.machine.hart_count) if hart not in self.moves]
        looping_harts = [hart for hart in harts_without_moves if self.loop(hart) and len(self.values_alone(hart, outcome)) > 1]
        moving_harts = [*self.moves, *looping_harts]  # harts that may change the outcome between the vertices
        if len(moving_harts) == 1:
            for values, state_alone in self.values_alone(moving_harts[0], outcome).items():
                states_by_values.setdefault(values, state_alone)
        return states_by_values, len(moving_harts) > 1 and any(self.search.is_hidden(hart) for hart in moving_harts)

    def values_alone(self, hart: int, outcome: Sequence[Observed]) -> dict[tuple[Value, ...], OutcomeState]:
        """Returns the values of the outcome while a hart runs alone from the first vertex, each with a state and the schedule to it."""
        watched, first = self.search.outcome, self.vertices[0]
        states_by_values: dict[tuple[Value, ...], OutcomeState] = {values_in(self.machine, outcome, self.state): OutcomeState(first, self.state)}
        if not watched.registers and not watched.addresses:
            return states_by_values  # only dependent steps can change the outcome, so each value has a vertex
        previous: object = None
        for hart_run in self.run_alone(hart):
            present = hart_run.digest, hart_run.table, [hart_run.registers[number] for owner, number in watched.registers if owner == hart]
            if present != previous:
                state, tail, previous = hart_run.cached_state(), (Segment(hart, hart_run.steps_done),), present
                states_by_values.setdefault(values_in(self.machine, outcome, state), OutcomeState(first, state, tail))
        return states_by_values

    def round(self, vertex: Vertex, state: CachedState, harts: Sequence[int], tail: Sequence[Segment]) -> tuple[Segment, ...]:
        """Returns the schedule from a state back to it in which each of these harts moves. `tail` is the schedule from the vertex to the state."""
        moving = [hart for hart in harts if hart in self.moves]
        if len(moving) == 1 and tail:
            return (Segment(moving[0], sum(1 for _ in self.run_alone(moving[0]))),)
        if not moving and tail:
            return (Segment(tail[0].hart, sum(1 for _ in self.run_alone(tail[0].hart))),)
        return tuple(schedule_of((hart, move, False) for hart, move in round_of(self.graph, vertex, moving, self.all_vertices)))


def values_in(machine: RaceMachine, outcome: Sequence[Observed], state: CachedState) -> tuple[Value, ...]:
    """Returns the values of an outcome in a state."""
    return tuple(value_in(item, machine, state) for item in outcome)


def full_state(hart_run: HartRun) -> tuple[Any, ...]:
    """Returns all that may change in the steps of one hart."""
    return hart_run.pc, hart_run.context, hart_run.digest, hart_run.table, hart_run.host, tuple(hart_run.registers)


def find_final_states(search: ScheduleSearch, outcome_of: Callable[[ScheduleSearch], Sequence[Observed]]) -> FinalStates:
    """Searches all orders, and returns the final states. `outcome_of` returns the outcome after a search. If two harts run on and change the
    outcome by independent steps, makes these steps dependent and repeats the search."""
    search.run()
    final_states = FinalStates(search, outcome_of(search))
    if final_states.are_hidden and not search.why_cut:
        search.show_outcome()
        final_states = FinalStates(search.run(), outcome_of(search))
    if final_states.are_hidden:
        search.whole_level = None  # of no level are all values known
    return final_states


def moves_inside(graph: Graph, part: Iterable[Vertex], component_of: Mapping[Vertex, int]) -> dict[int, list[Move]]:
    """Returns the moves of each hart that stay in a component."""
    moves = defaultdict(list)
    for vertex in part:
        for edge in graph.edges.get(vertex, ()):
            if component_of.get(edge.target) == component_of[vertex]:
                moves[edge.hart].append(edge.move)
    return moves


def with_preemptions(graph: Graph, bound: int) -> Graph:
    """Returns a graph whose vertices include the number of preemptions so far, at most `bound`."""
    new_graph, start = replace(graph, nodes={}, edges={}), (next(iter(graph.nodes)), 0)
    waiting: list[Vertex] = [start]
    while waiting:
        new_vertex = waiting.pop()
        vertex, preemptions = new_vertex
        if vertex in graph.nodes and new_vertex not in new_graph.nodes:
            new_graph.nodes[new_vertex] = graph.nodes[vertex]
            edges = [edge for edge in graph.edges.get(vertex, ()) if preemptions + edge.preemptions <= bound]
            new_graph.edges[new_vertex] = [edge._replace(target=(edge.target, preemptions + edge.preemptions)) for edge in edges]
            waiting += [edge.target for edge in new_graph.edges[new_vertex]]
    return new_graph


def round_of(graph: Graph, vertex: Vertex, moving: Sequence[int], part: Set[Vertex]) -> tuple[tuple[int, Move], ...]:
    """Returns harts and moves that lead from a vertex through its component, whose vertices are `part`, and back. Each hart in `moving` moves."""
    end = start = vertex
    moves: list[tuple[int, Move]] = []
    for hart in moving:
        end, path = path_to(graph, end, part, lambda edge: edge.hart == hart)
        moves += path
    if moves and end != start:
        _, path = path_to(graph, end, part, lambda edge: edge.target == start)
        moves += path
    return tuple(moves)


def path_to(graph: Graph, start: Vertex, part: Set[Vertex], is_wanted: Callable[[Edge], bool]) -> tuple[Vertex, tuple[tuple[int, Move], ...]]:
    """Finds a shortest path from a vertex within a component whose last edge is wanted. Returns the end of the path, and its harts and moves."""
    waiting: deque[tuple[Vertex, tuple[tuple[int, Move], ...]]] = deque([(start, ())])
    seen = {start}
    while True:
        vertex, path = waiting.popleft()
        for edge in graph.edges.get(vertex, ()):
            longer = (*path, (edge.hart, edge.move))
            if edge.target in part and is_wanted(edge):
                return edge.target, longer
            if edge.target in part and edge.target not in seen:
                seen.add(edge.target)
                waiting.append((edge.target, longer))


class Components:
    """The strongly connected components of a graph, by Tarjan's algorithm. Each component comes after those that it leads to."""
    def __init__(self, graph: Graph) -> None:
        self.graph = graph  # the graph whose components are found
        self.number: dict[Vertex, int] = {}  # by vertex: its number in the order of visits
        self.low: dict[Vertex, int] = {}  # by vertex: the least number that it reaches through vertices on the stack (lowlink)
        self.stack: list[Vertex] = []  # the vertices whose component is not complete
        self.on_stack: set[Vertex] = set()  # the vertices in `stack`
        self.parts: list[list[Vertex]] = []  # the vertices of each component
        self.component_of: dict[Vertex, int] = {}  # the index of its component in `parts`
        for root in list(graph.nodes):
            if root not in self.number:
                self.walk(root)

    def enter(self, vertex: Vertex, path: list[tuple[Vertex, Iterator[Edge]]]) -> None:
        """Numbers a new vertex, and appends it with its edges to the path of the depth-first search."""
        self.number[vertex] = self.low[vertex] = len(self.number)
        self.stack.append(vertex)
        self.on_stack.add(vertex)
        path.append((vertex, iter(self.graph.edges.get(vertex, ()))))

    def walk(self, root: Vertex) -> None:
        """Visits all vertices that a vertex leads to, by a depth-first search."""
        path: list[tuple[Vertex, Iterator[Edge]]] = []  # the vertices from the root to the present one, each with the edges that remain
        self.enter(root, path)
        while path:
            vertex, edges = path[-1]
            for target, *_ in edges:
                if target not in self.number:
                    self.enter(target, path)
                    break
                if target in self.on_stack:
                    self.low[vertex] = min(self.low[vertex], self.number[target])
            else:
                path.pop()
                self.leave(vertex, path)

    def leave(self, vertex: Vertex, path: list[tuple[Vertex, Iterator[Edge]]]) -> None:
        """Ends the visit of a vertex. If it reaches no vertex with a lower number, the vertices above it on the stack are its component."""
        if path:
            parent, _ = path[-1]
            self.low[parent] = min(self.low[parent], self.low[vertex])
        if self.low[vertex] == self.number[vertex]:
            component = [self.stack.pop()]
            while component[-1] != vertex:
                component.append(self.stack.pop())
            self.on_stack.difference_update(component)
            self.component_of.update(dict.fromkeys(component, len(self.parts)))
            self.parts.append(component)


def paths_of(graph: Graph, components: Sequence[Sequence[Vertex]], component_of: Mapping[Vertex, int]) -> dict[int, int]:
    """Returns for each component the number of paths to it from the start. `parts` has the vertices of each component, successors first."""
    if not graph.nodes:
        return {}
    paths, start = defaultdict(int), next(iter(graph.nodes))
    paths[component_of[start]] = 1
    for index in range(len(components) - 1, -1, -1):
        if paths[index]:
            for vertex in components[index]:
                for target, *_ in graph.edges.get(vertex, ()):
                    if component_of[target] != index:
                        paths[component_of[target]] += paths[index]
    return paths
