"""Computes moves of `races` ahead of the search, in several processes. The search itself has one process and one order. After some moves it gives
the nodes that wait to other processes. They follow these nodes as the search would, and return the moves, with all that the search records for a
move. The search then takes a move from them in place of computing it. It computes a lost move itself. The other processes never run rvbench: they
leave out a move that has a step which is not cached. The search therefore runs rvbench as it would alone. Its result does not depend on the number
of processes."""
from __future__ import annotations

import gc
import time
from collections import defaultdict
from dataclasses import dataclass
from typing import Dict, FrozenSet, List, NamedTuple, Optional, Sequence, Set, Tuple

from rvlook.finders.races.loop import Loop
from rvlook.finders.races.machine import CachedState, Memory, Schedule, UnknownStep
from rvlook.finders.races.search import Agent, DependentStep, Heap, Move, MoveKey, ScheduleSearch, SearchNode, TouchedBytes
from rvlook.protocol.jobs import results_of

FIRST_PAUSE = 0.1  # seconds that the search computes moves before it gives nodes to other processes
MIN_SECONDS_PER_MOVE = 0.00015  # seconds to compute a move on average, so that it is worth to send it
TASKS_PER_JOB = 4  # so that the processes end at about the same time
MAX_MOVES_PER_TASK = 20000  # the most moves of a task; its result is sent through a pipe


@dataclass(frozen=True, eq=False)
class Touched:
    """The bytes that an agent accessed in a move. Moves with equal accesses share an object."""
    agent: Agent  # the hart, or the hart in a world
    read: FrozenSet[int]  # addresses of loaded bytes
    written: FrozenSet[int]  # addresses of stored bytes
    executed: FrozenSet[int]  # addresses of instructions


class AheadMove(NamedTuple):
    """A move with all that the search records for it."""
    move: Optional[Move]  # None: the hart stops
    touched: Sequence[Touched]  # the accessed bytes, by agent
    loop: Optional[Tuple[CachedState, Loop]]  # the endless loop in which the move ends, after its state; None for no loop
    is_unended: bool  # whether the hart was given up in the move, after the limit of steps


class MemoryChange(NamedTuple):
    """The memory after a move, as a change of the memory before the move."""
    digest: int  # the hash of the memory after the move
    before: int  # the hash of the memory before the move
    changed: Memory  # the new values of bytes that differ
    restored: Set[int]  # addresses of bytes that are again as after the script


@dataclass
class MoveNews:
    """The moves of a task, with the memories and the states of harts that the search does not know."""
    moves: List[Tuple[MoveKey, AheadMove]]  # the results, by state, hart and timer
    memories: List[MemoryChange]  # the new memories
    harts: Dict[int, Tuple[int, int, Tuple[int, ...]]]  # context, pc and registers of each new state of a hart, by its index in RaceMachine.harts
    written_words: Set[int]  # addresses of all words that some step has written


class MoveRecorder:
    """Computes moves in another process, and records them. `search` is the copy that this process has inherited."""
    def __init__(self, search: ScheduleSearch) -> None:
        # `inherited_harts`: how many states of harts the search knew when this process began
        self.search, self.machine, self.inherited_harts = search, search.machine, len(search.machine.harts)
        self.memories = set(search.machine.memories)  # hashes of the memories that the search knows or has been sent
        # one object for equal values: pickle sends each object only once
        self.touched: dict[tuple[Agent, FrozenSet[int], FrozenSet[int], FrozenSet[int]], Touched] = {}
        self.steps: dict[DependentStep, DependentStep] = {}
        self.news = MoveNews(moves=[], memories=[], harts={}, written_words=set())  # the result of the current task

    def follow(self, nodes: Sequence[SearchNode]) -> MoveNews:
        """Follows nodes of one level to all nodes of this level, and returns the moves. Leaves out the moves that need rvbench."""
        search, waiting, level = self.search, list(nodes), nodes[0].cost.level
        self.machine.go_offline()
        search.new_move = self.new_move
        self.news = MoveNews(moves=[], memories=[], harts={}, written_words=self.machine.written_words)
        while waiting and len(self.news.moves) < MAX_MOVES_PER_TASK:
            node = waiting.pop()
            if node.point in search.visited:
                continue
            search.visited.add(node.point)
            try:
                waiting.extend(node for node in search.next_nodes(node) if node.cost.level == level)
            except UnknownStep:
                pass
        return self.news

    def new_move(self, key: MoveKey, _schedule: object) -> Move | None:
        """Computes a move, and records it for the process of the search."""
        search, graph = self.search, self.search.graph
        search.touches, graph.loops, graph.unended_in_move = TouchedBytes(), {}, set()  # empty, to record this move alone
        move = search.compute_move(key, list)  # `list` returns an empty schedule: without a bench no schedule is needed
        if move:
            move = move._replace(dependent=self.steps.setdefault(move.dependent, move.dependent))  # one object is sent once
        loop = next(((state, loop) for (state, _), loop in graph.loops.items()), None)
        self.news.moves.append((key, AheadMove(move, self.all_touched(), loop, bool(graph.unended_in_move))))
        before, _hart, _is_timer = key
        for state in (before, *([move.state] if move else ())):
            self.record_state(before, state)
        return move

    def all_touched(self) -> list[Touched]:
        """Returns the bytes that were accessed in the last move, by agent."""
        all_touched, touches = [], self.search.touches
        for agent in list(touches.executed):
            bytes_of = (agent, frozenset(touches.read[agent]), frozenset(touches.written[agent]), frozenset(touches.executed[agent]))
            all_touched.append(self.touched.setdefault(bytes_of, Touched(*bytes_of)))
        return all_touched

    def record_state(self, before: CachedState, state: CachedState) -> None:
        """Adds to the news which states of harts, and which memory, are new in a state. `before` is the state before the move."""
        self.news.harts.update((hart, self.machine.harts[hart]) for hart in state.harts if hart >= self.inherited_harts)
        if state.memory not in self.memories:
            self.memories.add(state.memory)
            old, new = self.machine.memories[before.memory], self.machine.memories[state.memory]
            self.news.memories.append(MemoryChange(state.memory, before.memory, dict(new.items() - old.items()), old.keys() - new.keys()))


class MovesAhead:
    """The moves that other processes have computed for a search. They are valid in one round, until a new region is created."""
    def __init__(self, search: ScheduleSearch, jobs: int) -> None:
        self.search, self.machine, self.jobs = search, search.machine, jobs  # `jobs`: number of processes
        self.moves: dict[MoveKey, AheadMove] = {}  # computed by other processes and not yet used
        self.merged: set[Touched] = set()  # accesses that the search has recorded
        self.valid_for = (0, 0)  # the round, and the number of regions, for which `moves` are valid
        self.taken = self.computed = 0  # moves of other processes, since the start, and moves of this process, since the last exchange
        self.seconds, self.pause = 0.0, FIRST_PAUSE  # seconds spent on moves of this process since the last exchange; the least before the next one
        search.prepare, search.new_move = self.prepare, self.new_move

    def prepare(self, heap: Heap) -> None:
        """Lets other processes compute the moves of the lowest level in the heap, if the search has computed moves for long enough by itself."""
        if not heap or self.seconds < max(self.pause, MIN_SECONDS_PER_MOVE * self.computed):
            return
        lowest_cost, _, _ = heap[0]
        tasks = self.tasks_of([node for cost, _, node in heap if cost.level == lowest_cost.level])
        if len(tasks) < 2 or self.compute_ahead(tasks) < 2 * self.computed:
            self.pause *= 2  # the exchange gave few moves, so wait longer before the next one
        self.seconds, self.computed = 0.0, 0

    def tasks_of(self, nodes: Sequence[SearchNode]) -> list[list[SearchNode]]:
        """Divides nodes into tasks. Nodes in which the same hart moves on from the same states of the others often lead to the same nodes."""
        tasks: dict[int, list[SearchNode]] = defaultdict(list)
        for node in nodes:
            harts, last_hart = node.point.state.harts, node.point.last_hart
            states_of_others = tuple(number for hart, number in enumerate(harts) if hart != last_hart) or harts
            tasks[hash((last_hart, states_of_others)) % (TASKS_PER_JOB * self.jobs)].append(node)
        return list(tasks.values())

    def compute_ahead(self, tasks: Sequence[Sequence[SearchNode]]) -> int:
        """Lets other processes compute the moves from the nodes of the tasks; returns the number of moves."""
        self.moves, self.valid_for = {}, (self.search.rounds, len(self.machine.regions))
        recorder, count = MoveRecorder(self.search), 0
        gc.freeze()  # the processes share the objects as long as nothing writes to them
        try:
            for news in results_of(lambda number: recorder.follow(tasks[number]), len(tasks), self.jobs):
                self.take_over(news)
                count += len(news.moves)
        finally:
            gc.unfreeze()
        return count

    def take_over(self, news: MoveNews) -> None:
        """Takes over the moves of a task, with the numbers that their states have in this process."""
        machine = self.machine
        numbers = {number: machine.harts.number(values) for number, values in news.harts.items()}
        machine.written_words |= news.written_words
        for change in news.memories:
            if change.before in machine.memories and change.digest not in machine.memories:
                memory = {**machine.memories[change.before], **change.changed}
                for at in change.restored:
                    del memory[at]
                machine.memories[change.digest] = memory

        def renumbered(state: CachedState) -> CachedState:
            return state._replace(harts=tuple(numbers.get(hart, hart) for hart in state.harts))

        for (state, hart, is_timer), ahead in news.moves:
            move = ahead.move and ahead.move._replace(state=renumbered(ahead.move.state))
            if not move or move.state.memory in machine.memories:
                loop = ahead.loop and (renumbered(ahead.loop[0]), ahead.loop[1])
                self.moves[renumbered(state), hart, is_timer] = ahead._replace(move=move, loop=loop)

    def compute(self, key: MoveKey, schedule: Schedule) -> Move | None:
        """Computes a move in this process. Adds its time to `seconds`, unless it runs rvbench: other processes cannot do such a move."""
        runs, start = self.machine.runs, time.thread_time()
        move = self.search.compute_move(key, schedule)
        if self.machine.runs == runs:
            self.computed += 1
            self.seconds += time.thread_time() - start
        return move

    def new_move(self, key: MoveKey, schedule: Schedule) -> Move | None:
        """Returns a move that another process has computed, and records what the search records for it. Computes the move if no process has."""
        ahead = self.moves.pop(key, None)
        if ahead is None or self.valid_for != (self.search.rounds, len(self.machine.regions)):
            return self.compute(key, schedule)
        self.taken += 1
        touches, graph = self.search.touches, self.search.graph
        for touched in ahead.touched:
            if touched not in self.merged:
                self.merged.add(touched)
                touches.read[touched.agent] |= touched.read
                touches.written[touched.agent] |= touched.written
                touches.executed[touched.agent] |= touched.executed
        if ahead.loop:
            graph.loops[ahead.loop[0], key[1]] = ahead.loop[1]
        if ahead.is_unended:
            graph.unended_in_move.add(key[:2])
        return ahead.move
