"""The queue of paths that wait to be continued. The path that is furthest behind in the program comes first, so that paths meet where they can be
joined.

Paths are compared by their activation first, and then by their open calls, the outermost first. Within a call, the rounds of loops are compared
before the place in the function."""
from __future__ import annotations

import heapq
from collections import Counter
from typing import Counter as Counts, List, Tuple, TYPE_CHECKING

from rvlook.symbolic.flow import Flows
from rvlook.symbolic.instructions import Step

if TYPE_CHECKING:
    from rvlook.symbolic.fields import AnyState as State

WAITS_FOR_OTHERS = "waits"  # why `State.go` returns: the path waits for others, and is continued afterwards
Position = Tuple[int, ...]  # the key by which waiting paths are sorted; a path whose key is less comes first


def position_of(flows: Flows, state: State) -> Position:
    """Returns the sort key of a path: its place in the order of the program."""
    places = [place_of(flows, state, state.entry, state.call, state.pc)]  # in each open call, the innermost first
    places += [place_of(flows, state, call.entry, call.caller, call.back - 4) for call in state.open_calls()]
    return (state.start_number, state.activation, *(n for place in reversed(places) for n in place), state.pc)


def place_of(flows: Flows, state: State, entry: int, call: int, pc: int) -> Position:
    """Returns the place of a path in one of its calls. `entry` is the first instruction of the function, `call` is the number of the call, and `pc`
    is the present instruction in this call. The place consists of the head and the round of each loop around the instruction, and then of the
    instruction. It is (0,) if the control flow is not known."""
    flow = flows.by_entry.get(entry)
    if flow is None or pc not in flow.order:
        return (0,)
    position: List[int] = []
    for head in flow.heads.get(pc, ()):
        position += flow.order[head], state.rounds.get((call, head), 0)
    return (*position, flow.order[pc])


def turn_of(flows: Flows, state: State) -> Position:
    """Returns the place of the loop at whose head a path is, in the order in which loops are explored. A loop comes after the loops before it in the
    program, and before those inside it."""
    position: List[int] = []
    places = [(state.entry, state.pc), *((call.entry, call.back - 4) for call in state.open_calls())]
    for entry, pc in reversed(places):
        flow = flows.by_entry.get(entry)
        if flow is None or pc not in flow.order:
            continue
        position += [flow.order[head] for head in flow.heads.get(pc, ())]
        if flow.innermost_head(pc) != pc:
            position.append(flow.order[pc])
    return tuple(position)


class Schedule:
    """The queue of the paths that wait."""

    def __init__(self, flows: Flows, is_rare_first: bool) -> None:
        self.flows = flows
        self.is_rare_first = is_rare_first  # whether a path comes the later, the more paths have begun at its place
        self.count = 0  # how many paths were added; of two paths at one position, the one that was added first comes first
        self.begun: Counts[Position] = Counter()  # how many paths have begun at a place (see `rarity`)
        self.heap: List[Tuple[Position, int, State]] = []  # the waiting paths, each with its position and its number

    def __len__(self) -> int:
        return len(self.heap)

    def add(self, state: State) -> None:
        """Adds a path to the queue, at its place in the program, or by its rarity if rare branches come first."""
        self.count += 1
        position = self.rarity(state) if self.is_rare_first else position_of(self.flows, state)
        heapq.heappush(self.heap, (position, self.count, state))

    def rarity(self, state: State) -> Position:
        """Returns the sort key of a path if rare branches come first: how many paths have begun at its place, with this one. The place includes the
        values of index registers, and the value that the path follows. A parser thus has a place for each depth, and for each type of a field."""
        place = state.pc, state.context, *state.search.indices.values(state), state.value_followed
        self.begun[place] += 1
        return (self.begun[place],)

    def take(self) -> List[State]:
        """Removes the first path from the queue, and all others at the same position. Returns them. If rare branches come first, this is one
        path."""
        position, _, state = heapq.heappop(self.heap)
        states = [state]
        while self.heap and self.heap[0][0] == position and not self.is_rare_first:
            states.append(heapq.heappop(self.heap)[2])
        return states


def waiting(step: Step) -> Step:
    """Returns the function of an instruction at which paths meet. It makes the path wait for others, may merge the path, and then executes the
    instruction by the function `step`."""
    def execute(state: State, pc: int) -> int:
        if state.start_head == pc:  # the path begins in the merged state of this head
            next_pc = step(state, pc)
            state.start_head = None
            return next_pc
        if state.resumed_at == pc:  # the path has waited already
            state.resumed_at = None
        else:
            state.wait_for_others(pc)
        state.merge_after_divisions(pc)
        return step(state, pc)
    return execute


def count_round(flows: Flows, state: State, head: int) -> None:
    """Counts a round of a loop for a path that arrives at its head. Removes the counts of the loops inside, and of the branches in these loops and in
    calls from this function."""
    flow = flows.by_entry.get(state.entry)
    if flow is None or head not in flow.heads.get(head, ()):
        return
    state.rounds[state.call, head] = state.rounds.get((state.call, head), 0) + 1
    for call, other in list(state.rounds):
        if call == state.call and other != head and head in flow.heads.get(other, ()):
            del state.rounds[call, other]
    contexts = state.search.world.contexts
    for key in list(state.branch_counts):
        signed_pc, context = key
        pc = abs(signed_pc)  # negative if only one side was possible (`PathState.branch_counts`)
        if context == state.context:
            heads = flow.heads.get(pc, ())
            is_inner = head in heads and heads[-1] != head
        else:
            is_inner = context > 0 and state.context in contexts.chain(context)
        if is_inner:
            del state.branch_counts[key]
