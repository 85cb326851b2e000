"""Joins paths of one activation that are at the same place, without any loss: a word that differs becomes a choice by a condition on the inputs.

Two paths are joined only if a condition, the *divider*, holds for the inputs of one path and not for those of the other. Two paths have a divider if
they divided at a branch. A finding of joined paths is a finding of each path for which its conditions hold, so a replay can confirm it."""
from __future__ import annotations

from typing import Any, Dict, List, Optional, Sequence, Tuple, TYPE_CHECKING

from rvlook.symbolic.cells import changed_bytes
from rvlook.symbolic.conditions import all_of, any_of, choice8
from rvlook.symbolic.fields import SSTATUS, SymbolicFetch
from rvlook.symbolic.history import Join, part_of
from rvlook.symbolic.liveness import is_read
from rvlook.symbolic.nodes import CHECK, HEAVY, SECRET, Byte, Condition, Node, Word
from rvlook.symbolic.origins import MIXED, NO_ORIGIN, Tag
from rvlook.symbolic.words import byte, bytes_of, choice, not_, parts_of, plain, word

if TYPE_CHECKING:
    from rvlook.symbolic.fields import AnyState as State
    from rvlook.symbolic.search import Search

MAX_CONDITIONS = 400  # the most conditions that two paths may have together since they divided; else they are not joined
QUERY_TIMEOUT_MS = 500  # milliseconds of a query whether two paths exclude each other
EQUAL_FIELDS = (  # the fields of a state that joined paths must have in common
    "pc", "mode", "context", "call", "stack_bottom", "areas", "activation", "start_kind", "start_number", "is_released", "source_head",
    "pending_outputs", "start_head", "entry", "is_covered")


def key_of(state: State) -> Tuple[Any, ...]:
    """Returns what paths must have in common to be joined. If loops are merged, this includes the indices by which their heads are divided."""
    indices = state.search.indices.values(state) if state.search.loops_from else ()
    return (*(getattr(state, name) for name in EQUAL_FIELDS), id(state.calls), state.regs[2], state.csr[SSTATUS], indices)


class Joins:
    """Joins pairs of paths that have divided and are at the same place again."""

    def __init__(self, search: Search) -> None:
        self.search = search
        self.count = 0  # how many pairs of paths were joined

    def join_paths(self, states: Sequence[State]) -> List[State]:
        """Joins paths as far as possible. Returns the joined paths, and the paths that cannot be joined. Paths that divided last are joined first."""
        groups: Dict[Any, List[State]] = {}
        for state in states:
            groups.setdefault(key_of(state), []).append(state)
        joined: List[State] = []
        for group in groups.values():
            group.sort(key=lambda state: [condition.number for condition in state.conditions])  # paths with a long common beginning become neighbours
            while len(group) > 1:
                closest = max(range(len(group) - 1), key=lambda n: common_count(group[n].conditions, group[n + 1].conditions))
                joined_pair = self.join_pair(group[closest], group[closest + 1])
                if joined_pair is None:
                    joined.append(group.pop(closest))
                else:
                    group[closest:closest + 2] = [joined_pair]
            joined += group
        return joined

    def join_pair(self, one: State, two: State) -> Optional[State]:
        """Joins two paths into one of their states, which is changed. Returns this state, or None if the paths cannot be joined."""
        shared_count = common_count(one.conditions, two.conditions)
        conditions_one = one.conditions[shared_count:]
        conditions_two = two.conditions[shared_count:]
        if not conditions_one or not conditions_two or len(conditions_one) + len(conditions_two) > MAX_CONDITIONS:
            return None
        if one.public != two.public or one.calm_window.keys() != two.calm_window.keys():
            return None
        if any(condition.weight > HEAVY for condition in (*conditions_one, *conditions_two)):
            return None
        divider = self.find_divider(one, conditions_one, conditions_two)
        if divider is None or not self.have_common_origins(one, two):
            return None
        condition: Node = divider
        if condition.op == "not":  # exchange the paths, so that the condition is not negated
            one, two = two, one
            conditions_one, conditions_two = conditions_two, conditions_one
            condition = condition.args[0]
        self.count += 1
        self.join(one, two, condition)
        one.conditions = one.conditions[:shared_count] + rest_of(condition, conditions_one, conditions_two)
        return one

    def find_divider(self, one: State, conditions_one: List[Node], conditions_two: List[Node]) -> Optional[Node]:
        """Returns the divider of two paths: a condition that the first path implies and the second one excludes. Returns None if there is none, or if
        it depends on a secret. `conditions_one` and `conditions_two` are the conditions of the two paths since they divided."""
        condition: Condition = conditions_one[0]
        if conditions_two[0] is not not_(conditions_one[0]):
            condition = all_of(*conditions_one)
            negation_is_known = any(other is not_(condition) for other in conditions_two)
            if not negation_is_known:
                answer, _ = self.search.solver.within(QUERY_TIMEOUT_MS).satisfiable(conditions_one, all_of(*conditions_two), one.model)
                if answer is not False:
                    return None
        if type(condition) is not Node or condition.taint & (SECRET | CHECK):
            return None
        return condition

    def have_common_origins(self, one: State, two: State) -> bool:
        """Returns whether two paths can be joined without the loss of an origin that may be used later. Their registers and words of memory must have
        the same origins. Registers that are not read, and words that were popped from the stack, do not count."""
        flows = self.search.flows
        for register in range(1, 32):
            if one.tags[register] != two.tags[register] and is_read(flows, one.pc, register):
                return False
        if one.csr_tags != two.csr_tags:
            return False
        sp = one.regs[2]
        for at in {**one.mem_tags, **two.mem_tags}:
            is_popped = one.stack_bottom <= at < sp
            if not is_popped and not are_compatible(one.mem_tags.get(at), two.mem_tags.get(at)):
                return False
        return True

    # ---- the parts of a state

    def join(self, one: State, two: State, condition: Node) -> None:
        """Changes the state `one` so that it is both states: itself if the condition holds, else `two`."""
        actions_so_far = Join(condition, part_of(one), part_of(two))
        one.joined_steps = max(one.joined_steps + one.steps, two.joined_steps + two.steps)
        one.join = actions_so_far
        one.earlier_pcs = None
        one.pcs = []
        one.steps_before = 0
        one.loads = []
        one.stores = []
        one.answers = []
        one.model = {**two.model, **one.model}  # later inputs may take the side of the second path, which has loaded inputs of its own
        one.memo = {}
        one.input_count = max(one.input_count, two.input_count)
        one.values_followed = None
        one.is_base = False
        join_registers(one, two, condition)
        self.join_memory(one, two, condition)
        join_fetched(one, two, condition)
        one.calm_window = {at: choice8(condition, one.calm_window[at], two.calm_window[at]) for at in one.calm_window}
        for key, count in two.branch_counts.items():
            one.branch_counts[key] = max(count, one.branch_counts.get(key, 0))
        for place, count in two.rounds.items():
            one.rounds[place] = max(count, one.rounds.get(place, 0))
        one.last_objects = {pc: last for pc, last in one.last_objects.items() if two.last_objects.get(pc) == last}

    def join_memory(self, one: State, two: State, condition: Node) -> None:
        """Joins the regions of two states word by word in the state `one`, with the origins of words."""
        low = self.search.world.region[0]
        places = {at & -4 for at in changed_bytes(bytes(one.region_bytes), bytes(two.region_bytes), low)}
        places |= {at & -4 for at, content in one.symbolic_bytes.items() if two.symbolic_bytes.get(at) != content}
        places |= {at & -4 for at in two.symbolic_bytes if at not in one.symbolic_bytes}
        for at in sorted(places):
            value = choose_word(condition, word(*contents(one, at, low)), word(*contents(two, at, low)))
            if type(value) is Node and value.op != "word":
                one.symbolic_bytes[at], one.symbolic_bytes[at + 1], one.symbolic_bytes[at + 2], one.symbolic_bytes[at + 3] = parts_of(value)
                continue
            for n in range(4):
                one.put(at + n, byte(value, n))
        for at in {**one.mem_tags, **two.mem_tags}:
            tag_one = one.mem_tags.get(at)
            tag_two = two.mem_tags.get(at)
            if tag_one != tag_two:
                has_no_pointer = tag_one in (None, NO_ORIGIN) and tag_two in (None, NO_ORIGIN)
                one.mem_tags[at] = NO_ORIGIN if has_no_pointer else MIXED


def are_compatible(one: Tag, two: Tag) -> bool:
    """Returns whether two origins of a word of memory are equal, or both say that the word is no pointer."""
    return one == two or {one, two} == {None, NO_ORIGIN}


def join_registers(one: State, two: State, condition: Node) -> None:
    """Joins the registers of two states, and their origins, in the state `one`."""
    for register in range(1, 32):
        if one.tags[register] != two.tags[register]:
            one.tags[register] = MIXED
        one.regs[register] = choose_word(condition, one.regs[register], two.regs[register])
    for number in one.csr:
        one.csr[number] = choose_word(condition, one.csr[number], two.csr[number])


def contents(state: State, at: int, low: int) -> List[Byte]:
    """Returns the four bytes at an address of the region, which begins at `low`."""
    return [plain(state.symbolic_bytes.get(at + n, state.region_bytes[at + n - low])) for n in range(4)]


def choose_word(condition: Node, one: Word, two: Word) -> Word:
    """Returns the word `one` if a condition holds, else `two`. If the bytes of both words are known one by one, and not both words are numbers, each
    byte is a choice."""
    if one is two:
        return one
    bytes_one = bytes_of(one)
    bytes_two = bytes_of(two)
    if bytes_one and bytes_two and not (type(one) is int and type(two) is int):
        return word(*(choice8(condition, byte_one, byte_two) for byte_one, byte_two in zip(bytes_one, bytes_two)))
    return choice(condition, one, two)


def common_count(one: Sequence[Node], two: Sequence[Node]) -> int:
    """Returns how many conditions two paths have in common from the beginning on."""
    count = 0
    for condition_one, condition_two in zip(one, two):
        if condition_one is not condition_two:
            break
        count += 1
    return count


def rest_of(condition: Node, one: List[Node], two: List[Node]) -> List[Node]:
    """Returns the conditions of joined paths since they divided. `one` has those of the first path, for which the divider `condition` holds, and
    `two` those of the second path. A condition of only one path becomes an implication: it holds if that path is executed."""
    negation = not_(condition)
    both = [term for term in one if term in two]
    only_one = [term for term in one if term not in both and term is not condition and term is not negation]
    only_two = [term for term in two if term not in both and term is not condition and term is not negation]
    conditions: List[Condition] = both[:]
    for is_other_path, terms_of_path in ((negation, all_of(*only_one)), (condition, all_of(*only_two))):
        if terms_of_path is not not_(is_other_path):
            conditions.append(any_of(is_other_path, terms_of_path))
    return [part for part in conditions if type(part) is Node]


def join_fetched(one: State, two: State, condition: Node) -> None:
    """Joins the loads of the window of two states in the state `one`. A load of only one path gets the condition under which this path is
    executed."""
    both = [load for load in one.symbolic_fetches if load in two.symbolic_fetches]
    fetches = both[:]
    for state, other, is_executed in ((one, two, condition), (two, one, not_(condition))):
        fetches += [load._replace(joined=(*load.joined, is_executed)) for load in state.symbolic_fetches if load not in both]
        for at, (pc, context) in state.fetched.items():
            if at not in other.fetched:
                fetches.append(SymbolicFetch(at, 1, pc, context, joined=(is_executed,)))
    one.fetched = {at: site for at, site in one.fetched.items() if at in two.fetched}
    one.symbolic_fetches = fetches
