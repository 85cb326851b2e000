"""Merges paths at the head of a loop, for any number of rounds (`heads`).

A path that arrives at a head is joined with the merged state, and ends. If the merged state has changed, it is explored for another round."""
from __future__ import annotations

from typing import Callable, Dict, List, Optional, Sequence, Set, Tuple, TYPE_CHECKING

from rvlook.symbolic.bounds import word_reader
from rvlook.symbolic.cells import Cell, bytes_at, name_of, raw_cells, taint_of
from rvlook.symbolic.conditions import all_of
from rvlook.symbolic.facts import LOWER_BOUND, SUM_BOUND, UPPER_BOUND, Fact, condition_of, mask_of_all, without_bound
from rvlook.symbolic.fields import START_MERGED_LOOP, SCAUSE, SEPC, SSCRATCH, STVAL, SymbolicFetch
from rvlook.symbolic.heads import Head
from rvlook.symbolic.instructions import SP
from rvlook.symbolic.judge import INDEX_MAY_MEET
from rvlook.symbolic.merge import Merged, Merger, begin
from rvlook.symbolic.nodes import INPUT, Byte, Condition, Node, Word, mask_of, variable, weight_of
from rvlook.symbolic.origins import LOST
from rvlook.symbolic.ranks import Edge, Measure, Passage, comparisons, directions
from rvlook.symbolic.record import MergedPlace
from rvlook.symbolic.sessions import Session
from rvlook.symbolic.sweeps import has_variables
from rvlook.symbolic.tags import Place, join_tags, tags_of
from rvlook.symbolic.words import not_, operation

if TYPE_CHECKING:
    from rvlook.symbolic.bounds import Assumed
    from rvlook.symbolic.facts import WordAt
    from rvlook.symbolic.search import Search
    from rvlook.symbolic.state import State

# Limits of the search for a measure: a word that changes in one direction, which shows that a loop ends (`ranks`).
MAX_MEASURED_WORDS = 40  # words that are tried for one loop
MAX_WORDS_BETWEEN_LOOPS = 24  # words that are tried for the ways from one loop to another
MAX_MEASURE_OPERATIONS = 1000  # operations in the value of a word that is tried
QUERY_TIMEOUT_MS = 1000  # milliseconds of a query about measures
# A bound is given up after a sum of drops (`Merged.drops`). If a round of the loop itself drops it, that adds OWN_ROUND_WEIGHT. A path from another
# loop adds 1, since this path may follow the bounds of its own loop.
OWN_ROUND_WEIGHT = 3
MAX_DROPS = {UPPER_BOUND: 3 * OWN_ROUND_WEIGHT, SUM_BOUND: OWN_ROUND_WEIGHT, LOWER_BOUND: 2 * OWN_ROUND_WEIGHT}  # the largest sums that are allowed


class LoopMerger(Merger):
    """Merges paths at one head of a loop."""
    max_drops = MAX_DROPS

    def __init__(self, search: Search, prefix: str) -> None:
        super().__init__(search)
        self.prefix = prefix  # the name of the head, with which the names of its unknowns begin
        self.zeros = ()  # no register is 0 at a head

    # ---- joining paths

    def begin_head(self, head: Head, state: State) -> None:
        """Sets a new head to the state of the first path that arrives there. Dead bytes, and the bytes that an earlier head at this place had as
        unknowns, are unknowns from the beginning on."""
        head.cells = dict(raw_cells(state))
        head.region_bytes = bytes(state.region_bytes)
        head.tags = tags_of(state, self.zeros)
        dead = self.dead_places(state)
        for at in dead | head.hints.unknown:
            any_value = self.taint_at(state, head.cells.get(at, 0)), None
            head.cells[at] = any_value
        head.tags.update((at, LOST) for at in dead if isinstance(at, int) and not at & 3)  # words of memory
        self.note_unknowns(head)
        head.conditions = state.conditions[:]
        head.public = set(state.public)
        self.note_loads(head, state)
        self.update_facts(head, state, assumed=None, old_cells={}, loop_mask=0)

    def join_path(self, head: Head, state: State) -> bool:
        """Merges a further path that arrives at a head into the merged state of the head. Returns whether the merged state changed."""
        assumed = self.assumed(head)
        old_cells = dict(head.cells)
        head.equations.update(dict.fromkeys(comparisons(state.conditions)))
        new_cells = {at: self.loop_cell(head, state, at, content) for at, content in raw_cells(state)}
        is_changed = self.join_cells(head, new_cells, bytes(state.region_bytes))
        is_changed = join_tags(head.tags, tags_of(state, self.zeros)) or is_changed
        is_changed = self.complete_unknown_words(head, state) or is_changed
        self.note_unknowns(head)
        is_changed = self.drop_nodes_of_unknowns(head) or is_changed
        new_conditions = set(state.conditions)
        conditions = [condition for condition in head.conditions if condition in new_conditions and not mask_of(condition) & head.unknown_mask]
        public = {node for node in head.public & state.public if not mask_of(node) & head.unknown_mask}
        is_changed = is_changed or len(conditions) < len(head.conditions) or len(public) < len(head.public)
        head.conditions = conditions
        head.public = public
        is_changed = self.update_facts(head, state, assumed, old_cells, head.unknown_mask) or is_changed
        is_changed = self.note_loads(head, state) or is_changed
        if is_changed:
            self.search.loops.is_final = False
        elif self.search.loops.is_final:
            self.rank(head, state)
        return is_changed

    def dead_places(self, state: State) -> Set[Place]:
        """Returns the places of dead bytes: no instruction reads them before they are written. These are bytes of registers, and of words below the
        top of a stack. In U-mode, sepc, scause and stval are also dead, since the next trap sets them."""
        live = self.search.indices.live(state.pc)
        names = ["x%d" % n for n in range(1, 32) if n != SP and n not in live]
        if not state.mode:
            names += ["c%x" % n for n in (SEPC, SCAUSE, STVAL)]
        dead: Set[Place] = {"%s_%d" % (name, n) for name in names for n in range(4)}
        words = self.search.written | self.search.written_before
        return dead.union(at + n for at in words if self.is_popped(state, at) for n in range(4))

    def is_popped(self, state: State, at: int) -> bool:
        """Returns whether the byte at an address was popped: it is in a stack, below the stack pointer. The stacks are that of sp, and that of the
        other mode, whose stack pointer is in sscratch."""
        for sp in (state.regs[SP], state.csr[SSCRATCH]):
            if type(sp) is int:
                bottom, top = self.search.extents.stack_of(sp)
                if bottom <= at < sp <= top:
                    return True
        return False

    @staticmethod
    def taint_at(state: State, content: Byte) -> int:
        """Returns the taint of the unknown that replaces a byte of a state."""
        return taint_of(state, content) if type(content) is Node else INPUT

    def loop_cell(self, head: Head, state: State, at: Place, content: Byte) -> Cell:
        """Returns the byte `content` at a place of a state as a cell. A byte that depends on unknowns of this loop becomes an unknown with any value,
        unless it is the unknown of this very place."""
        if type(content) is Node and mask_of(content) & head.unknown_mask and not self.is_unknown_of(head, at, content):
            return taint_of(state, content), None
        return content

    def complete_unknown_words(self, head: Head, state: State) -> bool:
        """Makes all bytes of a computed word unknown if one of them may have any value: in a later round, a carry would change the other bytes too.
        Returns whether a cell changed."""
        cells_before = dict(head.cells)
        for at in self.candidates(head):
            present = self.present_word(state, at)
            if type(present) is not Node or present.op == "word":
                continue
            places = bytes_at(at)
            cells = [head.cells.get(place, 0) for place in places]
            if any(type(cell) is tuple and cell[1] is None for cell in cells):
                for place, cell in zip(places, cells):
                    head.cells[place] = unknown_taint(cell), None
        return any(head.cells[at] != cells_before.get(at) for at in head.cells)

    def note_unknowns(self, head: Head) -> None:
        """Adds the variables of the unknowns of a head to `head.unknown_mask`."""
        for at, cell in head.cells.items():
            if type(cell) is tuple:
                head.unknown_mask |= variable(name_of(head.prefix, at, cell[0]), cell[0]).mask or 0

    def drop_nodes_of_unknowns(self, head: Head) -> bool:
        """Replaces each node that depends on an unknown of this loop by an unknown, until there is no such node. Returns whether there was one."""
        is_changed = False
        has_new_unknown = True
        while has_new_unknown:
            has_new_unknown = False
            for at, cell in head.cells.items():
                if type(cell) is Node and mask_of(cell) & head.unknown_mask:
                    head.cells[at] = cell.taint, None
                    has_new_unknown = True
                    is_changed = True
            self.note_unknowns(head)
        return is_changed

    # ---- loads of the window

    def note_loads(self, head: Head, state: State) -> bool:
        """Adds the loads of a path to those of a head, and sets the model of the head to that of the path. Returns whether there are new loads."""
        new_loads = [load for load in state.symbolic_fetches if load not in head.symbolic_fetches]
        fixed = [load for load in new_loads if not has_variables(load, head.unknown_mask)]
        moving = [load for load in new_loads if has_variables(load, head.unknown_mask)]
        is_range_changed, fetched = self.note_moving_loads(head, state, moving)
        has_first_load = state.input_count > 0 and not head.input_count
        is_changed = is_range_changed or len(fetched) > len(head.fetched) or bool(fixed) or has_first_load
        head.fetched = fetched
        head.input_count = max(head.input_count, state.input_count)
        head.symbolic_fetches = head.symbolic_fetches + fixed
        head.model = dict(state.model)
        return is_changed

    def note_moving_loads(self, head: Head, state: State, moving: List[SymbolicFetch]) -> Tuple[bool, Dict[int, Tuple[int, int]]]:
        """Extends the range of a head (`Sweep`) by the loads of a path that are at another place in each round. These are the loads at expressions
        (`moving`), and the loads at numbers in a first round. Returns whether the range changed. Also returns the other loads at numbers, by
        address."""
        fetched = {**head.fetched, **state.fetched}
        is_own_round = self.is_own(state)
        if not moving and not is_own_round:
            return False, fetched  # the path comes from outside the loop
        moving = [load for load in moving if load not in head.range_explored]
        first_round: List[SymbolicFetch] = []
        if is_own_round:
            first_round = [SymbolicFetch(at, 1, *site) for at, site in state.fetched.items() if at not in head.fetched]
        word_before = self.merged_word_reader(head, head.explored, head.facts_explored)

        def implied(condition: Condition) -> bool:
            return self.implied(state, condition)
        sweep = head.sweep.extended(moving + first_round, head.facts, word_before, state, implied)
        if not sweep.is_lost:
            fetched = {at: site for at, site in fetched.items() if at in head.fetched or not is_own_round}
        elif first_round:  # no range includes the loads of the first round, so these stay loads at numbers
            sweep = head.sweep.extended(moving, head.facts, word_before, state, implied)
        if sweep.is_lost:
            pc, _ = sweep.site
            self.search.note(("reread", pc), INDEX_MAY_MEET)
            self.search.rereads.append(pc)
        is_changed = sweep.last_words != head.sweep.last_words
        head.sweep = sweep
        return is_changed, fetched

    # ---- states to explore

    def assumed(self, merged: Merged) -> Assumed:
        """Returns the conditions of a merged state, and a model for which they hold."""
        assert isinstance(merged, Head)
        conditions, model = super().assumed(merged)
        return merged.conditions + conditions, {**merged.model, **model}

    def state_to_explore(self, merged: Merged) -> State:
        """Returns the state with which a path begins that explores the loop for another round."""
        assert isinstance(merged, Head)
        self.rounds += 1
        merged.is_queued = False
        merged.explored = dict(merged.cells)
        merged.facts_explored = merged.facts[:]
        self.search.loops.drop_inner_heads(self.prefix, merged)
        state = merged.state.fork(merged.state.pc, is_again=True)
        begin(state, START_MERGED_LOOP)
        state.conditions = list(merged.conditions)
        state.public = set(merged.public)
        state.model = dict(merged.model)
        state.input_count = merged.input_count
        state.fetched = dict(merged.fetched)
        state.start_head = state.pc
        merged.range_explored = merged.sweep.entry(merged.facts, self.merged_word_reader(merged, merged.cells))
        state.symbolic_fetches = merged.symbolic_fetches + merged.range_explored
        state.source_head = self.prefix
        state.pending_outputs = merged.state.pending_outputs
        self.set_contents(state, merged)
        self.note_unknowns(merged)
        return state

    # ---- facts

    def is_own(self, state: State) -> bool:
        """Returns whether a path is a round of this loop: the last head that it has passed is this one."""
        return state.source_head == self.prefix

    def drop_weight(self, state: State) -> int:
        """Returns what is added to `Merged.drops` for each bound that a path drops."""
        return OWN_ROUND_WEIGHT if self.is_own(state) else 1

    def may_have_facts(self, merged: Merged, at: Place, wanted: Optional[Set[MergedPlace]]) -> bool:
        """Returns whether a byte may have facts. It may if it belongs to a register that is read later, to a word that is loaded, or to a place on
        which a doubt depends. Locals of a call that has returned have no facts. A merged state without a fact includes more values, so it still
        includes each path."""
        if isinstance(at, str):
            return not at.startswith("x") or int(at[1:].split("_")[0]) in self.search.indices.live(merged.state.pc)
        if self.is_popped(merged.state, at):
            return False
        aligned = at & -4
        member = self.search.extents.member_at(at) if at < self.search.world.objects.stack else None
        if member:
            is_word = (member.element or member.size) >= 4
        else:
            is_word = aligned in self.search.stored_words
        is_read = aligned in self.search.loaded
        if is_word and not is_read:
            self.search.unread.add(aligned)
        return (is_word and is_read) or at in self.search.wanted_places

    def widen(self, merged: Merged, state: State, dropped: Set[Fact]) -> None:
        """Drops the wider bounds of a word that a round would not keep either, after a bound of this word was dropped. A bound is kept if a word that
        fulfils it before the round fulfils it after the round. This finds the least bound that stays at once, and not bound by bound in as many
        rounds."""
        assert isinstance(merged, Head)
        word_before = self.merged_word_reader(merged, merged.explored, merged.facts_explored)  # when the round began
        word_after = word_reader(state)
        growing = {fact._replace(bound=0) for fact in (*merged.facts, *dropped) if fact.kind == UPPER_BOUND and merged.drops[without_bound(fact)]}
        # The conditions that bound growing words by numbers. They are not assumed, since `exceeding_value` assumes another bound.
        bounds = {condition_of(fact._replace(bound=number), word_before) for fact in growing for number in self.bounds.limits.numbers}
        old_bounds = [fact for fact in dropped if fact.kind == UPPER_BOUND and type(fact.bound) is int and type(word_before(fact.x)) is Node]
        if not self.is_own(state):  # a path that does not depend on the unknowns of the head does not begin with the word that it has here
            old_bounds = [fact for fact in old_bounds if mask_of(word_after(fact.x)) & merged.unknown_mask]
        words = [word_at(fact.x) for fact in old_bounds for word_at in (word_before, word_after)]
        session = Session(self.search.solver, [condition for condition in state.conditions if condition not in bounds], words, state.model)
        for old_bound in old_bounds:
            wider = [fact for fact in merged.facts if without_bound(fact) == without_bound(old_bound) and type(fact.bound) is int]
            wider.sort(key=lambda fact: fact.bound)
            lost_count = 0  # how many of these are dropped, the least first
            while lost_count < len(wider):
                value = self.exceeding_value(session, wider[lost_count], word_before, word_after)
                if value is None:
                    break
                first_kept = next((n for n, fact in enumerate(wider) if fact.bound >= value), len(wider))
                lost_count = max(lost_count + 1, first_kept)
            merged.facts = [fact for fact in merged.facts if fact not in wider[:lost_count]]

    def exceeding_value(self, session: Session, bound: Fact, word_before: WordAt, word_after: WordAt) -> Optional[int]:
        """Returns a value above a bound that the word may have after a round, although the word fulfilled the bound before the round. Returns None if
        z3 finds no such value."""
        if self.search.is_late():
            return None
        answer = session.satisfiable(all_of(condition_of(bound, word_before), not_(condition_of(bound, word_after))))
        return session.value_of(operation("add", word_after(bound.x), bound.offset)) if answer else None

    # ---- whether the loop ends

    def rank(self, head: Head, state: State) -> None:
        """Records for a path which words have changed in one direction, to show that the loop ends (`ranks`). The changes count from the last time at
        this head, from the head at which the path begins, and from the heads around that head."""
        if state.source_head is None:
            return
        source = state.source_head
        candidates = self.candidates(head)
        is_related = source == self.prefix or bool(mask_of_all(state.conditions) & head.unknown_mask)
        word_at_head = self.merged_word_reader(head, head.cells)
        arrival = Edge(source, self.prefix, *self.directions(head, state, word_at_head, candidates if is_related else []))
        head.arrivals.append(arrival)
        edges: Dict[str, Edge] = {}
        if source == self.prefix:
            edges[source] = arrival
        else:
            indices: List[Place] = ["x%d" % n for n in self.search.indices.of(state.entry, state.pc)]
            for name in [source, *self.search.loops.heads_around(source, state)]:
                word_before, places = self.search.loops.words_before(name)
                tried = list(dict.fromkeys([*indices, *candidates, *places]))[:MAX_WORDS_BETWEEN_LOOPS]
                edges[name] = Edge(name, self.prefix, *self.directions(head, state, word_before, tried))
        head.passages.append(Passage(source, edges))

    def directions(self, head: Head, state: State, word_before: Callable[[Place], Word],
                   places: Sequence[Place]) -> Tuple[Set[Measure], Set[Measure]]:
        """Returns the measures that have changed in their direction up to a state, and those that have changed so or stayed the same. `places` are
        those of the words that are tried, and `word_before` returns the word at a place before. Long values are left out."""
        changes = [(at, word_before(at), self.present_word(state, at)) for at in places]
        changes = [(at, before, now) for at, before, now in changes if weight_of(now) <= MAX_MEASURE_OPERATIONS]
        words = [word for _, before, now in changes for word in (before, now)]
        session = Session(self.search.solver.within(QUERY_TIMEOUT_MS), state.conditions, words, state.model)
        return directions(changes, head.equations, lambda conditions: session.implied(conditions, self.search.is_late))

    def implied(self, state: State, condition: Condition) -> bool:
        """Returns whether the conditions of a path imply another condition. Asks the solver only if the condition holds in the model."""
        if condition is True or not state.holds(condition):
            return condition is True
        can_fail, _ = self.search.solver.satisfiable(state.conditions, not_(condition), state.model)
        return can_fail is False

    def candidates(self, head: Head) -> List[Place]:
        """Returns the registers and words of memory that have an unknown byte and may have facts: the registers first, and at most
        MAX_MEASURED_WORDS."""
        places = [at for at, cell in head.cells.items() if type(cell) is tuple and self.may_have_facts(head, at, None)]
        words: Set[Place] = {at.split("_")[0] if isinstance(at, str) else at & -4 for at in places}
        without_csrs = [at for at in words if isinstance(at, int) or not at.startswith("c")]
        return sorted(without_csrs, key=lambda at: (isinstance(at, int), str(at)))[:MAX_MEASURED_WORDS]

    @staticmethod
    def present_word(state: State, at: Place) -> Word:
        """Returns the word at a place of a state: an address, or a register such as "x10"."""
        return state.load(at, 4, is_signed=False) if isinstance(at, int) else state.regs[int(at[1:])]


def unknown_taint(cell: Cell) -> int:
    """Returns the taint of the unknown that replaces a cell."""
    if type(cell) is tuple:
        return cell[0]
    return cell.taint if type(cell) is Node else INPUT
