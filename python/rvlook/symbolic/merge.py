"""Merges the paths that stop at the same place, so that one activation is explored for any number of earlier ones.

A byte that differs between two paths, or depends on their inputs, becomes an unknown (`cells`): a new variable, with the set of its values if they
are few numbers. The conditions of the paths are dropped. A merged state includes all states that were merged, and more. A proof about it is a proof
about all of them, while a violation in it may be impossible in each of them.

A merged state also keeps *facts* (`facts`): bounds and relations of unknown words that hold in all states that were merged."""
from __future__ import annotations

from collections import Counter
from typing import Any, Counter as Counts, Dict, FrozenSet, List, NamedTuple, Optional, Sequence, Set, Tuple, TYPE_CHECKING

from rvlook.symbolic.bounds import word_reader, word_reader_of_bytes
from rvlook.symbolic.cells import (
    MAX_UNKNOWN_VALUES, Cell, byte_at, bytes_at, changed_bytes, is_unknown_word, name_of, raw_cells, sums_among, taint_and_values, taint_of,
    unknown_places, values_of)
from rvlook.symbolic.conditions import any_of, eq, is_same
from rvlook.symbolic.evaluation import evaluate
from rvlook.symbolic.facts import LOWER_BOUND, SUM_BOUND, UPPER_BOUND, active, form_of, hulls_of, sum_of, without_bound
from rvlook.symbolic.fields import START_MERGED_STOPS, SSTATUS
from rvlook.symbolic.nodes import CHECK, SECRET, Byte, Node, Word, mask_of, names_of, variable
from rvlook.symbolic.record import MergedPlace, merged_place, unknown_place
from rvlook.symbolic.relations import relations_of
from rvlook.symbolic.tags import Place, Tag, join_tags, set_tags, tags_of
from rvlook.symbolic.words import byte, plain, word

if TYPE_CHECKING:
    from rvlook.symbolic.bounds import Assumed
    from rvlook.symbolic.facts import Fact, WordAt, WordPlace
    from rvlook.symbolic.search import Search
    from rvlook.symbolic.state import State

MAX_CHANGES_OF_VALUES = 2  # how often the set of values of an unknown may change; after that, the unknown may have any value
MAX_DROPS = {UPPER_BOUND: 6, SUM_BOUND: 2, LOWER_BOUND: 2}  # by kind of bound: how often it may be dropped and replaced by a looser one
Key = Tuple[Any, ...]  # what the paths of a merged state have in common (`key_of`)
RESULTS = (10, 11)  # a0 and a1, which the monitor sets to 0 when the host resumes the enclave


class Merged:
    """A state that includes all paths which were merged into it. A cell that differs between the paths is an unknown (`cells`)."""

    def __init__(self, state: State, prefix: str) -> None:
        self.prefix = prefix  # the beginning of the names of its unknowns
        self.state = state  # the first path that was merged; it gives what is equal in all of them
        self.is_queued = False  # whether the merged state is to be explored
        # ---- bytes
        self.cells: Dict[Place, Cell] = {}  # the cells by place; the other bytes of the region are those of `region_bytes`
        self.region_bytes = b""  # the region of the first path
        self.tags: Dict[Place, Tag] = {}  # the origins of words, by place
        self.changes: Dict[Place, int] = {}  # how often the cell at a place has changed
        self.sample: Dict[Place, int] = {}  # the values of bytes in the state that was merged last
        self.sample_memory = b""  # the region of that state, for the bytes that `sample` does not have
        # ---- facts
        self.facts: List[Fact] = []  # hold in all states that were merged
        self.drops: Counts[Any] = Counter()  # how often a fact was dropped, each time with `drop_weight`; by all members of the fact but the bound
        self.considered: Set[Place] = set()  # unknown bytes about which facts were proposed
        self.tried: Set[Fact] = set()  # the facts that were proposed
        self.lost: FrozenSet[Fact] = frozenset()  # facts that are not proposed again, in the form that `form_of` returns


class FactPlaces(NamedTuple):
    """The places of the words of a merged state that may have facts."""
    new: Sequence[WordPlace]  # words that became unknown with the path that was merged last
    unknown: Sequence[WordPlace]  # all unknown words
    others: Sequence[WordPlace]  # words to which a fact may relate a new word


def key_of(state: State) -> Key:
    """Returns what paths must have in common to be merged. It includes sp and sstatus, the open calls with sp in each of them, and the arrays on the
    stack."""
    calls = tuple((call.back, call.sp) for call in state.open_calls())
    areas = tuple((area.low, area.high) for area in state.areas)
    return state.pc, state.mode, state.context, state.regs[2], state.csr[SSTATUS], calls, state.stack_bottom, areas


class Merger:
    """Merges the paths of a search that stop. A merged state has the paths that stop at the same place with the same calls (`key_of`)."""
    zeros: Tuple[int, ...] = RESULTS  # registers that are 0 in a merged state
    max_drops = MAX_DROPS  # a subclass has other limits

    def __init__(self, search: Search) -> None:
        self.search = search
        self.merged: Dict[Key, Merged] = {}  # the merged states by what their paths have in common
        self.by_prefix: Dict[str, Merged] = {}
        self.rounds = 0  # how often a merged state was explored
        self.bounds = search.bounds  # proposes facts and tests them
        self.constant_mask = 0  # the mask of the variables of secrets, which are the same in all activations
        for at in search.world.secret:
            self.constant_mask |= variable("k_%08x" % at, SECRET).mask or 0
        for at in search.world.check:
            self.constant_mask |= variable("c_%08x" % at, CHECK).mask or 0

    def merge(self, state: State) -> Optional[Merged]:
        """Merges a path that stops. Returns its merged state if that has to be explored again and is not queued yet."""
        key = key_of(state)
        merged = self.merged.get(key)
        tags = tags_of(state, self.zeros)
        if merged is None:
            merged = self.merged[key] = Merged(state.fork(state.pc + 4), "u%d" % len(self.merged))
            self.by_prefix[merged.prefix] = merged
            merged.cells = self.cells_of(merged, state)
            merged.region_bytes = bytes(state.region_bytes)
            merged.tags = tags
            is_changed = True
            self.update_facts(merged, state, assumed=None, old_cells={})
        else:
            assumed = self.assumed(merged)
            old_cells = dict(merged.cells)
            is_changed = self.join_cells(merged, self.cells_of(merged, state), bytes(state.region_bytes))
            is_changed = join_tags(merged.tags, tags) or is_changed
            is_changed = self.update_facts(merged, state, assumed, old_cells) or is_changed
        if not is_changed or merged.is_queued:
            return None
        merged.is_queued = True
        return merged

    # ---- cells

    def cells_of(self, merged: Merged, state: State) -> Dict[Place, Cell]:
        """Returns the bytes of a state as cells of a merged state, by place: all bytes of registers, and the bytes of the region that are
        expressions."""
        return {at: self.cell(merged, state, at, content) for at, content in raw_cells(state, RESULTS)}

    def cell(self, merged: Merged, state: State, at: Place, node: Byte) -> Cell:
        """Returns the byte `node` at a place of a state as a cell. It stays as it is if it is a number, the unknown of this very place, or depends on
        secrets alone. Any other expression becomes an unknown."""
        if type(node) is int or self.is_unknown_of(merged, at, node) or not mask_of(node) & ~self.constant_mask:
            return node
        values = self.values_at_another(node) if node.op == "var" else values_of(node)
        return taint_of(state, node), values

    def values_at_another(self, node: Node) -> Optional[FrozenSet[int]]:
        """Returns the values of a variable that is the unknown of another place, or None if the variable may have any value. If the unknown gets more
        values later, its merged state is explored again. The paths from there then bring the new values."""
        name = node.args[0]
        owner = self.by_prefix.get(name.partition("_")[0])  # the merged state whose unknown this is
        place = unknown_place(name)
        if owner is None or place is None:
            return None
        cell = owner.cells.get(place)
        return cell[1] if type(cell) is tuple else None

    @staticmethod
    def is_unknown_of(merged: Merged, at: Place, node: Node) -> bool:
        """Returns whether a node is the variable of the unknown at a place of a merged state."""
        return node.op == "var" and node.args[0] == name_of(merged.prefix, at, node.taint)

    def join_cells(self, merged: Merged, new: Dict[Place, Cell], region_bytes: bytes) -> bool:
        """Adds a state to the cells of a merged state. `new` has the cells of the added state, and `region_bytes` has its region. Returns whether the
        merged state changed."""
        cells = merged.cells
        base = self.search.world.region[0]
        places = [*cells, *(at for at in new if at not in cells)]
        places_with_cells = set(places)
        places += [at for at in changed_bytes(merged.region_bytes, region_bytes, base) if at not in places_with_cells]
        is_changed = False
        for at in places:
            old_cell = cells[at] if at in cells else byte_at(merged.region_bytes, base, at)
            new_cell = new[at] if at in new else byte_at(region_bytes, base, at)
            joined = self.join_cell(merged, at, old_cell, new_cell)
            if joined != old_cell:
                change_count = merged.changes[at] = merged.changes.get(at, 0) + 1
                has_any_value = change_count > MAX_CHANGES_OF_VALUES and type(joined) is tuple
                cells[at] = (joined[0], None) if has_any_value else joined
                is_changed = True
            elif at not in cells:
                cells[at] = joined
        return is_changed

    def join_cell(self, merged: Merged, at: Place, old: Cell, new: Cell) -> Cell:
        """Returns the cell that includes two cells for one place: `old` of the merged state, and `new` of a state that is merged with it."""
        if is_same(old, new):
            return old
        if type(new) is Node and self.is_unknown_of(merged, at, new):  # the path has not changed the unknown of this very place
            has_old_taint = type(old) is tuple and not new.taint & ~old[0]
            new = old if has_old_taint else (new.taint, None)
        old_taint, old_values = taint_and_values(old)
        new_taint, new_values = taint_and_values(new)
        values: Optional[FrozenSet[int]] = None
        if old_values is not None and new_values is not None and len(old_values | new_values) <= MAX_UNKNOWN_VALUES:
            values = old_values | new_values
        return old_taint | new_taint, values

    # ---- conditions of a merged state

    def assumed(self, merged: Merged) -> Assumed:
        """Returns the conditions of a merged state on its unknowns: their values and the facts. Also returns a model for which these hold."""
        conditions = [condition for at, cell in merged.cells.items() for condition in self.value_conditions(merged, at, cell)]
        return conditions + self.bounds.conditions(merged.facts, self.merged_word_reader(merged, merged.cells)), self.model_of(merged)

    def model_of(self, merged: Merged) -> Dict[str, int]:
        """Returns the model of a merged state: the values of its variables in the state that was merged last."""
        model = self.secret_values(merged)
        for at, cell in merged.cells.items():
            if type(cell) is tuple:
                model[name_of(merged.prefix, at, cell[0])] = self.sample_at(merged, at)
        return model

    @staticmethod
    def secret_values(merged: Merged) -> Dict[str, int]:
        """Returns the values of the variables of secrets in a merged state."""
        return {name: value for name, value in merged.state.model.items() if name.startswith(("k_", "c_"))}

    def sample_at(self, merged: Merged, at: Place) -> int:
        """Returns the value of a byte in the state that was merged last."""
        if at in merged.sample:
            return merged.sample[at]
        return byte_at(merged.sample_memory, self.search.world.region[0], at)

    @staticmethod
    def value_conditions(merged: Merged, at: Place, cell: Cell) -> List[Node]:
        """Returns the condition that a cell has one of its values, in a list. The list is empty if the cell is no unknown or may have any value."""
        if type(cell) is not tuple or not cell[1]:
            return []
        unknown = variable(name_of(merged.prefix, at, cell[0]), cell[0])
        condition = any_of(*(eq(word(unknown, 0, 0, 0), value) for value in sorted(cell[1])))
        return [condition] if type(condition) is Node else []

    def merged_word_reader(self, merged: Merged, cells: Dict[Place, Cell], facts: Optional[Sequence[Fact]] = None) -> WordAt:
        """Returns the function that returns the word at a place in a merged state with `cells`, and with `facts` in place of those that it has. If a
        fact says that a word is the sum of others, the function returns that sum."""
        base = self.search.world.region[0]

        def content_at(at: Place) -> Byte:
            cell = cells.get(at, merged.region_bytes[at - base] if isinstance(at, int) else 0)
            return variable(name_of(merged.prefix, at, cell[0]), cell[0]) if type(cell) is tuple else cell
        plain_word_at = word_reader_of_bytes(content_at)
        sums = sums_among(merged.facts if facts is None else facts, cells)

        def word_at(at: Place) -> Word:
            return sum_of(sums[at], word_at) if at in sums else plain_word_at(at)
        return word_at

    # ---- facts

    def update_facts(self, merged: Merged, state: State, assumed: Optional[Assumed], old_cells: Dict[Place, Cell],
                     loop_mask: Optional[int] = None) -> bool:
        """Drops the facts that a new state does not imply, and adds facts about words that became unknown with this state. `assumed` has the
        conditions of the merged state before, with the cells `old_cells`; it is None for the first state. `loop_mask` is the mask of the unknowns of
        a loop, None at a stop. Returns whether a fact was dropped."""
        merged.sample = {at: evaluate(content, state.model, state.memo) for at, content in raw_cells(state, self.zeros)}
        merged.sample_memory = bytes(state.region_bytes)
        if not self.search.means.loops_from:
            return False
        places = self.fact_places(merged, state, old_cells, loop_mask)
        old_facts = active(merged.facts)
        old_word_at = self.merged_word_reader(merged, old_cells) if assumed else word_reader(state)
        proposed = self.propose_facts(merged, places, old_word_at, loop_mask)
        if assumed:
            proposed = self.bounds.holding(assumed, proposed, old_word_at)
        merged.facts = self.bounds.holding((state.conditions, state.model), merged.facts + proposed, word_reader(state))
        dropped = set(old_facts) - set(merged.facts)
        if assumed and loop_mask is not None:
            lost = {*old_facts, *proposed} - set(merged.facts)
            merged.facts += self.bounds.holding(assumed, hulls_of(lost, word_reader(state), loop_mask), old_word_at)
        weight = self.drop_weight(state)
        merged.drops.update({without_bound(fact): weight for fact in dropped})
        merged.facts = [fact for fact in merged.facts if merged.drops[without_bound(fact)] <= self.max_drops.get(fact.kind, 0)]
        self.widen(merged, state, dropped)
        return bool(dropped)

    def fact_places(self, merged: Merged, state: State, old_cells: Dict[Place, Cell], loop_mask: Optional[int]) -> FactPlaces:
        """Returns the words of a merged state that may have facts. The arguments are those of `update_facts`. If a byte at a stop was unknown before,
        but may have facts only now, the search is outgrown: the next search proposes these facts from the first path on."""
        wanted = self.find_wanted_places(state) if loop_mask is None else None
        unknown = [at for at in unknown_places(merged.cells) if self.may_have_facts(merged, at, wanted)]
        unknown_before = {at for at in unknown if type(old_cells.get(at)) is tuple}
        if loop_mask is None and not unknown_before <= merged.considered:
            self.search.is_outgrown = True
        merged.considered |= set(unknown)
        words = self.bounds.places(unknown)
        words_before = set(self.bounds.places([at for at in unknown if at in unknown_before]))
        nodes = [at for at, cell in merged.cells.items() if type(cell) is Node and self.may_have_facts(merged, at, wanted)]
        others = words if loop_mask is None else words + self.bounds.places(nodes)
        return FactPlaces([at for at in words if at not in words_before], words, others)

    def propose_facts(self, merged: Merged, places: FactPlaces, word_at: WordAt, loop_mask: Optional[int]) -> List[Fact]:
        """Returns facts that may hold for the new words of a merged state. `word_at` returns the word at a place before these words became unknown.
        `loop_mask` is that of `update_facts`."""
        facts = self.bounds.candidates(places.new, places.others, word_at, merged.tags, loop_mask)
        facts = [fact for fact in facts if form_of(fact) not in merged.lost]
        solvable = [] if loop_mask is None else [at for at in places.unknown if is_unknown_word(merged.cells, at)]  # may be replaced by a sum
        relations = relations_of(places.new, solvable, places.others, word_at, merged.facts)
        facts += [fact for fact in relations if fact not in merged.lost]
        merged.tried |= set(facts)
        return facts

    def drop_weight(self, state: State) -> int:
        """Returns what is added to `Merged.drops` for each bound that a state drops. A loop weighs its own rounds more."""
        return 1

    def may_have_facts(self, merged: Merged, at: Place, wanted: Optional[Set[MergedPlace]]) -> bool:
        """Returns whether a byte of a merged state may have facts. At a stop, these are bytes of the places `wanted`."""
        if wanted is None:
            return True
        return (at.split("_")[0] if isinstance(at, str) else at) in wanted

    def widen(self, merged: Merged, state: State, dropped: Set[Fact]) -> None:
        """Drops further bounds that later rounds of a loop would drop one by one. Does nothing for a stop, which is not in a merged loop."""

    def find_wanted_places(self, state: State) -> Set[MergedPlace]:
        """Returns the places on whose bounds the decision of a question depends, and the places of the unknowns from which a state has computed the
        bytes there. Adds all of them to `wanted_places` of the search."""
        wanted: Set[MergedPlace] = set()
        new = set(self.search.wanted_places)
        while new:
            wanted |= new
            mask = 0  # the variables of the words and bytes at the new places
            for at in new:
                if isinstance(at, str):
                    mask |= mask_of(state.regs[int(at[1:])]) if at.startswith("x") else 0
                elif at in state.symbolic_bytes:
                    mask |= mask_of(plain(state.symbolic_bytes[at]))
            new = {place for place in map(merged_place, names_of(mask)) if place is not None} - wanted
        self.search.wanted_places |= wanted
        return wanted

    # ---- states to explore

    def state_to_explore(self, merged: Merged) -> State:
        """Returns the state with which a path begins that explores a merged state."""
        self.rounds += 1
        merged.is_queued = False
        state = merged.state.fork(merged.state.pc)
        state.conditions = []
        state.public = set()
        state.model = self.secret_values(merged)
        begin(state, START_MERGED_STOPS)
        self.set_contents(state, merged)
        return state

    def set_contents(self, state: State, merged: Merged) -> None:
        """Sets the bytes of a state to the cells of a merged state, and adds the facts as conditions."""
        state.region_bytes = bytearray(merged.region_bytes)
        state.symbolic_bytes = {}
        word_at = self.merged_word_reader(merged, merged.cells)
        bytes_of_sums: Dict[Place, Byte] = {}  # the bytes of words that are sums of other words by a fact
        for at in sums_among(merged.facts, merged.cells):
            bytes_of_sums.update((place, byte(word_at(at), n)) for n, place in enumerate(bytes_at(at)))
        contents: Dict[Place, Byte] = {}
        for at in merged.cells:
            contents[at] = bytes_of_sums[at] if at in bytes_of_sums else self.byte_of_cell(merged, state, at)
            if type(at) is int:
                state.put(at, contents[at])
        for number in range(1, 32):
            state.regs[number] = word(*(contents["x%d_%d" % (number, n)] for n in range(4)))
        for number in state.csr:
            state.csr[number] = word(*(contents["c%x_%d" % (number, n)] for n in range(4)))
        set_tags(state, merged.tags)
        state.conditions += self.bounds.conditions(merged.facts, word_at)

    def byte_of_cell(self, merged: Merged, state: State, at: Place) -> Byte:
        """Returns the byte for the cell at a place: for an unknown its variable. Adds the value of the variable to the model of a state, and the
        condition on its values to the conditions."""
        cell = merged.cells[at]
        if type(cell) is not tuple:
            return cell
        unknown = variable(name_of(merged.prefix, at, cell[0]), cell[0])
        state.model[unknown.args[0]] = self.sample_at(merged, at)
        state.conditions += self.value_conditions(merged, at, cell)
        return unknown


def begin(state: State, start_kind: int) -> None:
    """Makes a state the beginning of a path in a merged state. `start_kind` is START_MERGED_STOPS or START_MERGED_LOOP."""
    state.search.start_count += 1
    state.begin_path(start_kind, activation=1, start_number=state.search.start_count)
