"""The record of a search: its findings, the questions that it has not decided, and the paths that it has left out.

A *kind* of finding or doubt is a word such as `load` or `reread`; `questions.QUESTIONS` lists the kinds of each question."""
from __future__ import annotations

from collections import Counter
from dataclasses import dataclass, field, replace
from typing import Any, Counter as Counts, Dict, List, Optional, Set, Tuple, TYPE_CHECKING, Union

from rvlook.symbolic.fields import START_MERGED_LOOP
from rvlook.symbolic.history import history_of
from rvlook.symbolic.nodes import mask_of, names_of

if TYPE_CHECKING:
    from rvlook.symbolic.fields import AnyState as State, Answer, Load, Store
    from rvlook.symbolic.nodes import Node

LAST_CONDITIONS = 8  # a finding without an address is taken to depend on so many of the last conditions of its path
IN_MERGED = "only in a merged state: no sequence of activations is known that reaches it"
Key = Tuple[str, int]  # a kind and the pc of an instruction
MergedPlace = Union[int, str]  # a place in a merged state: the address of a byte, or a register such as "x10"


def unknown_place(name: str) -> Optional[MergedPlace]:
    """Returns the place of an unknown of a state that was merged at a stop, by the name of its variable. The place is the address of a byte, or a
    byte of a register such as "x10_0". Returns None for another variable."""
    if not name.startswith("u"):
        return None
    place = name.split("_", 2)[2]
    return place if "_" in place else int(place, 16)


def merged_place(name: str) -> Optional[MergedPlace]:
    """Returns the place of an unknown of a state that was merged at a stop, by the name of its variable. The place is the address of a byte, or a
    register such as "x10". Returns None for another variable."""
    place = unknown_place(name)
    return place.partition("_")[0] if isinstance(place, str) else place


@dataclass
class Counterexample:
    """A finding with the path that leads to it."""
    what: str  # the kind of the finding, such as "load"
    pc: int  # the instruction at which it was found
    text: str  # what was found; empty for kinds that have one text (`text.HEADINGS`)
    pcs: List[int]  # the pcs of the path, up to and with `pc`
    loads: List[Load]
    stores: List[Store]
    answers: List[Answer]
    one: Dict[str, int]  # the values of the variables that show the finding, by name
    two: Optional[Dict[str, int]]  # for a difference between two secrets: the values with the second secret
    conditions: List[Node] = field(default_factory=list)  # the conditions of the path
    address: Any = None  # the address that a load or store accesses, as an expression
    count: int = 1  # how often the finding was reported
    answer: str = ""  # the text of `confirm` about its replay; empty before the replay
    log: List[str] = field(default_factory=list)  # the commands of its replay, up to the last step

    def copy_without_stores(self) -> Counterexample:
        """Returns the finding without its stores, which differ with another secret."""
        return replace(self, stores=[])

    @property
    def is_confirmed(self) -> bool:
        """Returns whether a replay showed the finding."""
        return self.answer.startswith("confirmed")


class Record:
    """The results of a search. The results of a trial are dropped."""

    def __init__(self) -> None:
        self.is_trial = False  # whether the present steps are a trial with the values of one model
        self.findings: Dict[Key, Counterexample] = {}  # the first finding of each kind at each instruction
        self.undecided: Counts[Key] = Counter()  # how often a question of a kind was not decided at an instruction
        self.reasons: Dict[Key, Set[str]] = {}  # why it was not decided, as far as that is known
        self.rereads: List[int] = []  # the pcs of doubts about loads in merged loops
        self.wanted_places: Set[MergedPlace] = set()  # places of merged states whose bounds decide a question
        # ---- which paths are left out, by the pc of an instruction
        self.left_after_leak: Counts[int] = Counter()  # after an instruction that leaks the secret: paths of other secrets
        self.cut_loops: Counts[int] = Counter()  # after a branch: more rounds of its loop than --bound
        self.words_with_many_values: Counts[int] = Counter()  # after an instruction: further values of a word that is followed value by value
        self.assumed_inside: Counts[int] = Counter()  # after a finding: paths on which the access leaves its object
        self.end_counts: Counts[str] = Counter()  # how many paths ended, by the reason (`fields`)
        # ---- assumptions that were used
        self.changed_code: Set[int] = set()  # pcs that change code, or that were changed
        self.stores_to_given: Set[int] = set()  # pcs that store to bytes of --given
        self.lengths_met: Set[int] = set()  # the addresses of --length that were loaded

    def report(self, what: str, state: State, text: str, one: Dict[str, int], two: Optional[Dict[str, int]] = None) -> None:
        """Adds a finding of the kind `what` at the pc of a state, once for each kind and instruction. `text` says what was found. `one` has values of
        the variables that show the finding, and `two` those with a second secret. In a merged state, the question is not decided instead."""
        key = what, state.pc
        if self.is_trial:
            return
        if state.is_merged:
            self.note_wanted(state, what)
            if key not in self.findings:
                self.note(key, "%s: %s" % (text, IN_MERGED) if text else IN_MERGED)
            return
        earlier = self.findings.get(key)
        if earlier:
            earlier.count += 1
            return
        address = state.access_address() if what in ("load", "store") else None
        history = history_of(state, one)
        second = dict(two) if two else None
        self.findings[key] = Counterexample(what, state.pc, text, [*history.pcs, state.pc], history.loads, history.stores, history.answers, dict(one),
                                            second, state.conditions[:], address)

    def note_wanted(self, state: State, what: str) -> None:
        """Notes the places of a merged state on which a finding depends: the variables of the accessed address, and of all conditions that share a
        variable with it. A finding without an address depends on the last conditions."""
        address = state.access_address() if what in ("load", "store") else None
        mask = mask_of(address) if address is not None else 0
        if not mask:
            for condition in state.conditions[-LAST_CONDITIONS:]:
                mask |= mask_of(condition)
        for condition in [condition for condition in state.conditions if mask_of(condition) & mask]:
            mask |= mask_of(condition)
        self.wanted_places |= {place for place in map(merged_place, names_of(mask)) if place is not None}

    def doubt(self, what: str, state: State, reason: str) -> None:
        """Notes that a question of a kind is not decided at the pc of a state, and why."""
        if not self.is_trial:
            self.note((what, state.pc), reason)
            if what == "reread" and state.start_kind == START_MERGED_LOOP:
                self.rereads.append(state.pc)

    def forget_rereads(self) -> None:
        """Drops the doubts about loads in merged loops, before these loops are explored for the last time. Only then does the search know which
        ranges of the window the rounds load."""
        for pc in self.rereads:
            self.undecided["reread", pc] -= 1
            if not self.undecided["reread", pc]:
                del self.undecided["reread", pc], self.reasons["reread", pc]
        self.rereads = []

    def note(self, key: Key, reason: str) -> None:
        """Notes that a question of a kind is not decided at an instruction, and why."""
        self.undecided[key] += 1
        self.reasons.setdefault(key, set()).add(reason)
