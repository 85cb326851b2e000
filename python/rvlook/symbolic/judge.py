"""Questions about steps: double fetches, traps, jumps, and stores to code."""
from __future__ import annotations

from typing import Dict, List, NamedTuple, Sequence, Set, Tuple, TYPE_CHECKING

from rvlook.protocol.names import MARKS
from rvlook.symbolic.conditions import all_of, any_of, differ, eq, overlap, within
from rvlook.symbolic.evaluation import evaluate
from rvlook.symbolic.fields import CODE_CHANGED, FINDING_REPORTED, PathEnded, SymbolicFetch
from rvlook.symbolic.nodes import M32, Condition, Node, Word
from rvlook.symbolic.origins import How
from rvlook.symbolic.leaving import Leaving
from rvlook.symbolic.words import not_

if TYPE_CHECKING:
    from rvlook.symbolic.extents import Extents
    from rvlook.symbolic.instructions import Step
    from rvlook.symbolic.origins import Tag
    from rvlook.symbolic.fields import AnyState as State

Place = Tuple[int, int]  # the pc of an instruction, and its call context
Bounds = Tuple[int, int]  # the first address of an object, and its end
# Causes of traps: values of scause (Privileged ISA).
ILLEGAL = 2  # illegal instruction
ECALL = 8  # ecall in U-mode
ASSUMPTION = MARKS["4153000b"]  # the mark of an `assume` in the enclave that does not hold
CONSOLE_STATE = 16  # bytes before the text of a console (examples/shared/console.h)
# Why the question whether a byte is loaded twice is not decided.
MAY_BE_POLLING = "one instruction loads a byte again, as a loop that waits does"
INDEX_MAY_MEET = "an index of the host may lead to a byte that was loaded before"


class EarlierLoad(NamedTuple):
    """A load of the window before another load in one activation."""
    overlaps: Condition  # whether the two loads have a byte in common
    site: Place  # the earlier load
    joined: Tuple[Node, ...] = ()  # if only one of several joined paths made the earlier load: the conditions of that path


class Judge(Leaving):
    """A search that asks about steps."""
    extents: Extents

    def __init__(self) -> None:
        super().__init__()
        self.code: Dict[int, Step] = {}  # the functions of the instructions that were executed, by pc
        self.is_outgrown = False  # whether another search has to begin with what this search knows
        # ---- words of the region, by the address of the word
        self.written: Set[int] = set()  # words to which any path stores
        self.written_before: Set[int] = set()  # words to which a path of an earlier search stores
        self.stored_words: Set[int] = set()  # words that a path stores as a whole, and not only byte by byte
        self.loaded: Set[int] = set()  # words that any path loads
        self.unread: Set[int] = set()  # words without facts in a merged state, since no path had loaded them
        # ---- the objects of accesses
        self.saved: Dict[int, Set[int]] = {}  # the addresses at which a call saves registers, by the number of the call
        self.usual_moves: Set[Tuple[int, int]] = set()  # context and pc of accesses that leave a member in the run itself
        self.usual_members: Set[Tuple[int, int, int]] = set()  # context and pc of an access, and a member that it reaches in the run itself
        self.reached_objects: Set[Tuple[int, Bounds]] = set()  # the pc of an access, and an object that it reaches
        self.reached_variables: Dict[Tuple[int, int], Bounds] = {}  # the first variable that an access reaches, by its pc and the base of its origin
        self.allowed: Dict[int, Set[str]] = {}  # what is not known about accesses that only --allow makes right, by pc
        # ---- other answers
        self.assumptions: Set[int] = set()  # the pcs of assumptions of the enclave that some input does not fulfil
        self.not_assumed: Set[int] = set()  # the pcs of assumptions that the run itself does not fulfil
        self.rereads_seen: Set[Tuple[Place, Place]] = set()  # pairs of loads that load the same byte in one activation

    # ---- accesses

    def doubt_access(self, what: str, state: State, reason: str) -> bool:
        """Records an access that the object rule (`accesses`) does not decide, and why. The question is not decided unless --allow names the
        instruction. Returns whether --allow names it."""
        if not self.world.allowed.has(state.pc):
            self.doubt(what, state, reason)
            return False
        if not self.is_trial:
            self.allowed.setdefault(state.pc, set()).add(reason)
        return True

    # ---- code

    def note_written(self, state: State, at: int, width: int, is_word: bool) -> None:
        """Notes a store of `width` bytes to the region, as a word if `is_word`. A store to an instruction that any path executes ends this path, and
        the search is not complete."""
        for place in range(at & -4, at + width, 4):
            self.written.add(place)
            if is_word:
                self.stored_words.add(place)
            if place in self.code and not self.is_trial:
                self.changed_code.add(state.pc)
                raise PathEnded(CODE_CHANGED)

    def note_loaded(self, low: int, high: int) -> None:
        """Notes a load of the region from `low` up to before `high`. If a merged state has no facts about one of its words, the next search has to
        propose them from the beginning on."""
        new = set(range(low & -4, high, 4)) - self.loaded
        self.loaded |= new
        if not new.isdisjoint(self.unread):
            self.is_outgrown = True

    # ---- the window

    def is_given(self, at: int, width: int) -> bool:
        """Returns whether bytes of the window are those of the run itself (--given)."""
        given = self.world.given
        return given is not None and all(given.has(at + n) for n in range(width))

    def is_console(self, at: int, width: int) -> bool:
        """Returns whether bytes of the window are the state of a console. A program loads from there how much it has printed, so a second load of
        them is no double fetch."""
        console = self.world.symbols.by_name.get("window_console")
        return console is not None and console.address <= at and at + width <= console.address + CONSOLE_STATE

    def note_fetch(self, state: State, place: Word, width: int, names: Sequence[Tuple[int, str]]) -> None:
        """Records a load of the window, and asks whether this activation has loaded one of its bytes before. `place` is the address, a number or an
        expression. `names` has an offset and the name of a variable for each loaded byte."""
        if self.options.calm:
            return
        if type(place) is int and self.is_console(place, width):
            return
        site = state.pc, state.context
        if type(place) is int:
            for n, _ in names:
                first_site = state.fetched.setdefault(place + n, site)
                is_first_load = first_site is site
                if not is_first_load:
                    self.fetched_again(state, first_site, place + n, state.model)
        if (type(place) is not int or state.symbolic_fetches) and ("reread", state.pc) not in self.findings:
            self.ask_overlap(state, place, width)
        if type(place) is not int:
            state.symbolic_fetches.append(SymbolicFetch(place, width, *site))

    def fetched_again(self, state: State, first_site: Place, at: int, model: Dict[str, int]) -> None:
        """Reports a double fetch: the byte of the window at the address `at` is loaded a second time in an activation. `first_site` is the earlier
        load. If the same instruction loads the byte twice, the question is not decided, since the instruction may be in a polling loop."""
        site = state.pc, state.context
        if self.is_trial:
            return
        if not state.is_merged:
            if (first_site, site) in self.rereads_seen:
                return
            self.rereads_seen.add((first_site, site))
        if first_site == site:
            self.doubt("reread", state, MAY_BE_POLLING)
        else:
            first_pc, _ = first_site
            self.report("reread", state, "loads %08x again, which %s has loaded" % (at, self.world.place(first_pc)), model)

    def ask_overlap(self, state: State, place: Word, width: int) -> None:
        """Asks whether a load has a byte in common with an earlier load, if one of the two is at an expression. `place` is the address of the new
        load. If the two always have a common byte, that is a double fetch. If they have one only for some inputs, the question is not decided. A
        pointer of the host may lead to any byte, so it is neither."""
        earlier = [EarlierLoad(overlap(place, width, old.at, old.width), (old.pc, old.context), old.joined) for old in state.symbolic_fetches]
        if type(place) is not int:
            earlier += [EarlierLoad(within(place, low - width + 1, high - 1), site) for low, high, site in ranges_of(state.fetched)]
        earlier = [load for load in earlier if load.overlaps is not False]
        for joined in sorted({load.joined for load in earlier}, key=len):  # one question for each group of joined paths
            loads_of_group = [load for load in earlier if set(load.joined) <= set(joined)]
            self.ask_overlap_of(state, place, loads_of_group, all_of(*joined))

    def ask_overlap_of(self, state: State, place: Word, earlier: List[EarlierLoad], joined: Condition) -> None:
        """Asks whether a load has a byte in common with one of the loads `earlier`. Only those of the joined paths count for which the condition
        `joined` holds."""
        site = state.pc, state.context
        has_common_byte = any_of(*(load.overlaps for load in earlier))
        can_overlap, model = self.solver.satisfiable(state.conditions, all_of(joined, has_common_byte), state.model)
        if can_overlap is False or ("reread", state.pc) in self.findings:
            return
        can_differ, _ = self.solver.satisfiable(state.conditions, all_of(joined, not_(has_common_byte)), state.model)
        if can_overlap is None or can_differ is None:
            self.undecided["reread", state.pc] += 1
        elif can_differ is False:
            memo: Dict[Node, object] = {}
            overlapping_sites = [load.site for load in earlier if evaluate(load.overlaps, model, memo)]
            first_site = next((other for other in overlapping_sites if other != site), overlapping_sites[0])
            self.fetched_again(state, first_site, evaluate(place, model, memo), model)
        elif state.has_origin():
            self.doubt("reread", state, INDEX_MAY_MEET)

    # ---- traps and jumps

    def note_trap(self, state: State, cause: int, value: Word) -> None:
        """Reports a trap of the enclave. `cause` is the value of scause, and `value` is that of stval. An `ecall` is no finding. An illegal
        instruction may be a mark of enclave_check.h, whose word is `value`. A failed check is a finding, and a failed assumption ends the path."""
        mark = MARKS.get("%08x" % value) if cause == ILLEGAL and type(value) is int else None
        if mark == ASSUMPTION:
            self.assumptions.add(state.pc)
            if state.is_base:
                self.not_assumed.add(state.pc)
            raise PathEnded("assumed")
        if mark:
            self.report("assertion", state, "the check fails", state.model)
        elif cause != ECALL:
            self.report("fault", state, "traps: cause %d, value %08x" % (cause, state.value(value)), state.model)

    def jump(self, state: State, target: Node, is_return: bool) -> int:
        """Asks about a jump to an address that is an expression. A return must have one target, and the target of another jump must be a function for
        all inputs. Otherwise the host chooses the target, which is reported. Returns the address at which this path goes on."""
        what = "return" if is_return else "jump"
        if (what, state.pc) not in self.findings:
            are_functions: List[Condition] = [eq(target, entry) for entry in sorted(self.world.functions)]
            if is_return:
                is_wrong_target = differ(target, state.value(target))
            else:
                is_wrong_target = all_of(*(not_(is_function) for is_function in are_functions))
            answer, model = self.solver.satisfiable(state.conditions, is_wrong_target, state.model)
            if answer:
                self.report(what, state, "the host chooses the target: %08x" % evaluate(target, model), model)
            elif answer is None:
                self.undecided[what, state.pc] += 1
            if not answer:
                return state.concretize(target)
        if not state.is_base:
            raise PathEnded(FINDING_REPORTED)
        self.assumed_inside[state.pc] += 1
        state.assume(eq(target, state.value(target)))
        return state.value(target)

    def check_target(self, state: State, target: int, tag: Tag, offset: int) -> None:
        """Checks a jump to a number that is no return: the target must be a function, or an address that the program has computed as a constant. Else
        the question is not decided. `tag` is the origin of the register with the address, and `offset` is the immediate of the instruction."""
        if target in self.world.functions:
            return
        if tag is None or target not in (tag.base, tag.base + offset & M32):
            self.doubt("jump", state, "a target that is no function and no address of the program")
        elif tag.how in (How.FRAME, How.STACK) or target & 3:
            self.doubt("jump", state, "a target that is no instruction")


def ranges_of(fetched: Dict[int, Place]) -> List[Tuple[int, int, Place]]:
    """Returns loaded bytes as ranges: the first address, the end, and the load of all bytes of the range. `fetched` has the load of each byte, by
    address."""
    ranges: List[Tuple[int, int, Place]] = []
    for at in sorted(fetched):
        low, high, site = ranges[-1] if ranges else (at, at, None)
        if ranges and high == at and site == fetched[at]:
            ranges[-1] = low, at + 1, fetched[at]
        else:
            ranges.append((at, at + 1, fetched[at]))
    return ranges
