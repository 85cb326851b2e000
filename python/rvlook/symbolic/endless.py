"""Endless loops: the state of a path repeats without an input in between. It then repeats for all inputs for which the conditions of the path hold.

Expressions are compared as they are. A loop whose state repeats only as numbers is found by a trial with the values of one model."""
from __future__ import annotations

from hashlib import blake2b
from typing import Any, Dict, List, NamedTuple, Set, Tuple, TYPE_CHECKING

from rvlook.symbolic.fields import FINDING_REPORTED, PathEnded
from rvlook.symbolic.words import plain

if TYPE_CHECKING:
    from rvlook.symbolic.fields import AnyState
    from rvlook.symbolic.search import Search

# A trial executes a loop with the values of one model, to see whether the loop ends.
TRIALS = 8  # the most trials of one loop
TRIAL_STEPS = 20000  # the most steps of a trial
TRIAL_ROUNDS = (8, 16, 32)  # the rounds of a loop after which trials are made; another trial is made after --bound rounds
FINAL_STEPS = 2000  # how many steps a long path is followed further, to see whether its state repeats


class Mark(NamedTuple):
    """The state of a path at a branch, to compare it with the state at the same branch later."""
    regs: List[Any]  # x0 to x31
    counts: Tuple[int, int]  # the numbers of inputs and of activations so far
    rest: Any  # the state without x0 to x31 (`rest_of`); None if the registers had other values the time before


def rest_of(state: AnyState) -> Tuple[Any, ...]:
    """Returns the state of a path without x0 to x31: a digest of memory, the window as it is known, the mode, and the registers of S-mode."""
    digest = blake2b(state.region_bytes).digest()
    return digest, frozenset(state.symbolic_bytes.items()), frozenset(state.calm_window.items()), state.mode, tuple(state.csr.values()), state.context


class Endless:
    """Notices endless loops of a search."""

    def __init__(self, search: Search) -> None:
        self.search = search

    def at_branch(self, state: AnyState) -> None:
        """Compares the state of a path at a branch on an expression with its state there the last time. If both are equal, the path is in an endless
        loop: reports and ends it. The memory is compared only if the registers are equal."""
        key = state.pc, state.context
        counts = state.input_count, state.activation
        old = state.branch_states.get(key)
        if old is None or old.counts != counts or old.regs != state.regs:
            state.branch_states[key] = Mark(state.regs[:], counts, None)
            return
        rest = rest_of(state)
        if old.rest == rest and not state.is_merged and not self.search.is_trial:
            self.report_endless(state)
        state.branch_states[key] = Mark(old.regs, counts, rest)

    def report_endless(self, state: AnyState) -> None:
        """Reports a path whose state repeats, and ends it."""
        self.search.report("stuck", state, "never returns", state.model)
        raise PathEnded(FINDING_REPORTED)

    def at_end(self, state: AnyState) -> None:
        """Follows a long path for FINAL_STEPS further steps. If its state repeats without an input or an answer, reports and ends the path."""
        seen: Set[Any] = set()  # the states at the first pc
        first = state.pc
        loads = len(state.loads)
        answers = len(state.answers)
        for _ in range(FINAL_STEPS):
            if state.pc == first:
                key = tuple(state.regs), rest_of(state)
                if key in seen and len(state.loads) == loads and len(state.answers) == answers:
                    self.report_endless(state)
                seen.add(key)
            state.step()

    def try_numbers(self, state: AnyState, tries: Dict[int, int]) -> None:
        """Follows a loop in a copy of a state, in which the values of the model replace all expressions. If the state of the copy repeats without an
        input, reports the path. `tries` counts the trials of each loop, by pc."""
        search = self.search
        if state.is_merged or search.is_trial or tries.get(state.pc, 0) >= TRIALS or ("stuck", state.pc) in search.findings:
            return
        tries[state.pc] = tries.get(state.pc, 0) + 1
        trial: Any = state.fork(state.pc, is_again=True)
        trial.regs = [state.value(word) for word in state.regs]
        trial.csr = {number: state.value(word) for number, word in state.csr.items()}
        for at in list(trial.symbolic_bytes):
            trial.put(at, state.value(plain(trial.symbolic_bytes[at])))
        search.is_trial = True
        try:
            is_endless = self.repeats(trial)
        except PathEnded:
            return
        finally:
            search.is_trial = False
        if is_endless:
            search.report("stuck", state, "never returns", state.model)

    def repeats(self, trial: AnyState) -> bool:
        """Executes steps of `trial`, a state without expressions. Returns whether the state repeats without an input."""
        seen: Set[Any] = set()  # the states at the first pc
        loads = len(trial.loads)
        first = trial.pc
        for _ in range(TRIAL_STEPS):
            if trial.pc == first:
                if self.search.is_late():
                    return False
                key = tuple(trial.regs), rest_of(trial)
                if key in seen:
                    return True
                seen.add(key)
            trial.step()
            if len(trial.loads) != loads or trial.pc in self.search.changed_code:
                return False
        return False
