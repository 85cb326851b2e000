"""Questions at the end of an activation: whether the enclave has accepted an old state, and what remains of the secret.

A *state* of the enclave is here what it has stored to the window up to the end of an activation, and loads again later. A state is *old* if a later
activation has stored another state in the same place."""
from __future__ import annotations

from typing import Dict, List, NamedTuple, Sequence

from rvlook.symbolic.conditions import all_of, any_of, differ, eq, overlap
from rvlook.symbolic.fields import AnyState
from rvlook.symbolic.nodes import INPUT, SECRET, Byte, Condition, Node, Word, by_name, mask_of, variable
from rvlook.symbolic.outputs import Outputs
from rvlook.symbolic.words import byte, plain, word

MIN_EARLIER_ACTIVATIONS = 2  # with fewer earlier activations there is no old state, only the latest one
AT_INDEX = "an index of the host may lead to what an earlier activation has stored"


class Counts(NamedTuple):
    """The numbers of loads of inputs and of stores to the window up to a stop."""
    loads: int
    stores: int


class Leaving(Outputs):
    """A search that asks questions when the enclave leaves."""

    def check_leaving(self, state: AnyState) -> None:
        """Asks the questions about the end of an activation: old states, and what remains of the secret (--wiped)."""
        if self.options.must_matter:
            for condition in state.conditions:
                self.output_variables |= mask_of(condition)
        has_one_history = state.is_base or not self.options.merges
        if self.means.is_whole and has_one_history and state.activation >= MIN_EARLIER_ACTIVATIONS and ("older", state.pc) not in self.findings:
            self.check_older_states(state)
        if self.world.secret and self.options.wiped:
            self.check_remains(state)

    def check_remains(self, state: AnyState) -> None:
        """Reports bytes of the region and registers that depend on the secret, apart from the secret itself and public values."""
        cells = {at: plain(part) for at, part in state.symbolic_bytes.items()}
        places = sorted(at for at, cell in cells.items() if is_secret(state, cell) and not (at in self.world.secret and cell.op == "var"))
        registers = ["x%d" % n for n in range(1, 32) if is_secret(state, state.regs[n])]
        registers += ["csr %x" % n for n, value in state.csr.items() if is_secret(state, value)]
        texts = []
        if places:
            texts.append("%d bytes of the region from %08x on" % (len(places), places[0]))
        if registers:
            texts.append("registers " + " ".join(registers))
        if texts:
            self.report("remains", state, "%s depend on the secret" % " and ".join(texts), state.model)

    def check_older_states(self, state: AnyState) -> None:
        """Asks whether the present activation accepts an old state in place of the latest one, if it can also accept the latest one."""
        ends = [Counts(0, 0)] + [Counts(answer.loads, answer.stores) for answer in state.answers]
        loaded: Dict[int, str] = {}  # the variables of the first loads of bytes in this activation, by address
        for load in state.loads[ends[state.activation].loads:]:
            if type(load.at) is int:
                for n, name in load.names:
                    loaded.setdefault(load.at + n, name)
        states = stored_states(state, ends)
        latest = states[-1]
        places = [at for at in loaded if at in latest]
        accepts_latest = all_of(*(eq(input_of(loaded[at]), as_word(latest[at])) for at in places))
        for old in states[:-1] if places and accepts_latest is not False else ():
            changed = [at for at in places if at in old and old[at] != latest[at]]
            accepts_old = [eq(input_of(loaded[at]), as_word(old.get(at, latest[at]))) for at in places]
            is_old = any_of(*(differ(as_word(old[at]), as_word(latest[at])) for at in changed))
            if self.check_acceptance(state, all_of(*accepts_old, is_old), accepts_latest, changed):
                return
        self.check_older_at_index(state, ends, sorted({at for old in states[:-1] for at in old if old[at] != latest[at]}))

    def check_acceptance(self, state: AnyState, accepts_old: Condition, accepts_latest: Condition, changed: List[int]) -> bool:
        """Reports an old state that the enclave accepts, and returns whether there is one. `accepts_old` is the condition that the activation has
        loaded the old state, and `accepts_latest` that it has loaded the latest state. `changed` has the addresses at which the two may differ."""
        is_old_accepted, model = self.solver.satisfiable(state.conditions, accepts_old, state.model)
        is_latest_accepted = self.solver.satisfiable(state.conditions, accepts_latest, state.model)[0] if is_old_accepted else False
        if is_old_accepted is None or is_latest_accepted is None:
            self.undecided["older", state.pc] += 1
        if not is_old_accepted or not is_latest_accepted:
            return False
        self.report("older", state, "the window at %08x may be that of an earlier stop" % min(changed), model)
        return True

    def check_older_at_index(self, state: AnyState, ends: Sequence[Counts], changed: List[int]) -> None:
        """Asks about the loads and stores at expressions. The question is not decided if a load of this activation may have a byte in common with an
        earlier store. `changed` has the addresses of the bytes that differ between two stops."""
        stored = [(store.at, store.width) for store in state.stores[:ends[state.activation].stores] if type(store.at) is Node]
        meetings: List[Condition] = []
        for load in state.loads[ends[state.activation].loads:]:
            places = stored + ([(at, 1) for at in changed] if type(load.at) is Node else [])
            meetings += [overlap(load.at, len(load.names), at, width) for at, width in places]
        if self.solver.satisfiable(state.conditions, any_of(*meetings), state.model)[0] is not False:
            self.doubt("older", state, AT_INDEX)


def stored_states(state: AnyState, ends: Sequence[Counts]) -> List[Dict[int, Byte]]:
    """Returns the bytes that the enclave has stored to the window up to the end of each earlier activation, by address. `ends` has the counts at the
    end of each activation, after those at the beginning."""
    states: List[Dict[int, Byte]] = []
    contents: Dict[int, Byte] = {}
    for activation in range(state.activation):
        for store in state.stores[ends[activation].stores:ends[activation + 1].stores]:
            if type(store.at) is int:
                contents.update({store.at + n: byte(store.value, n) for n in range(store.width)})
        states.append(dict(contents))
    return states


def input_of(name: str) -> Word:
    """Returns the variable of an input with a name, as a word."""
    return as_word(by_name[name] if name in by_name else variable(name, INPUT))


def as_word(content: Byte) -> Word:
    """Returns a byte as a word."""
    return word(content, 0, 0, 0)


def is_secret(state: AnyState, value: object) -> bool:
    """Returns whether a word or a byte depends on the secret and is not public."""
    return type(value) is Node and bool(value.taint & SECRET) and value not in state.public
