"""Questions about outputs: secrets in the window and in answers, and codes that the host must know.

An *output* is what the host can read: bytes that the enclave stores to the window, and the *answer*, which is a0 when the enclave leaves. The *code*
is the bytes that the host must know (--must-know), such as a PIN. A byte is *public* if --public names it, so that it may depend on the secret."""
from __future__ import annotations

from typing import Dict, List, Optional, Sequence, Set, Tuple, TYPE_CHECKING

from rvlook.symbolic.conditions import differ, within
from rvlook.symbolic.evaluation import evaluate
from rvlook.symbolic.history import history_of, is_calm
from rvlook.symbolic.nodes import CHECK, SECRET, Byte, Node, Word, mask_of, names_of, operands
from rvlook.symbolic.record import Record
from rvlook.symbolic.words import byte, not_, word

if TYPE_CHECKING:
    from rvlook.symbolic.means import Means
    from rvlook.symbolic.solver import Solver
    from rvlook.symbolic.fields import AnyState as State
    from rvlook.symbolic.options import VerifyOptions
    from rvlook.symbolic.world import World

COMPARISONS = ("eq", "eq8", "and1")  # operations that compare words, bytes, or several of them
BYTE_VALUES = 256  # values of a byte
FLIPPED_BITS = 0x55  # the bits of a byte that are flipped to try another value
# Why a question about outputs is not decided.
NEEDS_CHANGING_WINDOW = "only known for a window that changes while the enclave runs"
MIXED_OUTPUT = "an output is computed of the secret and of what the host must know"
OTHER_OUTPUT = "an output depends on what the host must know by something else than one comparison of all its bytes"
OTHER_PATH = "a path depends on what the host must know by something else than one comparison of all its bytes"


class Outputs(Record):
    """A search that asks about outputs."""
    world: World
    options: VerifyOptions
    means: Means
    solver: Solver

    def __init__(self) -> None:
        super().__init__()
        # The places at which the run itself outputs bytes of the secret: the pc, and the address in the window. The address is None for an answer,
        # and if it is an expression.
        self.usual_copies: Set[Tuple[int, Optional[int]]] = set()
        self.declared_copies: Set[int] = set()  # the pcs at which the run itself outputs bytes of the secret in public places
        self.whole_comparisons: Dict[Node, bool] = {}  # conditions on the code: whether each compares all bytes of the code
        self.influencing_bytes: Set[str] = set()  # the variables of the secret on which an output is known to depend
        self.output_variables = 0  # the mask of the variables of all outputs, and of all conditions when the enclave leaves

    def report(self, what: str, state: State, text: str, one: Dict[str, int], two: Optional[Dict[str, int]] = None) -> None:
        """Adds a finding as `Record.report` does. With --calm, a violation is not decided if the window changes during an activation."""
        needs_calm_window = self.options.calm and not state.is_merged and (what, state.pc) not in self.findings
        if needs_calm_window and not is_calm(history_of(state, one), one):
            self.doubt(what, state, NEEDS_CHANGING_WINDOW)
        else:
            super().report(what, state, text, one, two)

    def check_output(self, state: State, output: Sequence[Byte], places: Sequence[Optional[int]], what: str) -> None:
        """Asks whether the bytes of an output may depend on the secret or on the code. `places` has the addresses of the bytes in the window: None
        for an answer, or for an address that is an expression. `what` is the kind of the finding: "window" or "answer"."""
        tainted = [n for n, content in enumerate(output) if type(content) is Node and content.taint & (SECRET | CHECK)]  # indices of bytes
        if not tainted:
            return
        public = [n for n in tainted if self.is_public(places[n], what)]
        maybe_public = [n for n in tainted if n in public or self.public_answer([places[n]]) is not None]
        self.check_copies(state, output, places, tainted, maybe_public)
        self.check_shown_codes(state, [output[n] for n in tainted])
        secret = [n for n in tainted if output[n].taint & SECRET]
        if secret:
            self.check_release(state, is_mixed=any(output[n].taint & CHECK for n in secret))
            self.note_influence(state, output)
        self.solver.declared.update(output[n] for n in secret if n in public)
        hidden = [n for n in secret if n not in public and not (output[n] in state.public and output[n] in self.solver.declared)]
        hidden_word = word(*[output[n] if n in hidden else 0 for n in range(len(output))], *[0] * (4 - len(output)))
        answer = self.public_answer([places[n] for n in hidden])
        if hidden and answer is not None:
            state.pending_outputs += ((answer, hidden_word, state.pc),)  # decided once the answer is known (`check_answer`)
        elif hidden:
            state.differs(what, hidden_word)
        for n in secret:  # the host knows these bytes from now on, so each is reported only once
            state.public.add(output[n])
        if type(hidden_word) is Node and len(hidden) == len(output) == 4:
            state.public.add(hidden_word)

    def is_public(self, place: Optional[int], what: str) -> bool:
        """Returns whether --public names an output byte without a condition. `place` is the address of the byte in the window, or None (see
        `check_output`, also for `what`)."""
        if what == "answer":
            return bool(self.world.public.answer)
        return place is not None and self.world.public.has(place)

    def public_place(self, state: State, place: Node, width: int) -> Optional[int]:
        """Returns the first address of a public range in which a store of `width` bytes always stays. `place` is the address of the store, an
        expression. Returns None if there is no such range."""
        for public in (self.world.public, *(public for public, _ in self.world.public_if)):
            for low, count in public.ranges:
                inside = within(place, low, low + count - width)
                if inside is True:
                    return low
                if inside is not False and self.solver.satisfiable(state.conditions, not_(inside), state.model)[0] is False:
                    return low
        return None

    def public_answer(self, places: Sequence[Optional[int]]) -> Optional[int]:
        """Returns the answer N with which an activation must end so that bytes of the window are public (--public WHAT@answer=N). `places` has the
        addresses of the bytes. Returns None if there is no such answer."""
        if not places:
            return None
        for public, answer in self.world.public_if:
            if all(at is not None and public.has(at) for at in places):
                return answer
        return None

    def check_copies(self, state: State, output: Sequence[Byte], places: Sequence[Optional[int]], tainted: Sequence[int],
                     public: Sequence[int]) -> None:
        """Reports public output bytes from which one can compute bytes of the secret, if the run itself outputs none in this place. `output` and
        `places` are those of `check_output`. `tainted` has the indices of the bytes that depend on the secret or the code, and `public` has the
        indices of those that may be public."""
        copies = [n for n in tainted if output[n].taint & SECRET and is_one_byte(output[n], SECRET)]
        if not copies:
            return
        key = state.pc, places[copies[0]]
        are_public = set(copies) <= set(public)
        if state.is_base:
            self.usual_copies.add(key)
            if are_public:
                self.declared_copies.add(state.pc)
        elif are_public and key not in self.usual_copies:
            self.report("raw", state, "%d bytes of the secret itself, at a public place where the run has others" % len(copies), state.model)

    def check_answer(self, state: State, value: Word) -> None:
        """Asks whether the answer `value`, with which the enclave leaves, may depend on the secret. Also asks whether outputs that are public only
        with another answer may depend on it."""
        for public_answer, shown_word, pc in state.pending_outputs:
            is_other_answer = differ(value, public_answer)
            is_possible, model = self.solver.satisfiable(state.conditions, is_other_answer, state.model)
            if is_possible is False:
                continue
            conditions = state.conditions + ([is_other_answer] if type(is_other_answer) is Node else [])
            differs, first_model, second_model = self.solver.secret_pair(conditions, shown_word, set(), model)
            if differs and first_model is not None:
                text = "the output of %s is public only with the answer %d" % (self.world.place(pc), public_answer)
                self.report("window", state, text, first_model, second_model)
            elif differs is None or is_possible is None:
                self.undecided["window", pc] += 1
        self.check_output(state, [byte(value, n) for n in range(4)], [None] * 4, "answer")
        if type(value) is Node and value.taint & SECRET:
            state.public.add(value)

    def note_influence(self, state: State, output: Sequence[Byte]) -> None:
        """Records the bytes of the secret on which output bytes depend (--must-matter). The output depends on a byte if another value of this byte
        fulfils the conditions of the path and gives another output."""
        mask = 0
        for content in output:
            mask |= mask_of(content)
        self.output_variables |= mask
        if not self.options.must_matter or state.is_merged:
            return
        for name in names_of(mask):
            if not name.startswith("k_") or name in self.influencing_bytes:
                continue
            other = {**state.model, name: state.model.get(name, 0) ^ FLIPPED_BITS}
            memo: Dict[Node, object] = {}
            if not all(evaluate(condition, other, memo) for condition in state.conditions):
                continue
            if any(evaluate(content, other, memo) != state.value(content) for content in output):
                self.influencing_bytes.add(name)

    # ---- what the host must know

    @property
    def code_names(self) -> List[str]:
        """The names of the variables of the code."""
        return ["c_%08x" % at for at in self.world.check]

    def check_shown_codes(self, state: State, tainted_bytes: Sequence[Node]) -> None:
        """Checks output bytes that depend on the code: they may show whether the code of the host is right, and nothing else."""
        for content in tainted_bytes:
            if not content.taint & CHECK:
                continue
            if is_one_byte(content, CHECK):
                self.report("check", state, "what the host must know comes out", state.model)
                continue
            comparison = comparison_with(content, CHECK)
            if comparison is None or not self.is_whole_comparison(comparison):
                self.doubt("check", state, OTHER_OUTPUT)

    def check_comparison(self, state: State, condition: Node) -> None:
        """Checks the condition of a branch: it may compare all bytes of the code at once, and depend on the code in no other way."""
        if not condition.taint & CHECK:
            return
        compared = condition.args[0] if condition.op == "not" else condition
        if not self.is_whole_comparison(compared):
            self.doubt("check", state, OTHER_PATH)

    def is_whole_comparison(self, condition: Node) -> bool:
        """Returns whether a condition holds for only one value of the code, for equal inputs."""
        if condition not in self.whole_comparisons:
            self.whole_comparisons[condition] = self.solver.allows_other_codes([condition], self.code_names) is False
        return self.whole_comparisons[condition]

    def check_release(self, state: State, is_mixed: bool) -> None:
        """Asks whether a host must know the code to get an output that depends on the secret. Asks only at the first such output of an activation.
        `is_mixed` says whether the output depends on the code, too. If so, a host that need not know the code is no finding, and the question is not
        decided: the output itself may compare the code, without a branch."""
        if not self.world.check or state.is_released or ("check", state.pc) in self.findings:
            return
        state.is_released = True
        answer = self.solver.allows_other_codes(state.conditions, self.code_names)
        if answer and is_mixed:
            self.doubt("check", state, MIXED_OUTPUT)
        elif answer:
            text = "the secret comes out to a host that need not know %d bytes at %08x" % (len(self.world.check), min(self.world.check))
            self.report("check", state, text, state.model)
        elif answer is None:
            self.undecided["check", state.pc] += 1


def is_one_byte(output: Node, taint: int) -> bool:
    """Returns whether an output byte shows one byte with a taint: the output depends on this byte alone, and has another value for each of its
    values."""
    mask = mask_of(output)
    has_one_variable = mask and not mask & mask - 1
    if output.taint & ~taint or not has_one_variable:
        return False
    name = names_of(mask)[0]
    return len({evaluate(output, {name: value}) for value in range(BYTE_VALUES)}) == BYTE_VALUES


def comparison_with(node: Node, taint: int) -> Optional[Node]:
    """Returns the only comparison through which a node depends on variables with a taint. Returns None if there are several comparisons, or if the
    node depends on the variables in another way."""
    comparisons: List[Node] = []
    stack = [node]
    seen = {node}
    while stack:
        top = stack.pop()
        if top.op == "var" and top.taint & taint:
            return None
        if top.op in COMPARISONS and top.taint & taint:
            comparisons.append(top)
            continue
        new = [operand for operand in operands(top) if operand.taint & taint and operand not in seen]
        seen.update(new)
        stack += new
    return comparisons[0] if len(comparisons) == 1 else None
