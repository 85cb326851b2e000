"""The state of a path: registers and memory as numbers or expressions, what the path has loaded and stored, and its conditions.

A *pc* is the address of an instruction. A *context* is the number of a chain of callers (`World.contexts`). The *model* of a path gives each variable
a value, so that all conditions of the path hold. A byte that is an expression is a Node, or a pair (word, n): byte n of a word (`words.plain`)."""
from __future__ import annotations

from typing import Any, Dict, Iterator, List, NamedTuple, Optional, Set, Tuple, TYPE_CHECKING

from rvlook.symbolic.evaluation import evaluate
from rvlook.symbolic.nodes import Condition, Node, Word
from rvlook.symbolic.origins import Tag

if TYPE_CHECKING:
    from rvlook.symbolic.endless import Mark
    from rvlook.symbolic.history import Join
    from rvlook.symbolic.search import Search

# Numbers of the control and status registers of S-mode (Privileged ISA).
SSTATUS = 0x100
STVEC = 0x105
SSCRATCH = 0x140
SEPC = 0x141
SCAUSE = 0x142
STVAL = 0x143
READ_ONLY = 0  # the mask of a register without bits that can be written
CSRS = {  # the registers of S-mode by number, each with the mask of the bits that can be written (docs/ISA.md)
    SSTATUS: 0x00080122,  # SIE, SPIE, SPP and MXR
    0x104: READ_ONLY,  # sie
    STVEC: 0xFFFFFFFD,
    0x106: READ_ONLY,  # scounteren
    0x10A: READ_ONLY,  # senvcfg
    SSCRATCH: 0xFFFFFFFF,
    SEPC: 0xFFFFFFFC,
    SCAUSE: 0xFFFFFFFF,
    STVAL: 0xFFFFFFFF,
    0x144: READ_ONLY,  # sip
    0x180: READ_ONLY}  # satp

# Values of `PathState.start_kind`: the place at which a path begins. A merged state has a negative number (`PathState.is_merged`).
START_AT_ENTRY = 0  # at the first entry of the enclave
START_MERGED_STOPS = -1  # in a state that was merged from stops
START_MERGED_LOOP = -2  # in a state that was merged at the head of a loop

# Why `State.go` returns. Further reasons are short texts at the places that raise PathEnded.
TIME_OVER = "late"  # the time is over, and the path may be continued
FINDING_REPORTED = "finding"  # a finding was reported, after which the path is not followed
EXITED = "exit"  # the enclave exits
STOPPED = "stop"  # the enclave stops, and the path is not followed into the next activation
CODE_CHANGED = "code"  # the path executes or changes code that was written
INCLUDED_IN_MERGED = "merged"  # a merged state includes the rest of the path
IMPOSSIBLE = "impossible"  # no values of the variables fulfil the conditions of the path
AnyState = Any  # stands for the class State, which this module cannot import: State inherits from PathState


class Load(NamedTuple):
    """A load of input bytes, which the host chooses. Steps are numbered from the last join of paths, or from the beginning of the path."""
    step: int  # the number of the step that loads
    at: Word  # the address of the first byte
    names: Tuple[Tuple[int, str], ...]  # for each input byte, its offset from the address and the name of its variable


class Store(NamedTuple):
    """A store to the window."""
    step: int  # the number of the step that stores
    at: Word  # the address of the first byte
    width: int  # bytes
    value: Word


class Answer(NamedTuple):
    """A stop or an exit of the enclave."""
    step: int  # the number of the step that leaves the enclave
    call: int  # the function of the monitor that the enclave calls: STOP or EXIT
    value: Word  # a0, which the host receives
    loads: int  # how many loads of inputs the path has made before
    stores: int  # how many stores to the window the path has made before


class SymbolicFetch(NamedTuple):
    """A load of the window at an address that is an expression, or a range of such loads."""
    at: Word  # the first address
    width: Word  # the number of bytes; if it is an expression, the end of the range
    pc: int  # the instruction that loads
    context: int
    joined: Tuple[Node, ...] = ()  # if only one of several joined paths made this load: the conditions of that path


class Area(NamedTuple):
    """A variable-length array on the stack."""
    call: int  # the number of the call that has the array
    low: int  # its first address
    high: int  # its end


class OpenCall(NamedTuple):
    """A call that has not returned."""
    outer: Optional[OpenCall]  # the call around it
    caller: int  # the number of the call that makes this one
    back: int  # the return address
    sp: int  # the stack pointer of the caller
    entry: int  # the address of the first instruction of the caller


class PathEnded(Exception):
    """The end of a path. The text of the exception is the reason."""


class TimeIsOver(PathEnded):
    """The end of the time of a whole run of `verify`, in the middle of a step."""

    def __init__(self) -> None:
        super().__init__(TIME_OVER)


# How `PathState.fork` copies the fields of a state. It sets all other fields one by one.
SHARED_FIELDS = (  # values that are never changed in place, so both states have the same object
    "search", "mode", "model", "context", "calls", "call", "activation", "earlier_pcs", "steps_before", "start_kind", "values_followed", "areas",
    "stack_bottom", "pending_outputs", "is_released", "source_head", "join", "joined_steps", "input_count", "entry", "start_number", "is_covered")
LIST_FIELDS = ("loads", "stores", "answers", "conditions", "regs", "tags", "symbolic_fetches")
MAPPING_FIELDS = (  # dictionaries and sets
    "symbolic_bytes", "csr", "branch_counts", "calm_window", "last_objects", "fetched", "mem_tags", "csr_tags", "public", "rounds", "branch_states")


class PathState:
    """The data of a path: the machine, the conditions, and the actions of the path so far. The classes that inherit from it (ForkingState,
    AccessState, MemoryState, CallState, State) add the functions that execute steps."""
    __slots__ = (*SHARED_FIELDS, *LIST_FIELDS, *MAPPING_FIELDS, "region_bytes", "window_memory", "memo", "is_base", "start_head", "resumed_at",
                 "value_followed", "pcs", "pc")
    search: Search  # the search to which the path belongs

    # ---- the machine
    pc: int
    mode: int  # 1 in S-mode, 0 in U-mode
    regs: List[Word]  # x0 to x31
    csr: Dict[int, Word]  # the control and status registers of S-mode, by their number
    region_bytes: bytearray  # the bytes of the region that are numbers
    symbolic_bytes: Dict[int, Any]  # the bytes of the region that are expressions, by address
    window_memory: bytearray  # the bytes of the window that the host gives in the run itself in this activation, with the stores of the path
    calm_window: Dict[int, Any]  # with --calm: the bytes of the window that this activation has loaded or stored, by address

    # ---- origins of pointers
    tags: List[Tag]  # the tags of x0 to x31
    mem_tags: Dict[int, Tag]  # the tags of words of the region, by address
    csr_tags: Dict[int, Tag]  # the tags of the registers of S-mode, by their number
    last_objects: Dict[int, Tuple[Tag, int, int]]  # by pc: the origin of the last address of this access, and the first address and end of its object

    # ---- calls
    context: int  # the chain of callers
    calls: Optional[OpenCall]  # the innermost call that has not returned
    call: int  # the number of the present call
    entry: int  # the address of the first instruction of the present function
    areas: Tuple[Area, ...]  # the variable-length arrays of the open calls
    stack_bottom: int  # the lowest address of the stack to which sp belongs

    # ---- conditions
    conditions: List[Node]  # the conditions of the path, in the order of its steps
    model: Dict[str, int]  # values of the variables, by name, for which all conditions hold
    memo: Dict[Node, Any]  # the values of nodes in `model`, as far as they were computed
    public: Set[Node]  # nodes that an output has shown to the host: they are taken to be equal for two secrets
    is_base: bool  # whether the path is that of the run itself
    # Counts for each branch. The key (pc, context) counts how often the path has divided there in the present rounds of the loops around the branch.
    # The key (pc, ~context) counts this since the path began. The key (-pc, context) counts how often only one side of the branch was possible.
    branch_counts: Dict[Tuple[int, int], int]
    branch_states: Dict[Tuple[int, int], Mark]  # the last state at each branch on an expression, by pc and context

    # ---- the beginning of the path
    start_kind: int  # START_AT_ENTRY, START_MERGED_STOPS or START_MERGED_LOOP
    start_number: int  # the number of the merged state in which the path begins, 0 for the first entry
    source_head: Optional[str]  # the prefix of the head of a merged loop in which the path begins
    start_head: Optional[int]  # the pc of a merged head at which the path goes on: it passes this head once, and is not merged there
    is_covered: bool  # whether a merged state includes the path, so that only the run itself is followed further

    # ---- actions since the last join
    join: Optional[Join]  # what the path did before paths were joined
    joined_steps: int  # the number of steps before the last join, at most
    earlier_pcs: Any  # the pcs of the steps before the path was last copied, as nested pairs (earlier pairs, list of pcs); None at the beginning
    steps_before: int  # the number of steps in `earlier_pcs`
    pcs: List[int]  # the pcs of the steps after those
    loads: List[Load]
    stores: List[Store]
    answers: List[Answer]

    # ---- the present activation
    activation: int  # the number of earlier activations
    input_count: int  # the number of loads of inputs so far, which numbers the variables of inputs
    fetched: Dict[int, Tuple[int, int]]  # the bytes of the window that were loaded in this activation: the pc and the context, by address
    symbolic_fetches: List[SymbolicFetch]  # the loads of the window at expressions in this activation
    pending_outputs: Tuple[Tuple[int, Word, int], ...]  # outputs that are public only with some answer: the answer, the word, and the pc of its store
    is_released: bool  # with --must-know: whether an output of this activation was found to depend on the secret

    # ---- the order in which paths are continued
    rounds: Dict[Tuple[int, int], int]  # the rounds of loops, by the number of the call and the pc of the head
    resumed_at: Optional[int]  # the pc at which the path has waited for other paths
    values_followed: Optional[Tuple[int, int]]  # if a word or an object is followed value by value: the step, and how many values other paths have
    value_followed: int  # the value that the word or the object has on this path, in the step at which the path begins

    def begin_path(self, start_kind: int, activation: int, start_number: int) -> None:
        """Makes this state the beginning of a path: clears the actions of an earlier path. The machine and the conditions stay. The arguments are the
        values of the fields with these names."""
        self.start_kind = start_kind
        self.start_number = start_number
        self.activation = activation
        self.memo = {}
        self.loads = []
        self.stores = []
        self.answers = []
        self.earlier_pcs = None
        self.steps_before = 0
        self.pcs = []
        self.join = None
        self.joined_steps = 0
        self.input_count = 0
        self.fetched = {}
        self.symbolic_fetches = []
        self.calm_window = {}
        self.pending_outputs = ()
        self.is_released = False
        self.last_objects = {}
        self.branch_counts = {}
        self.branch_states = {}
        self.rounds = {}
        self.values_followed = None
        self.source_head = None
        self.resumed_at = None
        self.is_covered = False

    def fork(self, pc: int, is_again: bool = False) -> Any:
        """Returns a copy of the state that goes on at a pc. With `is_again`, the copy executes the present step again. Else the list of its steps
        includes the present step."""
        if self.pcs:  # both states share the steps so far, as an immutable chain of lists
            self.earlier_pcs = self.earlier_pcs, self.pcs
            self.steps_before += len(self.pcs)
            self.pcs = []
        copy = type(self).__new__(type(self))
        for name in SHARED_FIELDS:
            setattr(copy, name, getattr(self, name))
        for name in LIST_FIELDS:
            setattr(copy, name, getattr(self, name)[:])
        for name in MAPPING_FIELDS:
            setattr(copy, name, getattr(self, name).copy())
        copy.region_bytes = bytearray(self.region_bytes)
        copy.window_memory = bytearray(self.window_memory)
        copy.memo = {}
        copy.is_base = False
        copy.start_head = None
        copy.resumed_at = None
        copy.value_followed = 0
        copy.pcs = [] if is_again else [self.pc]
        copy.pc = pc
        return copy

    def values_tried(self) -> int:
        """Returns how many values of a word or an object other paths have already taken in the present step."""
        if self.values_followed is None:
            return 0
        step, value_count = self.values_followed
        return value_count if step == self.steps else 0

    def open_calls(self) -> Iterator[OpenCall]:
        """Yields the calls that have not returned, the innermost first."""
        open_call = self.calls
        while open_call:
            yield open_call
            open_call = open_call.outer

    def call_numbers(self) -> List[int]:
        """Returns the numbers of the calls that have not returned, the innermost first."""
        return [self.call, *(open_call.caller for open_call in self.open_calls())]

    @property
    def is_merged(self) -> bool:
        """Returns whether the path begins in a merged state."""
        return self.start_kind < START_AT_ENTRY

    @property
    def steps(self) -> int:
        """Returns the number of steps since the last join."""
        return self.steps_before + len(self.pcs)

    def all_pcs(self) -> List[int]:
        """Returns the pcs of all steps since the last join."""
        lists = [self.pcs]  # the last list first
        earlier = self.earlier_pcs
        while earlier:
            earlier, pcs = earlier
            lists.append(pcs)
        return [pc for pcs in reversed(lists) for pc in pcs]

    def value(self, word: Word) -> int:
        """Returns the value of a word in the model of this path: a number stays as it is."""
        return word if type(word) is int else evaluate(word, self.model, self.memo)

    def holds(self, condition: Condition) -> bool:
        """Returns whether a condition holds in the model of this path."""
        return bool(evaluate(condition, self.model, self.memo))

    def assume(self, condition: Condition) -> None:
        """Adds a condition to the path, unless the condition is True. The caller makes sure that the condition holds in the model."""
        if type(condition) is Node:
            self.conditions.append(condition)
