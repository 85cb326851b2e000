"""The facts of merged states: which words they are about, and when they are added and dropped."""
from __future__ import annotations

from typing import Any, Callable, Dict, List, Optional, Sequence, Set, Tuple, TYPE_CHECKING

from rvlook.symbolic.decode import decode
from rvlook.symbolic.facts import Fact, Limits, WordAt, WordPlace, active, candidates, condition_of, holding, thresholds_of
from rvlook.symbolic.nodes import Node, Word, mask_of
from rvlook.symbolic.origins import How
from rvlook.symbolic.words import word

if TYPE_CHECKING:
    from rvlook.symbolic.extents import Extents
    from rvlook.symbolic.fields import AnyState as State
    from rvlook.symbolic.search import Search

# Limits of the facts that are proposed.
MAX_WORDS = 40  # how many new words, and how many words to relate them to, may have facts at once
MAX_ARRAY_ELEMENTS = 16  # the elements of a longer array of bytes or half-words have no facts
MAX_WORD_DISTANCE = 16  # the sum and the order of two words in memory are bounded only up to this distance in bytes
MAX_BOUND_OPERATIONS = 1000  # the most operations of a bound that is an expression
MAX_SIZE_BOUND = 4096  # larger sizes of objects, in bytes or elements, are not tried as bounds
IMMEDIATE_END = 2048  # the positive immediates of an instruction are less than this number
WORD_BYTES = 4  # bytes
Assumed = Tuple[List[Node], Dict[str, int]]  # conditions, and values for which they hold


class Bounds:
    """The rules by which facts about the unknown words of merged states are found."""

    def __init__(self, search: Search) -> None:
        self.search = search
        self.extents = search.extents
        sizes = sizes_of(search.extents)
        self.limits = Limits(thresholds_of(numbers_of(search), sizes), sorted(sizes), self.are_comparable, self.is_near)

    def places(self, unknown: Sequence[Any]) -> List[WordPlace]:
        """Returns the words to which unknown bytes belong: all registers, and at most 2 * MAX_WORDS words of memory and bytes of small variables.
        `unknown` has the places of the bytes."""
        registers: Dict[WordPlace, None] = {}
        words: Dict[WordPlace, None] = {}
        stack = self.search.world.objects.stack
        for at in unknown:
            if isinstance(at, str):
                if at.startswith("x"):
                    registers[at.split("_")[0]] = None
                continue
            member = self.extents.member_at(at) if at < stack else None
            size = (member.element or member.size) if member else WORD_BYTES
            if member and size < WORD_BYTES and member.size <= MAX_ARRAY_ELEMENTS * size:
                words["b%x" % at] = None
            elif size >= WORD_BYTES:
                words[at & -4] = None
        return [*registers, *list(words)[:2 * MAX_WORDS]]

    def is_near(self, x: WordPlace, y: WordPlace) -> bool:
        """Returns whether two words are close to each other in one variable."""
        if not isinstance(x, int) or not isinstance(y, int):
            return False
        if abs(x - y) > MAX_WORD_DISTANCE or max(x, y) >= self.search.world.objects.stack:
            return False
        return self.extents.variable_at(x).bounds == self.extents.variable_at(y).bounds

    def are_comparable(self, x: WordPlace, y: WordPlace) -> bool:
        """Returns whether facts compare two words: one may be a bound of the other, such as an index and a length. They are two variables
        of one word each, or words that are close to each other in memory."""
        return self.is_near(x, y) or (self.is_whole_variable(x) and self.is_whole_variable(y))

    def is_whole_variable(self, x: WordPlace) -> bool:
        """Returns whether a word in memory is a variable of its own, and not a part of a larger one. A variable on a stack does not count."""
        if not isinstance(x, int) or x >= self.search.world.objects.stack:
            return False
        extent = self.extents.variable_at(x)
        return extent.high - extent.low <= WORD_BYTES

    def candidates(self, new: Sequence[WordPlace], others: Sequence[WordPlace], word_at: WordAt, tags: Dict[Any, Any],
                   loop_mask: Optional[int]) -> List[Fact]:
        """Returns facts that may hold for words that became unknown (`new`), without long bounds such as results of a hash. `others` are the words to
        which they may be related. `word_at` gives the values of words, and `tags` has their origins. `loop_mask` is the mask of the unknowns of a
        loop, on which no bound may depend; None at a stop."""
        bases = {at: tag.base for at, tag in tags.items() if tag is not None and tag.how in (How.SYMBOL, How.FRAME, How.MEMORY, How.UPPER)}
        facts = candidates(new[:MAX_WORDS], others[:MAX_WORDS], word_at, bases, self.limits, loop_mask is not None)

        def is_usable(bound: Any) -> bool:
            return type(bound) is not Node or (bound.weight <= MAX_BOUND_OPERATIONS and not mask_of(bound) & (loop_mask or 0))
        return [fact for fact in facts if is_usable(fact.bound)]

    def holding(self, assumed: Assumed, facts: Sequence[Fact], word_at: WordAt) -> List[Fact]:
        """Returns the facts that hold for all values for which some conditions hold. `word_at` gives the words of the facts."""
        conditions, model = assumed
        return holding(self.search.solver, conditions, model, facts, word_at, self.search.is_late)

    @staticmethod
    def conditions(facts: Sequence[Fact], word_at: WordAt) -> List[Node]:
        """Returns facts as conditions, without conditions that always hold. `word_at` gives the words of the facts."""
        conditions = [condition_of(fact, word_at) for fact in active(facts)]
        return [condition for condition in conditions if type(condition) is Node]


def word_reader(state: State) -> WordAt:
    """Returns the function that returns the word at a place in a state."""
    def word_at(at: WordPlace) -> Word:
        if isinstance(at, int):
            return state.load(at, WORD_BYTES, is_signed=False)
        if at.startswith("x"):
            return state.regs[int(at[1:])]
        return state.load(int(at[1:], 16), 1, is_signed=False)
    return word_at


def word_reader_of_bytes(byte_at: Callable[[Any], Any]) -> WordAt:
    """Returns the function that returns the word at a place in a merged state. `byte_at` returns a byte at a place."""
    def word_at(at: WordPlace) -> Word:
        if isinstance(at, int):
            return word(*(byte_at(at + n) for n in range(WORD_BYTES)))
        if at.startswith("x"):
            return word(*(byte_at("%s_%d" % (at, n)) for n in range(WORD_BYTES)))
        return word(byte_at(int(at[1:], 16)), 0, 0, 0)
    return word_at


def numbers_of(search: Search) -> Set[int]:
    """Returns the positive numbers with which instructions of the enclave compare or mask a register, or which they load into a register."""
    memory = search.world.memory
    numbers = set()
    for offset in range(0, len(memory) - 3, 4):
        instruction = decode(int.from_bytes(memory[offset:offset + 4], "little"))
        if instruction.kind != "imm" or not 0 < instruction.imm < IMMEDIATE_END:
            continue
        is_load = instruction.op == "add" and instruction.rs1 == 0  # `li`
        if is_load or instruction.op in ("sltu", "slt", "and"):
            numbers.add(instruction.imm)
    return numbers


def sizes_of(extents: Extents) -> Set[int]:
    """Returns the sizes of the variables of the enclave, and the numbers of their elements."""
    sizes = set()
    for symbol in extents.region_symbols:
        if symbol.size and not symbol.is_function:
            sizes.add(symbol.size)
    for member in extents.static_members:
        sizes.add(member.size)
        if member.element:
            sizes.add(member.size // member.element)
    return {size for size in sizes if size <= MAX_SIZE_BOUND}
