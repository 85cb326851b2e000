"""Conditions on words, simplified as they are made. Also makes tables, which are read at an index, and choices of bytes.

An equation is simplified by the inverses of operations that are bijections: x + 3 == 5 becomes x == 2. `nodes` has a list of all operations. `x.may`
are the bits of a node x that may be set, so it is also the largest value that x may have."""
from __future__ import annotations

from typing import Any, Callable, Dict, List, Optional, Tuple

from rvlook.symbolic.nodes import M32, Byte, Condition, Node, Word, make, signed
from rvlook.symbolic.words import RULES, bool_, may_of, not_, operation


def eq(x: Word, y: Word) -> Condition:
    """Returns the condition that two words are equal."""
    if type(x) is int:
        if type(y) is int:
            return x == y
        x, y = y, x
    if x is y:
        return True
    return equals_number(x, y) if type(y) is int else equals_node(x, y)


def equals_number(x: Node, y: int) -> Condition:
    """Returns the condition that the node `x` has the value `y`."""
    if y & ~x.may:  # a bit that x cannot have
        return False
    op, last = x.op, x.args[-1]
    if op == "bool":
        return x.args[0] if y else not_(x.args[0])
    if op == "ite":
        by_cases = divided(x.args[0], eq(x.args[1], y), eq(x.args[2], y))
        return make("eq", (x, y), 1) if by_cases is None else by_cases
    if op in ("add", "xor") and type(last) is int:
        return eq(x.args[0], y - last & M32 if op == "add" else y ^ last)
    if y == 0 and op in ("xor", "sub"):
        return eq(*x.args)
    if op == "mul" and type(last) is int and last & 1:  # an odd factor has an inverse
        return eq(x.args[0], y * inverse_of(last) & M32)
    if is_shifted(x):
        return eq(x.args[0], unshifted(y, last.args[1]))
    return word_equals(x, y) if op == "word" else make("eq", (x, y), 1)


def divided(condition: Node, if_true: Condition, if_false: Condition) -> Optional[Condition]:
    """Returns the condition that is `if_true` if `condition` holds, else `if_false`. Returns None if both are nodes, since nothing is simplified
    then."""
    if type(if_true) is bool and type(if_false) is bool:
        if if_true == if_false:
            return if_true
        return condition if if_true else not_(condition)
    if type(if_true) is bool:
        return any_of(condition, if_false) if if_true else all_of(not_(condition), if_false)
    if type(if_false) is bool:
        return any_of(not_(condition), if_true) if if_false else all_of(condition, if_true)
    return None


def word_equals(x: Node, y: int) -> Condition:
    """Returns the condition that `x`, a node of four bytes, has the value `y`. It is False if a byte that is a number differs. If only one byte is a
    node, it is a condition on this byte."""
    wanted = [y >> 8 * n & 255 for n in range(4)]
    if any(type(content) is int and content != expected for content, expected in zip(x.args, wanted)):
        return False
    node_indices = [n for n in range(4) if type(x.args[n]) is Node]
    if len(node_indices) == 1:
        n = node_indices[0]
        return make("eq8", (x.args[n], wanted[n]), 1)
    return make("eq", (x, y), 1)


def equals_node(x: Node, y: Node) -> Condition:
    """Returns the condition that two nodes are equal."""
    last = x.args[-1]
    if x.op == y.op:
        if x.op == "mul" and type(last) is int and last & 1 and last == y.args[1]:
            return eq(x.args[0], y.args[0])
        if is_shifted(x) and is_shifted(y) and last.args[1] == y.args[1].args[1]:
            return eq(x.args[0], y.args[0])
        if x.op in ("xor", "add") and last == y.args[1]:
            return eq(x.args[0], y.args[0])
    if x.number > y.number:
        x, y = y, x
    return make("eq", (x, y), 1)


def inverse_of(odd: int) -> int:
    """Returns the inverse of an odd number modulo 2 ** 32, by Newton's iteration."""
    inverse = odd
    for _ in range(5):
        inverse = inverse * (2 - odd * inverse) & M32
    return inverse


def is_shifted(x: Node) -> bool:
    """Returns whether a node is z ^ z >> n with a number n, which is a bijection of z. The operands of a node are in the order of their numbers.
    Therefore z is the first operand, and the shifted word, which is younger, is the second."""
    if x.op != "xor":
        return False
    original, shifted = x.args
    return type(shifted) is Node and shifted.op == "srl" and shifted.args[0] is original and type(shifted.args[1]) is int


def unshifted(y: int, n: int) -> int:
    """Returns the number x for which x ^ x >> n is y."""
    x = y
    for _ in range(32 // n + 1):
        x = y ^ x >> n
    return x


def ult(x: Word, y: Word) -> Condition:
    """Returns the condition that a word is less than another one, as unsigned numbers."""
    if type(x) is int and type(y) is int:
        return x < y
    if x is y:
        return False
    if type(y) is int:
        if y == 0:
            return False
        if x.may < y:
            return True
        if y == 1:
            return eq(x, 0)
    if type(x) is int:
        if x >= y.may:
            return False
        if x == 0:
            return not_(eq(y, 0))
    chosen = by_choice(ult, x, y)
    return make("ult", (x, y), 1) if chosen is None else chosen


def by_choice(compare: Callable[[Word, Word], Condition], x: Word, y: Word) -> Optional[Condition]:
    """Returns the comparison of a choice with a number, if the comparison of at least one of the two cases is True or False. Else returns None.
    `compare` is `ult` or `lt`."""
    if type(y) is int and x.op == "ite":
        return divided(x.args[0], compare(x.args[1], y), compare(x.args[2], y))
    if type(x) is int and y.op == "ite":
        return divided(y.args[0], compare(x, y.args[1]), compare(x, y.args[2]))
    return None


def lt(x: Word, y: Word) -> Condition:
    """Returns the condition that a word is less than another one, as signed numbers."""
    if type(x) is int and type(y) is int:
        return signed(x) < signed(y)
    if x is y:
        return False
    if may_of(x) < 1 << 31 and may_of(y) < 1 << 31:
        return ult(x, y)
    chosen = by_choice(lt, x, y)
    return make("lt", (x, y), 1) if chosen is None else chosen


RULES.update({"slt": lambda x, y: bool_(lt(x, y)), "sltu": lambda x, y: bool_(ult(x, y))})


def all_of(*conditions: Condition) -> Condition:
    """Returns the conjunction of conditions."""
    terms = [condition for condition in conditions if condition is not True]
    if any(condition is False for condition in terms):
        return False
    if len(terms) > 1:
        terms = distinct(terms)
    if not terms:
        return True
    return terms[0] if len(terms) == 1 else make("and1", tuple(terms), 1)


def distinct(conditions: List[Node]) -> List[Node]:
    """Returns the terms of a conjunction of conditions, each once. If several of them bound one word by numbers, returns only the strictest."""
    distinct_terms: Dict[Any, Node] = {}
    for condition in conditions:
        for term in condition.args if condition.op == "and1" else (condition,):
            key, strictness = bound_of(term)
            old = distinct_terms.get(key)
            if old is None or strictness > bound_of(old)[1]:
                distinct_terms[key] = term
    return list(distinct_terms.values())


def bound_of(condition: Node) -> Tuple[Any, int]:
    """Returns a key and a strictness. The key of a bound by a number is the word and whether the bound is an upper one. The strictness is the greater
    the stricter the bound is. Any other condition has itself as the key, and the strictness 0."""
    is_not = condition.op == "not"
    compared = condition.args[0] if is_not else condition
    if compared.op != "ult":
        return condition, 0
    low, high = compared.args
    if type(low) is int:  # low < word, or word <= low
        return (high, is_not), -low if is_not else low
    if type(high) is int:  # word < high, or high <= word
        return (low, not is_not), high - 1 if is_not else 1 - high
    return condition, 0


def any_of(*conditions: Condition) -> Condition:
    """Returns the disjunction of conditions."""
    return not_(all_of(*map(not_, conditions)))


def differ(x: Word, y: Word) -> Condition:
    """Returns the condition that two words differ."""
    return not_(eq(x, y))


def within(x: Word, low: int, last: int) -> Condition:
    """Returns the condition that a word is from `low` up to `last`."""
    if last < low:
        return False
    if type(x) is Node and x.op == "add" and type(x.args[1]) is int:
        node, constant = x.args
        largest = constant + node.may
        if low <= constant and largest <= last and largest <= M32:
            return True
    return all_of(not_(ult(x, low)), not_(ult(last, x)))


def overlap(x: Word, width: int, y: Word, size: Word) -> Condition:
    """Returns the condition that two accesses have a byte in common. The first begins at `x` and has `width` bytes. The second begins at `y` and has
    `size` bytes; if `size` is an expression, it is the end of the second."""
    if type(size) is Node:
        return all_of(not_(ult(operation("add", x, width - 1), y)), ult(x, size))
    distance = operation("add", operation("sub", x, y), width - 1)
    return within(distance, 0, width + size - 2)


class Table:
    """The bytes of an object that is read at an index."""

    def __init__(self, content: Tuple[Byte, ...]) -> None:
        self.content = content  # the content from the first byte of the object on


tables: Dict[Tuple[Byte, ...], Table] = {}  # all tables, by content


def element(at: Word, low: int, content: Tuple[Byte, ...]) -> Byte:
    """Returns the byte at the address `at` of an object, whose first address is `low` and whose bytes are `content`. The caller makes sure that the
    address is inside."""
    table = tables.get(content)
    if table is None:
        table = tables[content] = Table(content)
    taint = 0
    for content_byte in content:
        if type(content_byte) is Node:
            taint |= content_byte.taint
    node = make("table", (at, low, table), 255)
    node.taint |= taint
    return node


def is_same(x: Byte, y: Byte) -> bool:
    """Returns whether two bytes are equal numbers, or the same object."""
    return x is y or (type(x) is int and type(y) is int and x == y)


def choice8(condition: Condition, x: Byte, y: Byte) -> Byte:
    """Returns the byte `x` if a condition holds, else `y`."""
    if type(condition) is bool:
        return x if condition else y
    if is_same(x, y):
        return x
    if type(y) is Node and y.op == "ite8" and is_same(y.args[1], x):
        return choice8(any_of(condition, y.args[0]), x, y.args[2])
    if type(x) is Node and x.op == "ite8" and is_same(x.args[2], y):
        return choice8(all_of(condition, x.args[0]), x.args[1], y)
    return make("ite8", (condition, x, y), may_of(x) | may_of(y))
