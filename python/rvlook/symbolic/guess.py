"""Values of variables for which a comparison holds, as far as it can be inverted: answers that need no solver."""
from __future__ import annotations

from typing import Any, Dict, Iterator, List, Optional, Tuple

from rvlook.symbolic.evaluation import Model, evaluate
from rvlook.symbolic.nodes import HEAVY, M32, Node, Word, signed
from rvlook.symbolic.words import may_of, not_

Part = Dict[str, int]  # values of some variables
COMPARISONS = ("eq", "eq8", "ult", "lt")
FLIPPED_BITS = 0x55555555  # the bits that are flipped to try a value that differs in many bits
FAR_STEPS = 8  # the distance of the far value that `solutions` tries, in the least steps that a word can make
MAX_INVERTED = 60  # the most operations that are inverted one after another


def solutions(question: Node, model: Model, memo: Dict[Node, Any], is_far: bool = False) -> Iterator[Part]:
    """Yields values of variables for which the condition `question` may hold. The caller must evaluate the condition. `model` has the present values
    of all variables, and `memo` caches the values of nodes in it. With `is_far`, values that are larger by FAR_STEPS steps come early. A loop that
    goes on for one more round then goes on for several, as for a longer message."""
    is_not = question.op == "not"
    compared = question.args[0] if is_not else question
    if compared.op == "and1":
        yield from parts_of_conjunction(compared, is_not, model, memo, is_far)
    elif compared.op in COMPARISONS:
        x, y = compared.args
        if compared.op == "eq8" and x.op == "byte" and x.args[0].op == "or":
            x = x.args[0]
        if not is_not and type(y) is int and y == 0 and x.op == "or":
            yield invert_zero_or(x, model, memo)
        for changed, compared_with in ((x, y), (y, x)):  # one operand keeps its value, and the other one gets a value close to it
            if type(changed) is not Node:
                continue
            value = evaluate(compared_with, model, memo)
            step = may_of(changed) & -may_of(changed)  # the lowest bit that may be set: the least distance between two values
            far_values = (value + FAR_STEPS * step,) if is_far else ()
            for target in (value, *far_values, value + step, value - step, value ^ FLIPPED_BITS & may_of(changed)):
                part = invert(changed, target & M32, model, memo)
                if part:
                    yield part


def parts_of_conjunction(node: Node, is_not: bool, model: Model, memo: Dict[Node, Any], is_far: bool) -> Iterator[Part]:
    """Yields values for which all terms of a conjunction (`node`) may hold. If `is_not`, yields values for which one of the terms may not hold. The
    other arguments are those of `solutions`."""
    if is_not:
        for part in node.args:
            yield from solutions(part.args[0] if part.op == "not" else not_(part), model, memo, is_far)
        return
    chosen: Part = {}
    for part in node.args:
        values = {**model, **chosen} if chosen else model
        values_memo = {} if chosen else memo
        if not evaluate(part, values, values_memo):
            chosen.update(next(solutions(part, values, values_memo), {}))
    yield chosen


def invert_zero_or(x: Node, model: Model, memo: Dict[Node, Any]) -> Part:
    """Returns values of variables for which each operand of nested ors is 0, as in a comparison of many bytes. `x` is the outermost or. `model` and
    `memo` are those of `solutions`."""
    chosen: Part = {}
    leaves: List[Word] = [x]
    while leaves:
        leaf = leaves.pop()
        if type(leaf) is int:
            continue
        if leaf.op == "or":
            leaves += leaf.args
            continue
        values = {**model, **chosen}
        pairs: Tuple[Tuple[Word, Word], ...] = ((leaf, 0),)  # a word to change, and a word to which it must be equal
        if leaf.op == "xor":  # it is 0 if both operands are equal
            pairs = (leaf.args[0], leaf.args[1]), (leaf.args[1], leaf.args[0])
        values_memo = {} if chosen else memo
        inverses = (invert(changed, evaluate(wanted, values, values_memo), values, values_memo) for changed, wanted in pairs if type(changed) is Node)
        chosen.update(next((part for part in inverses if part), {}))
    return chosen


def invert(node: Word, value: int, model: Model, memo: Dict[Node, Any]) -> Optional[Part]:
    """Returns values of variables for which a node has a value. Returns None if they are not simple to find, as for the result of a hash. The
    condition of a choice and the index of a table keep their values. `model` and `memo` are those of `solutions`."""
    for _ in range(MAX_INVERTED):
        if type(node) is int:
            return {} if node == value else None
        if node.op == "var":
            return {node.args[0]: value} if value < 256 else None
        if node.op in ("word", "or") and node.weight > HEAVY:
            return None
        if node.op == "word":
            return invert_bytes(node.args, value, model, memo)
        if node.op == "sx16":
            return invert_bytes(node.args, value & 0xFFFF, model, memo) if signed(value & 0xFFFF, 16) & M32 == value else None
        if node.op == "or" and not may_of(node.args[0]) & may_of(node.args[1]):  # the operands have no bit in common
            one, two = node.args
            return union_of(invert(one, value & may_of(one), model, memo), invert(two, value & may_of(two), model, memo))
        operand_and_value = invert_operation(node, value, model, memo)
        if operand_and_value is None:
            return None
        node, value = operand_and_value
    return None


def invert_operation(node: Node, value: int, model: Model, memo: Dict[Node, Any]) -> Optional[Tuple[Word, int]]:
    """Returns an operand of a node with a new value for it, so that the node has the value `value` while the other operands keep their values.
    Returns None if there is no such value, or if the operation is not inverted. `model` and `memo` are those of `solutions`."""
    op, args = node.op, node.args
    if op in ("ite8", "ite"):
        return args[1] if evaluate(args[0], model, memo) else args[2], value
    if op == "table":
        index = evaluate(args[0], model, memo) - args[1] & M32
        return (args[2].content[index], value) if index < len(args[2].content) and value < 256 else None
    if op == "byte":
        shift = 8 * args[1]
        return args[0], evaluate(args[0], model, memo) & ~(255 << shift) | value << shift  # the other bytes keep their values
    if op == "sx8":
        return (args[0], value & 255) if signed(value & 255, 8) & M32 == value else None
    if op == "bool":
        return None
    one, two = args[0], args[1]
    if type(one) is not Node:
        return (two, one - value & M32) if op == "sub" else None
    other = evaluate(two, model, memo)
    if op in ("add", "sub"):
        return one, (value - other if op == "add" else value + other) & M32
    if op == "xor":
        return one, value ^ other
    if op == "and" and not value & ~other:
        return one, value | evaluate(one, model, memo) & ~other
    if op == "sll" and not value & (1 << (other & 31)) - 1:
        return one, value >> (other & 31)
    if op == "srl" and value << (other & 31) <= M32:
        return one, value << (other & 31) | evaluate(one, model, memo) & (1 << (other & 31)) - 1
    return None


def union_of(one: Optional[Part], two: Optional[Part]) -> Optional[Part]:
    """Returns the union of the values of variables in two parts. Returns None if one part is None, or if the parts contradict each other."""
    if one is None or two is None or any(one.get(name, value) != value for name, value in two.items()):
        return None
    return {**one, **two}


def invert_bytes(parts: Tuple[Any, ...], value: int, model: Model, memo: Dict[Node, Any]) -> Optional[Part]:
    """Returns values of variables for which bytes (`parts`, the lowest first) form the number `value`. Returns None if they are not found."""
    union: Optional[Part] = {}
    for n, part in enumerate(parts):
        if union is not None:
            union = union_of(union, invert(part, value >> 8 * n & 255, model, memo))
    return union
