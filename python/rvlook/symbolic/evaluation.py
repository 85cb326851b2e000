"""The value of an expression for values of its variables, and an expression rebuilt with values for some of them."""
from __future__ import annotations

from typing import Any, Dict, List, Mapping, Optional, Sequence, Tuple

from rvlook.symbolic.conditions import all_of, choice8, element, eq, lt, ult
from rvlook.symbolic.nodes import M32, Condition, Node, Word, concrete, make, operands, signed
from rvlook.symbolic.words import bool_, byte, choice, extended, not_, operation, word

Model = Mapping[str, int]  # values of variables, by name


def evaluate(node: Word, model: Model, memo: Optional[Dict[Node, Any]] = None) -> Any:
    """Returns the value of a node for the values of a model; 0 for a variable that the model does not have. `memo` caches the values of nodes for
    this model: the function adds more."""
    if type(node) is not Node:
        return node
    if memo is None:
        memo = {}
    elif node in memo:
        return memo[node]
    stack = [node]
    while stack:
        top = stack[-1]
        if top in memo:
            stack.pop()
        elif top.op == "var":
            memo[top] = model.get(top.args[0], 0)
        elif top.op == "table":
            missing = table_operand(top, memo)
            if missing is None:
                memo[top] = table_value(top, memo)
            else:
                stack.append(missing)
        else:
            step(top, memo, stack)
    return memo[node]


def step(node: Node, memo: Dict[Node, Any], stack: List[Node]) -> None:
    """Adds the value of a node to `memo` if `memo` has the values of its operands. Else adds one of the operands to the stack."""
    values = []
    for operand in node.args:
        if type(operand) is Node:
            value = memo.get(operand)
            if value is None:
                stack.append(operand)
                return
            values.append(value)
        else:
            values.append(operand)
    memo[node] = value_of(node.op, values)


def table_operand(node: Node, memo: Dict[Node, Any]) -> Optional[Node]:
    """Returns an operand of a table node whose value is not in `memo` yet: the address, or the byte there. Returns None if both are known."""
    at, low, table = node.args
    if type(at) is Node and at not in memo:
        return at
    index = (memo[at] if type(at) is Node else at) - low & M32
    content_byte = table.content[index] if index < len(table.content) else 0
    return content_byte if type(content_byte) is Node and content_byte not in memo else None


def table_value(node: Node, memo: Dict[Node, Any]) -> int:
    """Returns the byte of a table node at its address; 0 outside. `memo` has the values of its operands."""
    at, low, table = node.args
    index = (memo[at] if type(at) is Node else at) - low & M32
    content_byte = table.content[index] if index < len(table.content) else 0
    return memo[content_byte] if type(content_byte) is Node else content_byte


def value_of(op: str, values: Sequence[Any]) -> Any:
    """Returns the result of an operation on the values of its operands."""
    function = VALUES.get(op)
    return function(values) if function else concrete(op, values[0], values[1])


VALUES: Dict[str, Any] = {  # by operation: returns the result for the values `v` of its operands; `nodes.NUMBERS` has the operations on two words
    "word": lambda v: v[0] | v[1] << 8 | v[2] << 16 | v[3] << 24,
    "byte": lambda v: v[0] >> 8 * v[1] & 255,
    "eq": lambda v: v[0] == v[1],
    "eq8": lambda v: v[0] == v[1],
    "ult": lambda v: v[0] < v[1],
    "lt": lambda v: signed(v[0]) < signed(v[1]),
    "not": lambda v: not v[0],
    "and1": all,
    "bool": lambda v: int(v[0]),
    "sx8": lambda v: signed(v[0], 8) & M32,
    "sx16": lambda v: signed(v[0] | v[1] << 8, 16) & M32,
    "ite8": lambda v: v[1] if v[0] else v[2],
    "ite": lambda v: v[1] if v[0] else v[2]}


# ---- known values

def rebuilt(node: Word, values: Mapping[Node, int], memo: Dict[Node, Any]) -> Any:
    """Returns a node in which some variables are replaced by their `values`, simplified again. `memo` caches the results for these values: the
    function adds more."""
    if type(node) is not Node:
        return node
    stack = [node]
    while stack:
        top = stack[-1]
        if top in memo:
            stack.pop()
            continue
        missing = [operand for operand in operands(top) if operand not in memo]
        if top.op == "var":
            memo[top] = values.get(top, top)
        elif missing:
            stack += missing
        else:
            memo[top] = remade(top, memo)
    return memo[node]


def remade(node: Node, memo: Mapping[Node, Any]) -> Any:
    """Returns a node with its operands replaced by the results that `memo` has for them, simplified again."""
    if node.op == "table":
        at, low, table = node.args
        at = memo[at] if type(at) is Node else at
        content = tuple(memo[byte_] if type(byte_) is Node else byte_ for byte_ in table.content)
        if type(at) is not int:
            return element(at, low, content)
        index = at - low & M32
        return content[index] if index < len(content) else 0
    values = [memo[x] if type(x) is Node else x for x in node.args]
    maker = MAKERS.get(node.op)
    return maker(values) if maker else operation(node.op, *values)


MAKERS: Dict[str, Any] = {  # by operation: makes the node for the operands `a`; `words.operation` makes the operations on two words
    "word": lambda a: word(*a),
    "byte": lambda a: byte(*a),
    "eq": lambda a: eq(*a),
    "eq8": lambda a: a[0] == a[1] if type(a[0]) is int else make("eq8", tuple(a), 1),
    "ult": lambda a: ult(*a),
    "lt": lambda a: lt(*a),
    "not": lambda a: not_(a[0]),
    "and1": lambda a: all_of(*a),
    "bool": lambda a: bool_(a[0]),
    "sx8": lambda a: extended(a[0], 0, 1),
    "sx16": lambda a: extended(a[0], a[1], 2),
    "ite8": lambda a: choice8(*a),
    "ite": lambda a: choice(*a)}


def note_known(condition: Node, known: Dict[Node, int]) -> None:
    """Adds the variables to which a condition gives a value, with the values, to `found`."""
    if condition.op == "and1":
        for part in condition.args:
            note_known(part, known)
    elif condition.op in ("eq", "eq8") and type(condition.args[1]) is int:
        word_or_byte, value = condition.args
        parts = [(word_or_byte, value)] if condition.op == "eq8" else []
        if condition.op == "eq" and word_or_byte.op == "word":
            parts = [(part, value >> 8 * n & 255) for n, part in enumerate(word_or_byte.args)]
        known.update((part, content) for part, content in parts if type(part) is Node and part.op == "var")


def reduced(conditions: Sequence[Condition]) -> Tuple[Optional[List[Condition]], Dict[Node, int]]:
    """Returns conditions in which the variables are replaced to which some of the conditions give a value, and these values. Returns None for the
    conditions if they contradict each other."""
    values: Dict[Node, int] = {}
    left = list(conditions)
    while True:
        new: Dict[Node, int] = {}
        for condition in left:
            note_known(condition, new)
        new = {node: value for node, value in new.items() if node not in values}
        if not new:
            return left, values
        values.update(new)
        memo: Dict[Node, Any] = {}
        left = [rebuilt(part, values, memo) for part in left]
        if any(part is False for part in left):
            return None, {}
        left = [part for part in left if part is not True]
