"""Expressions over the inputs of the host and the bytes of secrets: a graph without duplicates.

A word of 32 bits, a byte and a condition are each a number if they are constant, else a Node. A condition is a bool if it is constant. The *mask* of
a node is the set of its variables: bit n is set for the variable with number n.

Each node has one of these operations.

- "var": a variable, which is a byte; the operand is its name.

- The names in NUMBERS: an instruction on two words.

- "word": the word of four bytes, the lowest first; "byte": byte n of a word; "sx8", "sx16": one or two bytes as a word with their sign.

- "eq", "ult", "lt": a comparison of two words (equal, less unsigned, less signed); "eq8": the condition that two bytes are equal.

- "not": the negation of a condition; "and1": a conjunction; "bool": a condition as the word 0 or 1.

- "ite", "ite8": one of two words, or of two bytes, by a condition.

- "table": the byte at an address of an object; the operands are the address, the first address of the object, and a Table with its bytes."""
from __future__ import annotations

from typing import Any, Dict, List, Optional, Tuple

M32 = 0xFFFFFFFF  # the mask of a word
# The bits of a taint (`Node.taint`): on which data a value depends.
INPUT = 1  # inputs of the host
SECRET = 2  # the secret
CHECK = 4  # the bytes that the host must know (--must-know)
MAX_WEIGHT = 1 << 24  # operations; heavier nodes are counted as this
HEAVY = 1 << 16  # operations; a heavier node is the result of a hash
Word = Any  # an int of 32 bits, or a Node
Byte = Any  # an int of 8 bits, or a Node
Condition = Any  # a bool, or a Node


class Node:
    """An operation with its operands. There is at most one node for an operation and its operands, so nodes are compared by identity."""
    __slots__ = ("op", "args", "taint", "may", "number", "parts", "mask", "weight")

    def __init__(self, op: str, args: Tuple[Any, ...], taint: int, may: int, number: int) -> None:
        self.op = op  # the name of the operation, such as "add"; "var" for a variable
        self.args = args  # the operands: nodes, numbers, a name, or a Table
        self.taint = taint  # the data on which the value depends: a sum of INPUT, SECRET and CHECK
        self.may = may  # the bits of the value that may be set
        self.number = number  # the age: a node is older than the nodes that contain it; a variable has a negative number
        self.weight = 1  # the number of operations; one that is used several times counts each time; at most MAX_WEIGHT
        self.parts: Optional[Tuple[Any, ...]] = None  # the bytes of a word as pairs, once they are needed (`words.parts_of`)
        self.mask: Optional[int] = None  # a bit for each variable in the node (`variables`), once `mask_of` has computed them

    def __repr__(self) -> str:
        return "%s#%d" % (self.op, self.number)


by_operation: Dict[Any, Node] = {}  # all nodes but variables, by operation and operands
variables: List[Node] = []  # all variables, by the number of their bit in a mask
by_name: Dict[str, Node] = {}  # all variables, by name


def forget() -> None:
    """Removes all nodes, so that the next search begins with an empty graph."""
    by_operation.clear()
    variables.clear()
    by_name.clear()


def make(op: str, args: Tuple[Any, ...], may: int = M32) -> Node:
    """Returns the node with an operation and operands. `may` has the bits of its value that may be set."""
    key = (op, args)
    node = by_operation.get(key)
    if node is None:
        taint = 0
        weight = 1
        for operand in args:
            if type(operand) is Node:
                taint |= operand.taint
                weight += operand.weight
        node = by_operation[key] = Node(op, args, taint, may, len(by_operation))
        node.weight = weight if weight < MAX_WEIGHT else MAX_WEIGHT
    return node


def variable(name: str, taint: int) -> Node:
    """Returns the variable of a byte with a name. A name always has the same taint."""
    node = by_name.get(name)
    if node is None:
        node = by_name[name] = Node("var", (name,), taint, 255, -1 - len(variables))
        node.mask = 1 << len(variables)
        variables.append(node)
    assert node.taint == taint, name
    return node


def operands(node: Node) -> List[Node]:
    """Returns the operands of a node that are nodes: those on which its value depends directly. For a table, these include its bytes."""
    if node.op == "table":
        at, _, table = node.args
        bytes_of_table = [content_byte for content_byte in table.content if type(content_byte) is Node]
        return [at, *bytes_of_table] if type(at) is Node else bytes_of_table
    return [operand for operand in node.args if type(operand) is Node]


def weight_of(expression: Word | Condition) -> int:
    """Returns the number of operations in an expression. An operation whose result is used several times counts each time."""
    return expression.weight if type(expression) is Node else 0


def mask_of(expression: Word | Condition) -> int:
    """Returns the mask of the variables of an expression: bit n is set if the expression contains `variables[n]`."""
    if type(expression) is not Node:
        return 0
    if expression.mask is not None:
        return expression.mask
    stack = [expression]
    while stack:
        node = stack[-1]
        if node.mask is None:
            direct = operands(node)
            missing = [operand for operand in direct if operand.mask is None]
            if missing:
                stack += missing
                continue
            mask = 0
            for operand in direct:
                mask |= operand.mask or 0
            node.mask = mask
        stack.pop()
    return expression.mask or 0


def bits_of(mask: int) -> List[int]:
    """Returns the numbers of the bits that are set in a mask, in ascending order."""
    bits = []
    while mask:
        lowest = mask & -mask
        bits.append(lowest.bit_length() - 1)
        mask ^= lowest
    return bits


def names_of(mask: int) -> List[str]:
    """Returns the names of the variables of a mask, the oldest first."""
    return [variables[n].args[0] for n in bits_of(mask)]


def signed(value: int, bits: int = 32) -> int:
    """Returns an unsigned number of `bits` bits as a signed number in two's complement."""
    is_negative = value >> (bits - 1) & 1
    return value - (1 << bits) if is_negative else value


def concrete(op: str, x: int, y: int) -> int:
    """Returns the result of an operation on two numbers (Unprivileged ISA 20191213, chapters 2 and 7)."""
    return NUMBERS[op](x, y)


def quotient(x: int, y: int) -> int:
    """Returns the result of `div` (Unprivileged ISA, section 7.2)."""
    dividend = signed(x)
    divisor = signed(y)
    if divisor == 0:
        return M32
    size = abs(dividend) // abs(divisor)
    return (size if (dividend < 0) == (divisor < 0) else -size) & M32


def remainder(x: int, y: int) -> int:
    """Returns the result of `rem` (Unprivileged ISA, section 7.2)."""
    dividend = signed(x)
    divisor = signed(y)
    if divisor == 0:
        return x
    size = abs(dividend) % abs(divisor)
    return (size if dividend >= 0 else -size) & M32


NUMBERS = {  # the results of operations on two numbers of 32 bits, which are unsigned
    "add": lambda x, y: x + y & M32,
    "sub": lambda x, y: x - y & M32,
    "xor": lambda x, y: x ^ y,
    "or": lambda x, y: x | y,
    "and": lambda x, y: x & y,
    "sll": lambda x, y: x << (y & 31) & M32,
    "srl": lambda x, y: x >> (y & 31),
    "sra": lambda x, y: signed(x) >> (y & 31) & M32,
    "slt": lambda x, y: int(signed(x) < signed(y)),
    "sltu": lambda x, y: int(x < y),
    "mul": lambda x, y: x * y & M32,
    "mulh": lambda x, y: signed(x) * signed(y) >> 32 & M32,
    "mulhsu": lambda x, y: signed(x) * y >> 32 & M32,
    "mulhu": lambda x, y: x * y >> 32,
    "div": quotient,
    "divu": lambda x, y: M32 if y == 0 else x // y,
    "rem": remainder,
    "remu": lambda x, y: x if y == 0 else x % y}
