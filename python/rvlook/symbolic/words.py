"""Words and bytes as expressions, simplified as they are made. `nodes` has a list of all operations.

`x.may` are the bits of a node x that may be set, so it is also the largest value that x may have."""
from __future__ import annotations

from typing import Any, Callable, Dict, Optional, Tuple

from rvlook.symbolic.nodes import M32, Byte, Condition, Node, Word, concrete, make, signed

COMMUTES = ("add", "xor", "or", "and", "mul")  # operations whose operands may be exchanged; `operation` exchanges them if the first is a number
BYTE_MASK = 0xFF
HALF_MASK = 0xFFFF


def may_of(x: Word) -> int:
    """Returns the mask of the bits of a word that may be set: for a number, the number itself."""
    return x if type(x) is int else x.may


def mask_up_to(n: int) -> int:
    """Returns the mask of all bits up to the highest bit that is set in a number."""
    return (1 << n.bit_length()) - 1


def bytes_of(x: Word) -> Optional[Tuple[Byte, ...]]:
    """Returns the four bytes of a word, the lowest first. Returns None for a node that is not made of four bytes."""
    if type(x) is int:
        return x & 255, x >> 8 & 255, x >> 16 & 255, x >> 24
    return x.args if x.op == "word" else None


def word(b0: Byte, b1: Byte, b2: Byte, b3: Byte) -> Word:
    """Returns the word of four bytes, the lowest first. The four bytes of one node become this node again."""
    if type(b0) is int and type(b1) is int and type(b2) is int and type(b3) is int:
        return b0 | b1 << 8 | b2 << 16 | b3 << 24
    if type(b0) is Node and b0.op == "byte" and b0.args[1] == 0:
        whole = b0.args[0]
        if byte(whole, 1) == b1 and byte(whole, 2) == b2 and byte(whole, 3) == b3:
            return whole
    return make("word", (b0, b1, b2, b3), may_of(b0) | may_of(b1) << 8 | may_of(b2) << 16 | may_of(b3) << 24)


def byte(x: Word, n: int) -> Byte:
    """Returns byte `n` of a word; byte 0 is the lowest."""
    if type(x) is int:
        return x >> 8 * n & 255
    if x.op == "word":
        return x.args[n]
    if x.op == "ite" and type(x.args[1]) is int and type(x.args[2]) is int:  # a choice between two numbers
        condition = x.args[0]
        byte_if_true, byte_if_false = byte(x.args[1], n), byte(x.args[2], n)
        is_same = byte_if_true == byte_if_false
        return byte_if_true if is_same else make("ite8", (condition, byte_if_true, byte_if_false), byte_if_true | byte_if_false)
    may = x.may >> 8 * n & 255
    return make("byte", (x, n), may) if may else 0


def parts_of(x: Node) -> Tuple[Any, ...]:
    """Returns the four bytes of a word as pairs (word, n), each for byte n of the word. `plain` makes a node of such a pair only when it is needed,
    since most words are stored and loaded as a whole."""
    if x.parts is None:
        x.parts = (x, 0), (x, 1), (x, 2), (x, 3)
    return x.parts


def plain(part: Any) -> Byte:
    """Returns byte n of a word for a pair (word, n). Returns a number or a node as it is."""
    return byte(*part) if type(part) is tuple else part


def extended(b0: Byte, b1: Byte, width: int) -> Word:
    """Returns one or two bytes as a word whose upper bits are copies of the sign bit. `width` is the number of bytes. `b0` is the lower byte. `b1` is
    the upper byte, which is not used for one byte."""
    if width == 1:
        if type(b0) is int:
            return signed(b0, 8) & M32
        return word(b0, 0, 0, 0) if b0.may < 128 else make("sx8", (b0,))
    if type(b0) is int and type(b1) is int:
        return signed(b0 | b1 << 8, 16) & M32
    return word(b0, b1, 0, 0) if may_of(b1) < 128 else make("sx16", (b0, b1))


def operation(op: str, x: Word, y: Word) -> Word:
    """Returns the result of an operation on two words, simplified. `op` is a name from the list in `nodes`."""
    if type(x) is int:
        if type(y) is int:
            return concrete(op, x, y)
        if op in COMMUTES:
            x, y = y, x
    if type(y) is int and is_number_choice(x):
        return choice(x.args[0], concrete(op, x.args[1], y), concrete(op, x.args[2], y))
    rule = RULES.get(op)
    return rule(x, y) if rule else make(op, (x, y))


def is_number_choice(x: Node) -> bool:
    """Returns whether a node is a choice of two numbers."""
    return x.op == "ite" and type(x.args[1]) is int and type(x.args[2]) is int


def add(x: Word, y: Word) -> Word:
    """Returns the sum of a node `x` and a word `y`, with at most one constant, which is the second operand."""
    if type(y) is int:
        if y == 0:
            return x
        if x.op == "add" and type(x.args[1]) is int:
            return add(x.args[0], x.args[1] + y & M32)
        if is_number_choice(x):
            return choice(x.args[0], x.args[1] + y & M32, x.args[2] + y & M32)
    else:
        if type(x) is Node and x.op == "add" and type(x.args[1]) is int:
            return add(add(x.args[0], y), x.args[1])
        if y.op == "add" and type(y.args[1]) is int:
            return add(add(x, y.args[0]), y.args[1])
        if x.number > y.number:  # the older node first, so that x + y and y + x are one node
            x, y = y, x
    if not may_of(x) & may_of(y):  # no carry
        return or_(x, y)
    largest = x.may + may_of(y)
    return make("add", (x, y), mask_up_to(largest) if largest <= M32 else M32)


def sub(x: Word, y: Word) -> Word:
    """Returns the difference of two words. A number is subtracted by the addition of its negative."""
    if type(y) is int:
        return operation("add", x, -y & M32)
    return 0 if x is y else make("sub", (x, y))


def byte_operation(op: str, a: Byte, b: Byte) -> Optional[Byte]:
    """Returns the result of a bitwise operation on the bytes `a` and `b`, if it is a number or one of the two bytes. Returns None for a result that
    needs a new node."""
    if type(a) is int and type(b) is int:
        return concrete(op, a, b)
    if type(a) is int:
        a, b = b, a
    if type(b) is not int:
        return None
    neutral = BYTE_MASK if op == "and" else 0  # the operand that does not change the other one
    if b == neutral:
        return a
    return 0 if op == "and" and b == 0 else None


def operation_by_bytes(op: str, x: Word, y: Word) -> Optional[Word]:
    """Returns the result of a bitwise operation on two words, computed byte by byte. Returns None if the bytes of a word are not known one by one, or
    if `byte_operation` returns None for one of the bytes."""
    bytes_x, bytes_y = bytes_of(x), bytes_of(y)
    if not bytes_x or not bytes_y:
        return None
    result_bytes = [byte_operation(op, a, b) for a, b in zip(bytes_x, bytes_y)]
    return None if None in result_bytes else word(*result_bytes)


def xor(x: Word, y: Word) -> Word:
    """Returns the exclusive or of a node and a word."""
    if x is y:
        return 0
    if type(y) is int:
        if y == 0:
            return x
        if x.op == "xor" and type(x.args[1]) is int:
            return operation("xor", x.args[0], x.args[1] ^ y)
        if x.op == "bool" and y == 1:
            return bool_(not_(x.args[0]))
    elif x.number > y.number:
        x, y = y, x
    by_bytes = operation_by_bytes("xor", x, y)
    return make("xor", (x, y), mask_up_to(x.may | may_of(y))) if by_bytes is None else by_bytes


def or_(x: Word, y: Word) -> Word:
    """Returns the or of a node and a word."""
    if x is y:
        return x
    if type(x) is int:
        x, y = y, x
    if type(y) is int and y == 0:
        return x
    if type(y) is Node and x.number > y.number:
        x, y = y, x
    by_bytes = operation_by_bytes("or", x, y)
    return make("or", (x, y), x.may | may_of(y)) if by_bytes is None else by_bytes


def and_(x: Word, y: Word) -> Word:
    """Returns the and of a node and a word."""
    if x is y:
        return x
    if type(y) is int:
        if not x.may & y:
            return 0
        if not x.may & ~y:
            return x
        if x.op == "and" and type(x.args[1]) is int:
            return and_(x.args[0], x.args[1] & y)
        if y == BYTE_MASK:
            return word(byte(x, 0), 0, 0, 0)
        if y == HALF_MASK:
            return word(byte(x, 0), byte(x, 1), 0, 0)
    elif x.number > y.number:
        x, y = y, x
    by_bytes = operation_by_bytes("and", x, y)
    return make("and", (x, y), x.may & may_of(y)) if by_bytes is None else by_bytes


def sll(x: Word, y: Word) -> Word:
    """Returns the word `x` shifted left by the lower five bits of `y`."""
    if type(y) is not int:
        return make("sll", (x, y))
    y &= 31
    if y == 0:
        return x
    bytes_x = bytes_of(x)
    is_by_bytes = not y & 7
    if bytes_x and is_by_bytes:
        byte_count = y >> 3
        return word(*([0] * byte_count + list(bytes_x[:4 - byte_count])))
    may = may_of(x) << y & M32
    return make("sll", (x, y), may) if may else 0


def srl(x: Word, y: Word) -> Word:
    """Returns the word `x` shifted right by the lower five bits of `y`, with zeros in the upper bits."""
    if type(y) is not int:
        return make("srl", (x, y), mask_up_to(may_of(x)))
    y &= 31
    if y == 0:
        return x
    if not x.may >> y:
        return 0
    if not y & 7 and (x.op == "word" or y == 24):  # a shift by whole bytes; 24 leaves only the highest byte
        byte_count = y >> 3
        return word(*([byte(x, n) for n in range(byte_count, 4)] + [0] * byte_count))
    return make("srl", (x, y), x.may >> y)


def sra(x: Word, y: Word) -> Word:
    """Returns the word `x` shifted right by the lower five bits of `y`, with copies of the sign bit in the upper bits."""
    if type(x) is Node and x.may < 1 << 31:  # the sign bit is 0
        return srl(x, y)
    if type(y) is int and not y & 31:
        return x
    return make("sra", (x, y & 31 if type(y) is int else y))


def mul(x: Word, y: Word) -> Word:
    """Returns the lower 32 bits of the product of a node and a word."""
    if type(y) is int:
        if y == 0:
            return 0
        if not y & y - 1:  # a power of two
            return sll(x, y.bit_length() - 1)
    elif x.number > y.number:
        x, y = y, x
    largest = x.may * may_of(y)
    return make("mul", (x, y), mask_up_to(largest) if largest <= M32 else M32)


def remu(x: Word, y: Word) -> Word:
    """Returns the unsigned remainder of two words, as `remu` computes it."""
    if type(y) is int and y and not y & y - 1:  # a power of two
        return and_(x, y - 1)
    return make("remu", (x, y), mask_up_to(may_of(x)))


def divu(x: Word, y: Word) -> Word:
    """Returns the unsigned quotient of two words, as `divu` computes it."""
    if type(y) is int and y and not y & y - 1:  # a power of two
        return srl(x, y.bit_length() - 1)
    return make("divu", (x, y), mask_up_to(may_of(x)) if type(y) is int and y else M32)


def bool_(condition: Condition) -> Word:
    """Returns a condition as the word 1 if it holds, else 0."""
    return int(condition) if type(condition) is bool else make("bool", (condition,), 1)


# ---- conditions

def not_(condition: Condition) -> Condition:
    """Returns the negation of a condition."""
    if type(condition) is bool:
        return not condition
    return condition.args[0] if condition.op == "not" else make("not", (condition,), 1)


def choice(condition: Condition, x: Word, y: Word) -> Word:
    """Returns the word `x` if a condition holds, else `y`."""
    if type(condition) is bool:
        return x if condition else y
    if condition.op == "not":
        condition, x, y = condition.args[0], y, x
    if type(x) is Node and x.op == "ite" and x.args[0] is condition:  # a choice by the same condition inside
        x = x.args[1]
    if type(y) is Node and y.op == "ite" and y.args[0] is condition:
        y = y.args[2]
    if x is y or (type(x) is int and type(y) is int and x == y):
        return x
    if type(x) is int and type(y) is int and x | y == 1:
        return bool_(condition if x else not_(condition))
    return make("ite", (condition, x, y), may_of(x) | may_of(y))


RULES: Dict[str, Callable[[Word, Word], Word]] = {  # by operation: returns the simplified result for two words; `conditions` adds slt and sltu
    "add": add,
    "sub": sub,
    "xor": xor,
    "or": or_,
    "and": and_,
    "sll": sll,
    "srl": srl,
    "sra": sra,
    "mul": mul,
    "remu": remu,
    "divu": divu}
