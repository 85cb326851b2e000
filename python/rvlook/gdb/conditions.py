"""Evaluates the conditions of breakpoints, which are agent expressions (GDB manual, appendix F), so that a debugger does not see halts at
which they do not hold."""
from __future__ import annotations

import operator
from typing import Callable

from rvlook.monitors.encodings import signed

FIRST_OF_64 = 1 << 64  # the first number that does not fit into 64 bits
READS = {0x17: 1, 0x18: 2, 0x19: 4, 0x1A: 8}  # bytes that each operation `ref` reads from memory, by its opcode
CONSTANTS = {0x22: 1, 0x23: 2, 0x24: 4, 0x25: 8}  # bytes of the constant that follows each opcode
MAX_OPERATIONS = 10000  # after which an expression counts as endless


class ExpressionError(Exception):
    """An expression that cannot be evaluated."""


def divided(dividend: int, divisor: int) -> int:
    """Returns the quotient, rounded towards zero; raises ExpressionError for a division by zero."""
    if divisor == 0:
        raise ExpressionError("a division by zero")
    return abs(dividend) // abs(divisor) * (1 if (dividend < 0) == (divisor < 0) else -1)


def on_signed(operation: Callable[[int, int], int]) -> Callable[[int, int], int]:
    """Returns an operation that interprets its two operands, 64-bit numbers, as signed."""
    return lambda one, other: operation(signed(one, 64), signed(other, 64))


BINARY = {0x02: operator.add, 0x03: operator.sub, 0x04: operator.mul, 0x05: on_signed(divided), 0x06: divided,  # by opcode
          0x07: on_signed(lambda one, other: one - other * divided(one, other)), 0x08: lambda one, other: one - other * divided(one, other),
          0x09: lambda one, other: one << (other & 63), 0x0A: lambda one, other: signed(one, 64) >> (other & 63),
          0x0B: lambda one, other: one >> (other & 63), 0x0F: operator.and_, 0x10: operator.or_, 0x11: operator.xor,
          0x13: operator.eq, 0x14: on_signed(operator.lt), 0x15: operator.lt}


def extended(value: int, bits: int) -> int:
    """Sign-extends the low `bits` bits of a value. Raises ExpressionError if `bits` is 0."""
    if bits == 0:
        raise ExpressionError("a value of no bits")
    return signed(value & (1 << bits) - 1, bits)


class ExpressionStack:
    """The stack of an expression. `register` reads a register by its number; `memory` reads bytes by address and count."""

    def __init__(self, code: bytes, register: Callable[[int], int], memory: Callable[[int, int], bytes]) -> None:
        self.code, self.register, self.memory, self.at = code, register, memory, 0  # `at`: index of the next byte of the code
        self.stack: list[int] = []  # numbers modulo 2 to the 64

    def number(self, size: int) -> int:
        """Reads the next bytes of the code as a big-endian number."""
        self.at += size
        return int.from_bytes(self.code[self.at - size:self.at], "big")

    def push(self, value: int) -> None:
        """Pushes a value, modulo 2 to the 64."""
        self.stack.append(int(value) % FIRST_OF_64)

    def read(self, size: int) -> None:
        """Replaces the address on the stack by a little-endian number from memory."""
        data = self.memory(self.stack.pop() & 0xFFFFFFFF, size)
        if len(data) < size:
            raise ExpressionError("it reads outside RAM")
        self.push(int.from_bytes(data, "little"))

    def run(self) -> int:
        """Runs the expression; returns the top of the stack. Raises ExpressionError if it does not end."""
        for _ in range(MAX_OPERATIONS):
            code = self.number(1)
            if code == 0x27:
                return self.stack.pop()
            self.do(code)
        raise ExpressionError("it comes to no end")

    def do(self, code: int) -> None:
        """Executes one operation."""
        stack = self.stack
        if code in BINARY:
            second_operand = stack.pop()
            self.push(BINARY[code](stack.pop(), second_operand))
        elif code in READS:
            self.read(READS[code])
        elif code in CONSTANTS:
            self.push(self.number(CONSTANTS[code]))
        elif code in OTHER_OPERATIONS:
            OTHER_OPERATIONS[code](self)
        else:
            raise ExpressionError("the operation %02x" % code)

    def jump_if(self) -> None:
        """Pops a value; jumps, as `jump` does, if it is not zero."""
        target = self.number(2)
        if self.stack.pop():
            self.at = target

    def jump(self) -> None:
        """Jumps to the offset in the code that the next two bytes hold."""
        self.at = self.number(2)

    def swap(self) -> None:
        """Swaps the two topmost values."""
        self.stack[-2:] = self.stack[:-3:-1]

    def rotate(self) -> None:
        """Rotates the three topmost values."""
        self.stack[-3:] = [self.stack[-1], *self.stack[-3:-1]]


OTHER_OPERATIONS = {0x0E: lambda it: it.push(it.stack.pop() == 0), 0x12: lambda it: it.push(~it.stack.pop()),
                    0x16: lambda it: it.push(extended(it.stack.pop(), it.number(1))), 0x20: ExpressionStack.jump_if, 0x21: ExpressionStack.jump,
                    0x26: lambda it: it.push(it.register(it.number(2))), 0x28: lambda it: it.push(it.stack[-1]), 0x29: lambda it: it.stack.pop(),
                    0x2A: lambda it: it.push(it.stack.pop() & ((1 << it.number(1)) - 1)), 0x2B: ExpressionStack.swap,
                    0x32: lambda it: it.push(it.stack[-1 - it.number(1)]), 0x33: ExpressionStack.rotate}


def holds(code: bytes, register: Callable[[int], int], memory: Callable[[int, int], bytes]) -> bool:
    """Returns whether a condition holds. Returns True if it cannot be evaluated: the debugger then evaluates it itself."""
    try:
        return bool(ExpressionStack(code, register, memory).run())
    except (ExpressionError, IndexError, ValueError):
        return True
