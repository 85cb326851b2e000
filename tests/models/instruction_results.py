"""The results of instructions with two operands, and the conditions of branches, on Python's unbounded integers. Operands are 32-bit words; the
caller cuts a result to 32 bits. Independent of the code under test.
"""


def signed(w):
    return w - 2**32 if w >= 2**31 else w


def quotient(a, b):
    return -1 if b == 0 else abs(a) // abs(b) * (1 if (a < 0) == (b < 0) else -1)


def remainder(a, b):
    return a if b == 0 else a - b * quotient(a, b)


RESULT = {
    "add": lambda a, b: a + b, "sub": lambda a, b: a - b,
    "sll": lambda a, b: a << b % 32, "srl": lambda a, b: a >> b % 32, "sra": lambda a, b: signed(a) >> b % 32,
    "slt": lambda a, b: signed(a) < signed(b), "sltu": lambda a, b: a < b,
    "xor": lambda a, b: a ^ b, "or": lambda a, b: a | b, "and": lambda a, b: a & b,
    "mul": lambda a, b: a * b, "mulh": lambda a, b: signed(a) * signed(b) >> 32,
    "mulhsu": lambda a, b: signed(a) * b >> 32, "mulhu": lambda a, b: a * b >> 32,
    "div": lambda a, b: quotient(signed(a), signed(b)), "divu": quotient,
    "rem": lambda a, b: remainder(signed(a), signed(b)), "remu": remainder}
TAKEN = {
    "beq": lambda a, b: a == b, "bne": lambda a, b: a != b, "bltu": lambda a, b: a < b, "bgeu": lambda a, b: a >= b,
    "blt": lambda a, b: signed(a) < signed(b), "bge": lambda a, b: signed(a) >= signed(b)}
