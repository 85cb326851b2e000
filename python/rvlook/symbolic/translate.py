"""Translates expressions into those of z3, and asks z3."""
from __future__ import annotations

import ctypes
from functools import lru_cache
from typing import Any, Container, Dict, List, Optional, Sequence, Tuple

from rvlook.errors import RvlookError, package_missing
from rvlook.symbolic.nodes import M32, SECRET, Node, operands

MAX_KEPT_EXPRESSIONS = 10000  # if a context has more expressions, the next run begins with an empty context
BYTE_OPERANDS = ("word", "sx8", "sx16", "eq8", "ite8")  # operations whose operands are bytes


class Z3:
    """The functions of z3's interface to C, which are several times as fast as its classes. Expressions that it returns are never freed. They
    are in a context of their own: the more of them a context has, the longer each question takes."""

    def __init__(self) -> None:
        try:
            import z3
            from z3 import z3core as library
        except ImportError:
            raise RvlookError(package_missing("z3", "python3-z3", "verify cannot decide which paths exist")) from None
        self.z3 = z3  # the module of z3's classes
        self.c = library  # the functions of the interface to C
        self.owner = z3.Context()  # the context as an object
        self.context = self.owner.ref()  # the context for the functions of the interface
        self.count = 0  # how many expressions the context has
        self.bit = self.hold(library.Z3_mk_bv_sort(self.context, 1))  # the sorts: bit vectors of 1, 8 and 32 bits
        self.byte = self.hold(library.Z3_mk_bv_sort(self.context, 8))
        self.word = self.hold(library.Z3_mk_bv_sort(self.context, 32))
        self.numbers: Dict[Tuple[int, int], Any] = {}  # the constants so far, by value and number of bits
        names = "simplify", "propagate-values", "solve-eqs", "simplify", "bit-blast", "sat"
        self.tactics = z3.Then(*names, ctx=self.owner)
        for unfreed in (self.owner, self.tactics):  # to free long expressions one by one takes minutes; the process ends anyway
            ctypes.pythonapi.Py_IncRef(ctypes.py_object(unfreed))
        # ---- the functions that make operations: on two operands of one sort, shifts, upper halves of products, and divisions
        self.binary = {"add": library.Z3_mk_bvadd, "sub": library.Z3_mk_bvsub, "mul": library.Z3_mk_bvmul, "xor": library.Z3_mk_bvxor,
                       "or": library.Z3_mk_bvor, "and": library.Z3_mk_bvand, "eq": library.Z3_mk_eq, "eq8": library.Z3_mk_eq,
                       "ult": library.Z3_mk_bvult, "lt": library.Z3_mk_bvslt}
        self.shifts = {"sll": library.Z3_mk_bvshl, "srl": library.Z3_mk_bvlshr, "sra": library.Z3_mk_bvashr}
        self.high = {"mulh": (library.Z3_mk_sign_ext, library.Z3_mk_sign_ext), "mulhsu": (library.Z3_mk_sign_ext, library.Z3_mk_zero_ext),
                     "mulhu": (library.Z3_mk_zero_ext, library.Z3_mk_zero_ext)}
        self.divisions = {"divu": library.Z3_mk_bvudiv, "remu": library.Z3_mk_bvurem, "div": library.Z3_mk_bvsdiv, "rem": library.Z3_mk_bvsrem}

    def hold(self, ast: Any) -> Any:
        """Adds a reference to an expression of z3, which is never freed then. Returns the expression."""
        self.count += 1
        self.c.Z3_inc_ref(self.context, ast)
        return ast

    def number(self, value: int, bits: int) -> Any:
        """Returns a constant of 1, 8 or 32 bits."""
        if (value, bits) not in self.numbers:
            sort = {1: self.bit, 8: self.byte, 32: self.word}[bits]
            self.numbers[value, bits] = self.hold(self.c.Z3_mk_unsigned_int64(self.context, value, sort))
        return self.numbers[value, bits]

    def variable(self, name: str) -> Any:
        """Returns the variable of a byte."""
        return self.hold(self.c.Z3_mk_const(self.context, self.c.Z3_mk_string_symbol(self.context, name), self.byte))

    def connective(self, make: Any, asts: Sequence[Any]) -> Any:
        """Returns the conjunction or the disjunction of conditions: `make` is Z3_mk_and or Z3_mk_or."""
        return self.hold(make(self.context, len(asts), (self.c.Ast * len(asts))(*asts)))

    def disjunction(self, asts: Sequence[Any]) -> Any:
        """Returns the disjunction of conditions."""
        return self.connective(self.c.Z3_mk_or, asts)

    def equal(self, one: Any, two: Any) -> Any:
        """Returns the condition that the expressions `one` and `two` are equal."""
        return self.hold(self.c.Z3_mk_eq(self.context, one, two))

    def unequal(self, one: Any, two: Any) -> Any:
        """Returns the condition that two expressions differ."""
        return self.hold(self.c.Z3_mk_not(self.context, self.equal(one, two)))

    def concatenate(self, high: Any, low: Any) -> Any:
        """Returns a bit vector with the bits of `high` above those of `low`."""
        return self.hold(self.c.Z3_mk_concat(self.context, high, low))

    def operation(self, op: str, args: Sequence[Any], operands: List[Any]) -> Any:
        """Returns the expression of z3 for the operation `op` of a Node. `args` are the operands of the Node. `operands` has the same operands, with
        nodes and numbers as expressions of z3."""
        library, context = self.c, self.context
        if op in self.binary:
            return self.hold(self.binary[op](context, operands[0], operands[1]))
        if op in self.shifts:
            distance = self.hold(library.Z3_mk_bvand(context, operands[1], self.number(31, 32)))  # RISC-V uses the lower five bits
            return self.hold(self.shifts[op](context, operands[0], distance))
        if op == "word":
            return self.concatenate(self.concatenate(operands[3], operands[2]), self.concatenate(operands[1], operands[0]))
        if op == "byte":
            return self.hold(library.Z3_mk_extract(context, 8 * args[1] + 7, 8 * args[1], operands[0]))
        if op == "not":
            return self.hold(library.Z3_mk_not(context, operands[0]))
        if op == "and1":
            return self.connective(library.Z3_mk_and, operands)
        if op == "bool":
            return self.hold(library.Z3_mk_ite(context, operands[0], self.number(1, 32), self.number(0, 32)))
        if op in ("ite8", "ite"):
            return self.hold(library.Z3_mk_ite(context, operands[0], operands[1], operands[2]))
        return self.wide_operation(op, operands)

    def wide_operation(self, op: str, operands: List[Any]) -> Any:
        """Returns the expression of an operation that extends its operands, or of a division, for which RISC-V defines the results of x / 0."""
        library, context = self.c, self.context
        if op == "sx8":
            return self.hold(library.Z3_mk_sign_ext(context, 24, operands[0]))
        if op == "sx16":
            return self.hold(library.Z3_mk_sign_ext(context, 16, self.concatenate(operands[1], operands[0])))
        if op in self.high:
            extend_first, extend_second = self.high[op]  # with the sign or with zeros
            first = self.hold(extend_first(context, 32, operands[0]))
            second = self.hold(extend_second(context, 32, operands[1]))
            product = self.hold(library.Z3_mk_bvmul(context, first, second))  # 64 bits
            return self.hold(library.Z3_mk_extract(context, 63, 32, product))
        is_zero = self.hold(library.Z3_mk_eq(context, operands[1], self.number(0, 32)))
        result_by_zero = self.number(M32, 32) if op in ("div", "divu") else operands[0]
        result = self.hold(self.divisions[op](context, operands[0], operands[1]))
        return self.hold(library.Z3_mk_ite(context, is_zero, result_by_zero, result))

    def look_up(self, at: Any, low: int, content: List[Any]) -> Any:
        """Returns the byte at an address of an object as a tree of choices over the bits of the index; 0 outside. The object begins at `low`, and
        `content` has its bytes."""
        library, context = self.c, self.context
        index = self.hold(library.Z3_mk_bvsub(context, at, self.number(low, 32)))
        bits = max(1, (len(content) - 1).bit_length())  # of the index
        zero = self.number(0, 8)
        one = self.number(1, 1)
        row = [content[n] if n < len(content) else zero for n in range(1 << bits)]
        for bit in range(bits):  # each bit, the lowest first, halves the row: it chooses between two neighbours
            is_set = self.hold(library.Z3_mk_eq(context, self.hold(library.Z3_mk_extract(context, bit, bit, index)), one))
            row = [x if x is y else self.hold(library.Z3_mk_ite(context, is_set, y, x)) for x, y in zip(row[::2], row[1::2])]
        is_inside = self.hold(library.Z3_mk_bvult(context, index, self.number(len(content), 32)))
        return self.hold(library.Z3_mk_ite(context, is_inside, row[0], zero))

    def solver_with(self, asts: Sequence[Any]) -> Any:
        """Returns a new solver of z3 to which conditions were added."""
        solver = self.z3.SolverFor("QF_BV", self.owner)
        for ast in asts:
            self.c.Z3_solver_assert(self.context, solver.solver, ast)
        return solver

    def ask(self, solver: Any, timeout: int) -> Tuple[Optional[bool], Dict[str, int]]:
        """Asks a solver for values for which its conditions hold, for at most `timeout` milliseconds. Returns True with the values by name, False if
        there are none, or None if z3 does not decide it."""
        solver.set("timeout", timeout)
        answer = solver.check()
        if answer == self.z3.sat:
            model = solver.model()
            return True, {declaration.name(): model[declaration].as_long() for declaration in model.decls()}
        return (False if answer == self.z3.unsat else None), {}

    def check(self, asts: Sequence[Any], timeout: int) -> Tuple[Optional[bool], Dict[str, int]]:
        """Asks for values for which all conditions hold, with a new solver of z3. The result is that of `ask`."""
        return self.ask(self.solver_with(asts), timeout)

    def check_by_tactics(self, asts: Sequence[Any], timeout: int) -> Tuple[Optional[bool], Dict[str, int]]:
        """Asks for values for which all conditions hold, with a fixed list of tactics of z3. This takes less time than `check` if there are many
        simple conditions. The result is that of `ask`."""
        solver = self.tactics.solver()
        for ast in asts:
            self.c.Z3_solver_assert(self.context, solver.solver, ast)
        return self.ask(solver, timeout)


@lru_cache(maxsize=None)
def the_z3() -> Z3:
    """Returns the interface to z3, which is made once. Raises RvlookError if z3 is not installed."""
    return Z3()


def leave_out_old() -> None:
    """Lets the next run of this process begin with an empty context, if the present one has many expressions. These are not freed."""
    if the_z3().count > MAX_KEPT_EXPRESSIONS:
        the_z3.cache_clear()


class Translator:
    """Translates nodes into expressions of z3."""

    def __init__(self) -> None:
        self.z3 = the_z3()
        self.translated: Dict[Node, Any] = {}  # the expressions of nodes that were translated

    def variable_of(self, node: Node) -> Any:
        """Returns the variable of z3 for a byte."""
        return self.z3.variable(node.args[0])

    def predefined(self, _: Node) -> Optional[Any]:
        """Returns the expression of a node that is not translated from its operands, or None. A subclass chooses such nodes."""
        return None

    def __call__(self, node: Node) -> Any:
        """Returns the expression of z3 for a node."""
        translated = self.translated
        stack = [node]  # nodes that are to be translated, after their operands
        while stack:
            top = stack[-1]
            if top in translated:
                stack.pop()
                continue
            predefined = self.predefined(top)
            missing = [] if predefined is not None else [operand for operand in operands(top) if operand not in translated]
            if predefined is not None:
                translated[top] = predefined
            elif missing:
                stack += missing
            else:
                translated[top] = self.translate(top)
        return translated[node]

    def translate(self, node: Node) -> Any:
        """Returns the expression of a node whose operands are translated."""
        translated = self.translated
        number = self.z3.number
        if node.op == "var":
            return self.variable_of(node)
        if node.op == "table":
            at, low, table = node.args
            content = [translated[content_byte] if type(content_byte) is Node else number(content_byte, 8) for content_byte in table.content]
            return self.z3.look_up(translated[at] if type(at) is Node else number(at, 32), low, content)
        bits = 8 if node.op in BYTE_OPERANDS else 32
        operands_of_z3 = []
        for operand in node.args:
            if type(operand) is Node:
                operands_of_z3.append(translated[operand])
            else:
                operands_of_z3.append(number(operand, bits) if type(operand) is int else operand)
        return self.z3.operation(node.op, node.args, operands_of_z3)


class Primed(Translator):
    """Makes expressions of z3 for a second run with another secret. The name of a variable of the secret ends with an apostrophe."""

    def __init__(self, plain: Translator, public: Container[Node], kind: int = SECRET) -> None:
        super().__init__()
        self.plain = plain  # makes the expressions for the first run
        self.public = public  # the nodes that are the same in both runs
        self.kind = kind  # the taint of the secret: SECRET or CHECK

    def variable_of(self, node: Node) -> Any:
        """Returns the variable of the second run."""
        return self.z3.variable(node.args[0] + ("'" if node.taint & self.kind else ""))

    def predefined(self, node: Node) -> Optional[Any]:
        """Returns the expression of a node that is the same in both runs, or None."""
        return self.plain(node) if not node.taint & self.kind or node in self.public else None
