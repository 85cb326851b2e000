"""The machine of `verify` computes what rvbench does, on random instructions: with numbers, with expressions, and by z3. Errors are noticed."""
import os

import pytest

pytest.importorskip("z3", reason="python3-z3 is not installed")

from conftest import EXAMPLES
from rvlook.image.files import image_of
from rvlook.image.variables import Variables
from rvlook.protocol.run import Setup, run_of
from rvlook.protocol.symbols import Symbols
from rvlook.symbolic import calls, conditions, evaluation, fields, memory, nodes, words
from rvlook.symbolic.nodes import M32, NUMBERS, make, signed
from rvlook.symbolic.translate import Z3
from rvlook.symbolic.world import World
from support.random_steps import Program, compared, options

pytestmark = pytest.mark.usefixtures("processor_clock")
PROGRAMS, PARTS = 500, 4  # of the gate: 60,000 steps, in parts for several workers
TRIES = 150  # programs in which a planted error must be noticed


@pytest.fixture(scope="module")
def world(bench):
    os.environ["RVBENCH"] = bench
    image = image_of(str(EXAMPLES / "enclaves" / "adds" / "image"), "auto")
    return World(run_of(Setup(image, monitor=True)), Symbols(), Variables(), options())


@pytest.mark.parametrize("part", range(PARTS))
def test_random_steps_are_those_of_the_bench(world, request, part):
    count = request.config.getoption("--verify-programs") or PROGRAMS
    done = 0
    for seed in range(part, count, PARTS):
        steps, wrong = compared(Program(world, seed))
        assert not wrong, "program %d, %s" % (seed, wrong)
        done += steps
    assert done > 80 * count // PARTS


def by_table(table, name, wrong):
    """Returns the change of an entry of a table."""
    return lambda patch: patch.setitem(table, name, wrong)


def by_name(module, name, wrong):
    """Returns the change of a function of a module."""
    return lambda patch: patch.setattr(module, name, wrong)


def in_z3(group, name, wrong):
    """Returns the change of a function of z3; `wrong` is the name of another one, or a pair of names."""
    def change(patch):
        def planted(self):
            own(self)
            found = tuple(getattr(self.c, it) for it in wrong) if isinstance(wrong, tuple) else getattr(self.c, wrong)
            getattr(self, group)[name] = found
        own = Z3.__init__
        patch.setattr(Z3, "__init__", planted)
    return change


NUMBER_ERRORS = {
    "add": lambda x, y: x + y & 0x7FFFFFFF, "sub": lambda x, y: y - x & M32, "xor": lambda x, y: x | y, "or": lambda x, y: x ^ y,
    "and": lambda x, y: x & y & 0xFFFF, "sll": lambda x, y: x << (y & 15) & M32, "srl": lambda x, y: signed(x) >> (y & 31) & M32,
    "sra": lambda x, y: x >> (y & 31), "slt": lambda x, y: int(x < y), "sltu": lambda x, y: int(signed(x) < signed(y)),
    "mul": lambda x, y: x * (y & 0xFFFF) & M32, "mulh": lambda x, y: x * y >> 32, "mulhsu": lambda x, y: x * y >> 32,
    "mulhu": lambda x, y: signed(x) * signed(y) >> 32 & M32, "divu": lambda x, y: x // y if y else 0, "remu": lambda x, y: x % y if y else 0,
    "div": lambda x, y: x // y if y else M32, "rem": lambda x, y: x % y if y else x}
Z3_ERRORS = {
    "binary": {"add": "Z3_mk_bvsub", "sub": "Z3_mk_bvadd", "xor": "Z3_mk_bvor", "or": "Z3_mk_bvxor", "and": "Z3_mk_bvor", "mul": "Z3_mk_bvadd",
               "ult": "Z3_mk_bvule", "lt": "Z3_mk_bvsle"},
    "shifts": {"sll": "Z3_mk_bvlshr", "srl": "Z3_mk_bvashr", "sra": "Z3_mk_bvlshr"},
    "high": {"mulh": ("Z3_mk_zero_ext", "Z3_mk_zero_ext"), "mulhsu": ("Z3_mk_sign_ext", "Z3_mk_sign_ext"),
             "mulhu": ("Z3_mk_sign_ext", "Z3_mk_sign_ext")},
    "divisions": {"divu": "Z3_mk_bvsdiv", "remu": "Z3_mk_bvsrem", "div": "Z3_mk_bvudiv", "rem": "Z3_mk_bvurem"}}
CSR_ERRORS = {0x100: 0x80022, 0x105: M32, 0x140: 0xFFFF, 0x141: M32, 0x142: 0xFF, 0x143: 0xFFFFFFF0, 0x104: 0xFF}
VALUE_ERRORS = {"sx8": lambda v: v[0], "sx16": lambda v: v[0] | v[1] << 8, "word": lambda v: v[0] | v[1] << 8 | v[2] << 16,
                "byte": lambda v: v[0] >> 8 * v[1] & 127, "lt": lambda v: v[0] < v[1]}
RULE_ERRORS = {
    "or": lambda x, y: make("or", (x, y), words.may_of(x)), "srl": lambda x, y: words.srl(x, y) if type(y) is not int else make("srl", (x, y), 255),
    "remu": lambda x, y: words.and_(x, y) if type(y) is int and type(x) is nodes.Node else make("remu", (x, y)),
    "sra": lambda x, y: words.srl(x, y), "sub": lambda x, y: words.operation("add", x, y), "slt": lambda x, y: words.bool_(conditions.ult(x, y))}


def sret_keeps_the_mode(self):
    """Returns from a trap, and stays in its mode."""
    return self.concretize(self.csr[fields.SEPC])


def signless(b0, b1, width):
    """Returns bytes as a word without a sign."""
    return words.word(b0, b1 if width == 2 else 0, 0, 0)


OTHER_ERRORS = {
    "sret keeps the mode": by_name(calls.CallState, "sret", sret_keeps_the_mode), "a load has no sign": by_name(memory, "extended", signless),
    "SPP is another bit": by_name(calls, "SPP", 0x80), "SPIE is another bit": by_name(calls, "SPIE", 0x40),
    "SIE is another bit": by_name(calls, "SIE", 0x8), "a break has another cause": by_name(calls, "ILLEGAL", 3)}
ERRORS = {
    **{"number %s" % it: by_table(NUMBERS, it, wrong) for it, wrong in NUMBER_ERRORS.items()},
    **{"z3 %s" % it: in_z3(group, it, wrong) for group, errors in Z3_ERRORS.items() for it, wrong in errors.items()},
    **{"csr %x" % it: by_table(fields.CSRS, it, wrong) for it, wrong in CSR_ERRORS.items()},
    **{"value %s" % it: by_table(evaluation.VALUES, it, wrong) for it, wrong in VALUE_ERRORS.items()},
    **{"rule %s" % it: by_table(words.RULES, it, wrong) for it, wrong in RULE_ERRORS.items()}, **OTHER_ERRORS}


@pytest.fixture
def fresh_z3():
    """Makes z3's functions anew, before a test and after it."""
    from rvlook.symbolic.translate import the_z3
    the_z3.cache_clear()
    yield
    the_z3.cache_clear()


def test_at_least_forty_errors_are_planted():
    assert len(ERRORS) >= 50


@pytest.mark.parametrize("name", ERRORS)
def test_planted_error_is_noticed(world, monkeypatch, fresh_z3, name):
    ERRORS[name](monkeypatch)
    assert any(is_noticed(world, seed, name.startswith("z3")) for seed in range(TRIES))


def is_noticed(world, seed, with_z3):
    """Returns whether a program differs, or cannot be run at all."""
    try:
        return bool(compared(Program(world, seed), with_z3)[1])
    except (ValueError, IndexError, OverflowError):
        return True
