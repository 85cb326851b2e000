"""Runs random instructions in the machine of `verify` and on rvbench, and compares registers, control and status registers and modes: as numbers, as
expressions, and by z3."""
import random

from rvlook.symbolic import nodes
from rvlook.symbolic.conditions import eq, lt, ult
from rvlook.symbolic.evaluation import evaluate
from rvlook.symbolic.fields import PathEnded
from rvlook.symbolic.nodes import INPUT, Node, variable
from rvlook.symbolic.options import VerifyOptions
from rvlook.symbolic.search import Search
from rvlook.symbolic.words import word

STEPS, WORDS = 120, 128  # steps of a program, and its instructions
OPTIONS = {"timeout": 1000, "seconds": 1e9, "merges": False, "activations": 1, "path_steps": 1 << 30, "replay": 0}
CSRS = (0x100, 0x105, 0x140, 0x141, 0x142, 0x143)
ALL_CSRS = (*CSRS, 0x104, 0x144, 0x106, 0x180, 0x10A, 0x300, 0xC00, 0x7C0)
BASES = (8, 9, 18)  # registers that hold addresses of data
TARGETS = (0, 1, 5, 6, 7, 10, 11, 12, 13, 14, 15, 16, 17, 28, 29, 30, 31)
SYSTEM = (0x73, 0x100073, 0x10200073, 0x10500073, 0x12000073, 0x0FF0000F, 0x30200073, 0x100F)
CONDITIONS = ("ult", "lt", "eq", "eq8", "not", "and1")
RARE = .02  # of illegal instructions and of accesses at random addresses
START = (0x10551073, 0x14159073, 0x10061073, 0x10200073)  # csrw stvec, x10; csrw sepc, x11; csrw sstatus, x12; sret
REPLIES, MOST_KEPT = {}, 200  # of the bench, by seed
IGNORED = ("code", "outside", "exit", "stop", "finding", "sp")  # ends of a path that are no step


def options():
    """Returns the options of a search that reports nothing."""
    return VerifyOptions(**OPTIONS)


def operands_of(rng):
    """Returns a random destination, two sources and an immediate of 12 bits."""
    imm = rng.choice([0, 1, -1, 255, 2047, -2048, rng.randrange(-2048, 2048)]) & 0xFFF
    return rng.choice(TARGETS), rng.randrange(32), rng.randrange(32), imm


def arithmetic(rng):
    """Returns a random operation on registers or on an immediate."""
    rd, r1, r2, imm = operands_of(rng)
    kind = rng.random()
    if kind < .55:
        f3 = rng.randrange(8)
        f7 = rng.choice([0, 32, 1, 1] if f3 in (0, 5) or rng.random() < RARE else [0, 1, 1])
        return f7 << 25 | r2 << 20 | r1 << 15 | f3 << 12 | rd << 7 | 0x33
    if kind < .92:
        f3 = rng.randrange(8)
        imm = rng.choice([0, 0x400]) * (f3 == 5) | rng.randrange(32) if f3 in (1, 5) else imm
        return imm << 20 | r1 << 15 | f3 << 12 | rd << 7 | 0x13
    return rng.getrandbits(20) << 12 | rd << 7 | rng.choice([0x37, 0x17])


def access(rng):
    """Returns a random load or store."""
    rd, r1, r2, imm = operands_of(rng)
    base, off = (r1, imm) if rng.random() < RARE else (rng.choice(BASES), rng.randrange(-64, 64) & 0xFFF)
    if rng.random() < .55:
        return off << 20 | base << 15 | rng.choice([0, 1, 2, 4, 5] if rng.random() > RARE else [3, 6, 7]) << 12 | rd << 7 | 0x03
    return off >> 5 << 25 | r2 << 20 | base << 15 | rng.choice([0, 1, 2, 2] if rng.random() > RARE else [3, 5]) << 12 | (off & 31) << 7 | 0x23


def instruction(rng):
    """Returns a random word: mostly an instruction."""
    rd, r1, r2, _ = operands_of(rng)
    kind = rng.random()
    if kind < .56:
        return arithmetic(rng)
    if kind < .82:
        return access(rng)
    if kind < .90:
        o = rng.choice([8, 12, 8, 6, -4, 16]) & 0x1FFF
        where = (o >> 12) << 31 | (o >> 5 & 63) << 25 | (o >> 1 & 15) << 8 | (o >> 11 & 1) << 7
        return where | r2 << 20 | r1 << 15 | rng.choice([0, 1, 4, 5, 6, 7] if rng.random() > RARE else [2, 3]) << 12 | 0x63
    if kind < .95:
        return rng.choice(ALL_CSRS if rng.random() < .2 else CSRS) << 20 | r1 << 15 | rng.randrange(1, 8) << 12 | rd << 7 | 0x73
    if kind < .97:
        return rng.choice(SYSTEM)
    return 8 << 21 | rd << 7 | 0x6F if kind < .998 else rng.getrandbits(32)


def registers(rng, region):
    """Returns 32 random registers; some hold addresses of data and the trap handler."""
    data, window = region[0] + 0x800, region[0] + 0x10100
    found = [0] + [rng.choice([0, 1, 0xFFFFFFFF, 0x80000000, 0x7FFFFFFF, rng.getrandbits(32), rng.getrandbits(8), rng.getrandbits(8),
                               1 << rng.randrange(32), rng.getrandbits(16), data]) for _ in range(31)]
    found[8], found[9], found[18] = data, data + 64, rng.choice([window, window, region[1] + 0xEFFC, region[1] - 16])
    found[10], found[11] = region[0] + 4 * rng.randrange(4, 100), region[0] + 4 * rng.randrange(4, 60)
    return found


class Program:
    """A random program: its words, registers and 256 bytes of data."""

    def __init__(self, world, seed):
        rng = self.rng = random.Random(seed)
        self.seed, self.world, self.is_symbolic = seed, world, seed % 3 != 0
        start = START[:rng.choice((1, 2, 4, 4))]
        self.words = [*start, *(instruction(rng) for _ in range(WORDS - len(start)))]
        self.regs = registers(rng, world.region)
        self.data = bytes(rng.getrandbits(8) for _ in range(256))
        self.at = world.region[0] + 0x800 - 128

    def commands(self):
        """Returns the commands that write the program and its registers."""
        code = b"".join(it.to_bytes(4, "little") for it in self.words)
        found = ["poke %x %02x" % (self.world.region[0] + n, it) for n, it in enumerate(code)]
        found += ["poke %x %02x" % (self.at + n, it) for n, it in enumerate(self.data)]
        return found + ["setreg %d %x" % (n, self.regs[n]) for n in range(1, 32)]

    def state(self):
        """Returns the state in which the program begins. Most bytes of two programs in three are variables."""
        world = self.world
        low = world.region[0]
        world.memory[:4 * WORDS] = b"".join(it.to_bytes(4, "little") for it in self.words)
        world.memory[self.at - low:self.at - low + 256] = self.data
        search = Search(world, options())
        search.add_path = search.check_leaving = search.check_answer = search.note_trap = search.merge_at_stop = lambda *_: None
        search.report = search.doubt = search.check_target = lambda *_: None
        state = search.first_state()
        state.regs = self.regs[:]
        if self.is_symbolic:
            self.make_symbolic(state)
        return state

    def make_symbolic(self, state):
        """Replaces bytes of registers and data by variables with their values."""
        for n in range(1, 32):
            parts = [self.byte(state, "r%d_%d" % (n, k), self.regs[n] >> 8 * k & 255) for k in range(4)]
            if n not in BASES and n != 2:
                state.regs[n] = word(*parts)
        for k in range(256):
            if self.rng.random() < .5:
                state.symbolic_bytes[self.at + k] = self.byte(state, "d%d" % k, self.data[k], 0)

    def byte(self, state, name, value, zeros=.7):
        """Returns a variable with a value, or 0 if the value is 0 and most of these stay."""
        if not value and self.rng.random() < zeros:
            return 0
        state.model[name] = value
        return variable(name, INPUT)


def value_by_z3(state, node):
    """Returns the value of a node by z3."""
    z, ast = state.search.solver.z3, state.search.solver.plain(node)
    it = (z.z3.BoolRef if node.op in CONDITIONS else z.z3.BitVecRef)(ast, z.owner)
    pairs = [(z.z3.BitVec(n, 8, z.owner), z.z3.BitVecVal(state.model[n], 8, z.owner)) for n in nodes.names_of(nodes.mask_of(node))]
    found = z.z3.simplify(z.z3.substitute(it, *pairs))
    return z.z3.is_true(found) if z.z3.is_bool(found) else found.as_long()


def on_bench(program):
    """Returns the replies of the bench for each step of a program, once for each seed."""
    world = program.world
    if program.seed not in REPLIES:
        with world.run.replay() as replay:
            replay.go(world.own_activations[0].position)
            replay.bench.ask(*program.commands())
            asked = ["regs", "step 1", *("csr %x" % it for it in CSRS)]
            replies = replay.bench.ask(*asked * STEPS)
        REPLIES[program.seed] = [replies[at:at + len(asked)] for at in range(0, len(replies), len(asked))]
    found = REPLIES[program.seed]
    if len(REPLIES) > MOST_KEPT:
        REPLIES.clear()
    return found


def compared(program, with_z3=True):
    """Runs a program; returns the number of equal steps, and the first difference or an empty text."""
    state, blocks = program.state(), on_bench(program)
    for n, block in enumerate(blocks):
        wrong = differs(state, block[0]) or (by_z3(state, program.rng) if with_z3 and n % 20 == 19 else "")
        if wrong or "world=host" in block[1][0]:
            return n, wrong and "step %d: %s" % (n, wrong)
        try:
            state.step()
        except PathEnded as end:
            return n, "" if str(end) in IGNORED else "step %d ends: %s" % (n, end)
        wrong = differs_after(state, block)
        if wrong:
            return n, "step %d: %s" % (n, wrong)
    return STEPS, ""


def differs(state, lines):
    """Returns the first register in which the machine differs from the bench, or an empty text."""
    theirs = [int(it.split("=")[1], 16) for it in lines[:33]]
    ours = [state.value(it) for it in state.regs] + [state.pc]
    return next(("x%d is %08x, not %08x" % (k, ours[k], theirs[k]) for k in range(33) if ours[k] != theirs[k]), "")


def differs_after(state, block):
    """Returns in which mode or control and status register the machine differs from the bench after a step, or an empty text."""
    mode = block[1][0].split("mode=")[1][0]
    if "US"[state.mode] != mode:
        return "the mode is not %s" % mode
    pairs = zip(CSRS, block[2:])
    return next(("csr %x" % it for it, reply in pairs if state.value(state.csr[it]) != int(reply[0].split("=")[1], 16)), "")


def by_z3(state, rng):
    """Returns a word or a comparison to which z3 gives another value, or an empty text."""
    x, y = rng.choice(state.regs), rng.choice(state.regs)
    for it in (*state.regs, ult(x, y), lt(x, y), eq(x, y), ult(y, x)):
        if type(it) is Node and value_by_z3(state, it) != evaluate(it, state.model, {}):
            return "z3 differs in %r" % it
    return ""
