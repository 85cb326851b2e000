"""Random programs of two harts for the tests of `races`, each with the script that leads to its start."""
import random
import subprocess

DATA, WINDOW, REGIONS = 0x80010800, 0x80013000, (0x80011000, 0x80012000)
KEY = 0x0A454E43
ROOM = {"w": 4, "h": 1, "b": 1}  # the distance of the offsets that are drawn


def assembled(bench, lines):
    """Returns the bytes of assembly."""
    done = subprocess.run([bench, "asm"], input="\n".join(lines) + "\n", capture_output=True, text=True, check=True)
    return bytes.fromhex(done.stdout.replace("\n", ""))


def random_lines(rng, count, bases):
    """Returns loads, stores and sums. `bases` are registers, each with the number of bytes from it on that are accessed."""
    lines = []
    for _ in range(count):
        kind, (base, span), register = rng.choice(("lw", "lw", "sw", "sw", "lb", "sh", "addi", "add")), rng.choice(bases), rng.choice((5, 6, 7))
        if kind in ("addi", "add"):
            other = rng.choice((5, 6, 7))
            lines.append("addi x%d, x%d, %d" % (register, register, rng.randrange(1, 100)) if kind == "addi" else
                         "add x%d, x%d, x%d" % (register, register, other))
        else:
            lines.append("%s x%d, %d(x%d)" % (kind, register, rng.randrange(0, span, ROOM[kind[1]]), base))
    return lines


class Program:
    """An image, a script, the number of steps of each hart after it, and the most timer interrupts."""

    def __init__(self, image, script, steps, timers=0):
        self.image, self.script, self.steps, self.timers = image, script, steps, timers

    def text(self):
        """Returns the input of rvlook."""
        digits = self.image.hex()
        lines = [digits[at:at + 120] for at in range(0, len(digits), 120)]
        return "\n".join([*lines, "--", *self.script, ""])


def values_script(rng):
    """Sets the registers of a hart."""
    return ["setreg 8 %x" % DATA, *("setreg %d %x" % (it, rng.randrange(1 << 32)) for it in (5, 6, 7))]


def call_script(function, *arguments):
    """Sets the registers of a call."""
    numbers = [(17, KEY), (16, function), *zip(range(10, 15), arguments)]
    return ["setreg %d %x" % it for it in numbers]


def hosts(bench, rng, steps, calls):
    """Two hosts with this many steps. With `calls` each makes one monitor call, and stores its status."""
    bodies, script = [], []
    for hart in (0, 1):
        body = random_lines(rng, steps, [(8, 8)])
        script += ["hart %d" % hart, *(call_script(1, REGIONS[1], 0x1000, 0, 0, REGIONS[1]) if calls and hart else []), "step 1",
                   "setreg 10 %x" % hart, "step 1", *values_script(rng)]
        if calls:
            place = rng.randrange(1, steps - 2)
            body[place:place + 2] = ["ecall", "sw x%d, %d(x8)" % (rng.choice((10, 11)), rng.choice((0, 4)))]
            script += call_of(rng)
            if rng.random() < 0.3:  # of what becomes a region
                script.append("setreg 8 %x" % rng.choice(REGIONS))
        bodies.append(body)
    return Program(assembled(bench, ["ecall", "bne x10, x0, second", *bodies[0], "end0: jal x0, end0", "second: " + bodies[1][0], *bodies[1][1:],
                              "end1: jal x0, end1"]), script, steps)


def call_of(rng):
    """A host's call, of two enclaves at most."""
    region = rng.choice(REGIONS)
    return rng.choice((
        call_script(1, region, 0x1000, rng.choice((0, WINDOW)), 0x1000, region), call_script(1, REGIONS[0], 0x2000, 0, 0, REGIONS[0]),
        call_script(2, rng.randrange(2)), call_script(3, 0), call_script(5, 0, rng.choice((DATA - 32, DATA - 28, DATA + 4)))))


def enclaves(bench, rng, steps, timers=0):
    """An enclave on each hart, with a common window. They stop or exit, and the host continues after its call."""
    image = bytearray(0x3000)
    host = ["ecall", "ecall", *random_lines(rng, 3, [(9, 8), (8, 4)]), "ecall", *random_lines(rng, steps, [(9, 8)])]
    code = assembled(bench, host)
    image[:len(code)] = code
    script = []
    for hart, region in enumerate(REGIONS):
        body = random_lines(rng, steps, [(9, 8), (18, 4)])
        if rng.random() < 0.7:
            body[rng.randrange(1, steps)] = "ecall"
        code = assembled(bench, body + ["end: jal x0, end"])
        image[region - 0x80010000:region - 0x80010000 + len(code)] = code
        script += ["hart %d" % hart, *call_script(1, region, 0x1000, WINDOW, 0x1000, region), "step 1",
                   "setreg 16 3", "setreg 10 %x" % hart, "setreg 9 %x" % WINDOW, *values_script(rng), "step 1",
                   "setreg 9 %x" % WINDOW, "setreg 18 %x" % (region + 0x100), *values_script(rng),
                   "setreg 17 %x" % KEY, "setreg 16 %d" % rng.choice((6, 7, 5)), "setreg 11 %x" % WINDOW]
    return Program(bytes(image), script, steps, timers)


def one_enclave(bench, rng, steps, timers):
    """An enclave on hart 0, and a host on hart 1 that reads and writes its window, and then resumes, destroys or reads it."""
    program = enclaves(bench, rng, steps, timers)
    script = program.script[:program.script.index("hart 1")] + ["hart 1", "step 2", "setreg 9 %x" % WINDOW, *values_script(rng),
                                                                *call_script(rng.choice((2, 4, 5)), 0, WINDOW)]
    return Program(program.image, script, steps, timers)


KINDS = (
    ("hosts", lambda bench, rng: hosts(bench, rng, 8, False)), ("calls", lambda bench, rng: hosts(bench, rng, 8, True)),
    ("enclaves", lambda bench, rng: enclaves(bench, rng, 8)), ("one enclave", lambda bench, rng: one_enclave(bench, rng, 8, 0)),
    ("timer", lambda bench, rng: enclaves(bench, rng, 4, 1)), ("timers", lambda bench, rng: one_enclave(bench, rng, 4, 2)))


def program_of(bench, seed):
    """Returns the program with a number."""
    return KINDS[seed % len(KINDS)][1](bench, random.Random(seed))
