"""Random inputs for the program, of ten kinds. Seven are texts or images: image texts, ELF files, assembler texts, images to disassemble,
self-modifying programs, programs of superinstructions, and programs in several cache lines. Three are scripts: of a bare bench, and of one and of
two monitored benches, with one hart and with two. Each input has arguments and bytes, and is made from a random number generator. Independent of
the code under test.
"""
import re

from models.assembly_model import ABI_NAMES, CSRS, STATEMENTS, X_NAMES, based, csr, fence_set, register, target
from generators.elf_files import CODE, elf, segment, with_bytes
from models.elf_model import ONES, START, LOAD, program_headers
from generators.elf_mutations import MUTATED, mutation
from models.instruction_words import ROWS, WHOLE, assemble
from models.monitor_bench import LIMITS, FORMS
from models.monitor_model import CREATE, DESTROY, EXIT, KEY, MEASURE, RESUME, RUN, STOP, meet
from fuzz.monitor_play import REGIONS, WINDOWS, Play, TwinPlay
from models.privileged_hart import KEPT, MEPC, MIE_CSR, MSTATUS, MTVEC, PMPADDR, PMPCFG

BLANKS = ("", "", "", "", " ", "\t", "  ", " \t ")
ENDS = ("\n",) * 12 + ("\r\n",) * 3 + ("\r\r\n", "", " \n")
LONG = re.compile(rb"(?:step|run)[ \t]+0*[1-9][0-9]{3,}")  # more steps than a model can make in time
SIZES = (65536, 65536, 131072, 196608)


def chance(rng, part):
    return rng.random() < part


# ---- bytes and lines

def spoilt(rng, data):
    """Returns the bytes with a few of them changed, removed, inserted, or duplicated."""
    for _ in range(rng.choice((1, 1, 1, 2, 3))):
        at, size = rng.randrange(len(data) + 1), rng.choice((1, 1, 1, 2, 5, 20))
        new = rng.choice((bytes([rng.randrange(256)]), bytes([rng.choice(b" \t\r\n-#,():x0919afAF\x00\x7e\x7f\x80\xff")]),
                          data[at:at + size], data[at:at + size] * 2, b"", b"--\n", b" " * size))
        data = data[:at] + new + data[at + rng.choice((0, size)):]
    return data


def in_lines(rng, digits):
    """Returns the text of an image of these digits, in lines of random lengths."""
    lines = []
    while digits:
        size = rng.choice((8, 8, 8, 64, 120, 2, 2 * rng.randrange(1, 61)))
        part, digits = digits[:size], digits[size:]
        part = part.upper() if chance(rng, 0.1) else part
        blank = rng.choice(BLANKS) if len(part) < 110 else ""
        lines.append(blank + part + (rng.choice(BLANKS) if blank else "") + ("\r\n" if chance(rng, 0.05) else "\n"))
        lines += ["\n"] * chance(rng, 0.02)
    return "".join(lines)


def joined(image, lines, end="\n"):
    """Returns the input of an image text and a script, as bytes."""
    return (image + "--\n" + "".join(line + "\n" for line in lines[:-1]) + "".join(line + end for line in lines[-1:])).encode("latin-1")


def options(rng, is_bare=False):
    """Returns arguments of `run`, mostly valid ones."""
    words = ["run", "--ram", str(rng.choice(SIZES))]
    if chance(rng, 0.03):
        words[2] = str(rng.choice((0, 1, 65535, 65537, 1000, 16777216 + 65536, ONES)))
    if not is_bare and chance(rng, 0.3):
        words.append("--monitor")
    if not is_bare and chance(rng, 0.2 if words[-1] == "--monitor" else 0.03):
        words += ["--harts", rng.choice("122")]
    if chance(rng, 0.3):
        words += ["--kind", rng.choice(("auto", "raw", "elf"))]
    return words


# ---- commands

def address(rng, size=65536):
    """Returns an address, mostly near a boundary of RAM or of the code."""
    near = rng.choice((*[START + 4 * rng.randrange(24)] * 3, START, *[START + 0x100] * 2, START + 0x200, START + size,
                       START + 0x10000, 0, ONES))
    return near + rng.choice((0, 0, 0, 1, 2, 3, 4, 8, -1, -2, -3, -4, -64, -63)) & ONES


def number(rng, text):
    """Returns a number as text, sometimes in another form."""
    return rng.choice((text,) * 60 + ("0" + text, "0x" + text, "-" + text, text + "0", text + " ", "+" + text, text.upper()))


def operand(rng, form, name, place):
    """Returns text for the form of an operand of a command."""
    if name in LIMITS and LIMITS[name][0] == place:
        _, least, most = LIMITS[name]
        most = min(most, 64)
        wrong = rng.choice((least - 1 & 0x7F, 1000001, most + 1)) if chance(rng, 0.1) else least
        return number(rng, str(rng.choice((least, wrong, most, rng.randint(least, most), rng.randint(least, most)))))
    if form == FORMS["csr"][0]:
        return number(rng, "%x" % rng.choice((*KEPT, rng.randrange(4096))))
    if form == FORMS["poke"][1]:
        return number(rng, "%x" % rng.choice((0, 1, 0x13, 0x73, 0xFF, rng.randrange(256), rng.randrange(260))))
    if form == FORMS["mem"][0]:
        return number(rng, "%x" % rng.choice((address(rng), address(rng), rng.getrandbits(32), rng.randrange(4096))))
    if form == FORMS["sched"][0]:
        digits = "".join(rng.choices("01" if chance(rng, 0.5) else "0", k=rng.choice((1, 2, 3, 4, 8, 63, 64))))
        return rng.choice((digits,) * 20 + (digits + "0", digits + "2", "0" * 65, digits.replace("0", "1")))
    right, wrong = {"[MSU]": ("MSU", "m"), "[rwx]": ("rwx", "X"), "[124]": ("124", "38"), "on|off": (("on", "off"), ("maybe",)),
                    "[01]": ("001", ("2", "00", "01", "x"))}[form]
    return rng.choice(wrong if chance(rng, 0.03) else right)


def command(rng):
    """Returns a line of a script."""
    name = rng.choice((*FORMS, "step", "step", "run", "run", "setreg", "poke", "csr", "access", "timer"))
    words = [name, *(operand(rng, form, name, place) for place, form in enumerate(FORMS[name]))]
    line = rng.choice((" ", " ", " ", " ", "\t", "  ")).join(words)
    if chance(rng, 0.06):
        line = rng.choice(("", " ", "\t", "# x", "#", "--", "fly", "Step 1", line + " #", line + " 1", line[:-1], " " * 120, "#" * 121))
    return rng.choice(BLANKS) + line + rng.choice(BLANKS) if len(line) < 100 else line


# ---- instructions

def instruction(rng):
    """Returns a word that mostly encodes an instruction, with overlapping registers and addresses."""
    if chance(rng, 0.06):
        return rng.choice((rng.getrandbits(32), 0, ONES, *(WHOLE.values())))
    if chance(rng, 0.12):
        return rng.choice([WHOLE[name] for name in ("ecall", "mret", "sret", "ebreak", "wfi", "fence iorw, iorw")])
    name = rng.choice((*ROWS, *["csrrw", "csrrs", "addi", "lw", "sw", "lui", "auipc", "jal"] * 2))
    low, high, small = rng.choice((1, 2, 3, 4, 5)), rng.choice((0, 1, 2, 3, 4, 5, 31)), rng.choice((0, 1, 2, 4, -1, -4, 2047, -2048))
    near = 4 * rng.randrange(-4, 6) + rng.choice((0, 0, 0, 0, 2))
    number_of = rng.choice((*KEPT, 0x300, 0x305, 0x341, 0x304, 0x3A0, 0x3B0, rng.randrange(4096)))
    fields = {"lui": (high, rng.choice((0x80000, 0x80001, rng.randrange(1 << 20)))),
              "auipc": (high, rng.choice((0, 1, rng.randrange(1 << 20)))),
              "jal": (high, near), "jalr": (high, small, low), "branch": (low, high, near), "load": (high, small, low),
              "store": (high, small, low), "immediate": (high, low, small), "shift": (high, low, rng.randrange(32)),
              "register": (high, low, rng.choice((1, 2, 3, 4, 5))), "csr": (high, number_of, rng.choice((0, low))),
              "csr_number": (high, number_of, rng.choice((0, rng.randrange(32)))), "vma": (0, low)}
    return assemble(name, *fields[ROWS[name][0]])[1]


def written(number_of, register_of):
    """Returns the instruction that writes a register to a control and status register."""
    return assemble("csrrw", 0, number_of, register_of)[1]


def protected(rng):
    """Returns code and registers that set some PMP entries and mtvec, and then enter another mode; and the address of that."""
    code, lines = [], []
    for _ in range(rng.randrange(1, 4)):
        base = START + rng.choice((0, 0x100, 0x200, 0x80, 4 * rng.randrange(80)))
        word = rng.choice((base >> 2, base >> 2 | rng.choice((1, 3, 7, 15, 31)), ONES, ONES >> 1, rng.getrandbits(30)))
        cfg = rng.choice((0x1F, 0x18, 0x9F, 0x0F, 0x88, 0x17, 0x1B, 0x19, 0x0B, rng.randrange(256)))
        cfgs = cfg * rng.choice((1, 0x100, 0x10000, 0x1000000, 0x0101))
        lines += ["setreg 6 %x" % word, "setreg 7 %x" % (cfgs & ONES), "step 2"]
        code += [written(PMPADDR[rng.choice((0, 1, 2, 3, 15))], 6), written(PMPCFG[rng.choice((0, 0, 0, 3))], 7)]
    if chance(rng, 0.6):
        lines += ["setreg 6 %x" % (START + 4 * rng.choice((len(code) + 4, len(code) + 5, 20))),
                  "setreg 7 %x" % rng.choice((0, 0x800, 0x880, 0x1888, 0x20800, 0x200800)), "step %d" % rng.choice((4, 4, 4, 5))]
        code += [written(MTVEC, 6), written(MEPC, 6), written(MSTATUS, 7), WHOLE["mret"]]
    return code, lines


def digits_of(words):
    return b"".join(word.to_bytes(4, "little") for word in words).hex()


# ---- the kinds

def image(rng):
    """Returns the text of an image, often malformed, and a few commands."""
    text = in_lines(rng, digits_of([instruction(rng) for _ in range(rng.randrange(8))]) + rng.choice(("", "", "13", "1300", "abc")))
    script = [rng.choice(("step 1", "mem 80000000 8", "mem 80010000 16", "regs", "reg 1")) for _ in range(rng.randrange(4))]
    data = joined(text, script, rng.choice(ENDS))
    return options(rng), spoilt(rng, data) if chance(rng, 0.6) else data


def script(rng):
    """Returns a script of a bare bench over random code."""
    first, lines = protected(rng) if chance(rng, 0.6) else ([], [])
    text = in_lines(rng, digits_of(first + [instruction(rng) for _ in range(rng.randrange(1, 40))]))
    lines += ["setreg %d %x" % (i, rng.choice((address(rng), rng.getrandbits(32), rng.choice((0, 1, 7, 0x1F, ONES, 1 << 31)))))
             for i in range(1, 6)]
    if chance(rng, 0.02):
        lines += ["%s %x" % (rng.choice(("break", "break", "watch")), START + 4 * i) for i in range(64)]
    lines += [command(rng) for _ in range(rng.randrange(2, 30))] + ["regs", "csr 300", "csr 341", "csr b02", "mem 80000000 64", "pmp"]
    data = joined(text, lines, rng.choice(ENDS))
    return options(rng, is_bare=True)[:3], spoilt(rng, data) if chance(rng, 0.2) else data


def code(rng):
    """Returns a program that stores into its own cache line, the next one, and one of the same set; and runs of it. Traps restart the program."""
    other = START + rng.choice((0x400, 0x1FC00 + 4 * rng.randrange(8), 0x1FFF8, 0x2000, 4 * rng.randrange(32), 0x3F8))
    pool = [lambda: assemble(rng.choice(("sw", "sw", "sh", "sb")), rng.choice((3, 4, 5)), rng.choice((0, 0, 4, -4, 8, 1, 2)), rng.choice((1, 2)))[1],
            lambda: assemble("addi", rng.choice((1, 5, 5, 0)), rng.choice((1, 5)), rng.choice((4, -4, 1)))[1],
            lambda: assemble(rng.choice(("xor", "add", "mul")), rng.choice((4, 5, 6)), rng.choice((3, 4, 5)), 5)[1],
            lambda: assemble("lw", rng.choice((3, 4, 5)), rng.choice((0, 4, -4)), rng.choice((1, 2)))[1],
            lambda: assemble("beq", rng.choice((3, 5)), rng.choice((4, 5)), 4 * rng.randrange(-6, 7))[1],
            lambda: assemble("jal", rng.choice((0, 0, 6)), 4 * rng.randrange(-8, 9))[1],
            lambda: assemble("jalr", rng.choice((0, 6)), 0, rng.choice((2, 2, 7)))[1]]
    words = [written(MTVEC, 7), *(rng.choice(pool)() for _ in range(rng.choice((6, 12, 24, 70)))), assemble("jalr", 0, 0, 7)[1]]
    lines = ["setreg %d %x" % it for it in ((1, START + 4 * rng.randrange(len(words))), (2, other), (3, rng.choice(pool)()),
                                            (4, rng.choice(pool)()), (5, rng.getrandbits(rng.choice((2, 32)))), (7, START + 4))]
    lines += ["poke %x %x" % (other + i, byte) for i, byte in enumerate(bytes.fromhex(digits_of([rng.choice(pool)(), words[-1]])))]
    for _ in range(rng.randrange(2, 8)):
        lines.append("%s %d" % (rng.choice(("run", "run", "step")), rng.choice((1, 2, 7, 40, 64, 65, 66, 200, 900))))
        if chance(rng, 0.3):
            changed = rng.choice((START + rng.randrange(4 * len(words)), other + rng.randrange(4)))
            lines.append("poke %x %x" % (changed, rng.choice((0x13, 0x93, 0x33, rng.randrange(256)))))
        if chance(rng, 0.2):
            lines.append("%s %x" % (rng.choice(("break", "watch")), START + 4 * rng.randrange(len(words))))
    return ["run", "--ram", "131072"], joined(in_lines(rng, digits_of(words)), [*lines, "regs", "mem 80000000 64", "mem %x 16" % other])


# the superinstructions: their first operation, and the second operations that follow it
JOINED = {first: seconds.split() for first, seconds in (
    ("lw", "lw addi srli add xor"), ("lbu", "add"), ("lhu", "sub"), ("sw", "addi"), ("addi", "beq bne bltu addi xor"), ("slli", "sb or"),
    ("srli", "andi slli xor"), ("add", "lw addi add sltu xor"), ("sltu", "add"), ("xor", "sw srli add xor and"), ("or", "srli add xor"),
    ("and", "add"), ("mul", "addi"), ("mulhu", "mul"), ("div", "rem"), ("divu", "remu"))}
SECONDS = sorted({*JOINED, *(name for names in JOINED.values() for name in names)})
SUPERINSTRUCTIONS = [(first, second) for first, names in JOINED.items() for second in names]


def operation(rng, name):
    """Returns an instruction that may be one of two in a superinstruction. Loads and stores are at x1 and x2, and results go to x5 to x8 or x0."""
    to, left, right = rng.choice((5, 6, 7, 8, 5, 6, 7, 8, 0)), rng.choice((5, 6, 7, 8, 2)), rng.choice((5, 6, 7, 8))
    small, base = rng.choice((0, 0, 1, 2, 4, -4, 8)), rng.choice((1, 2, 2, 2))
    fields = {"lui": (to, rng.choice((0x80000, 1))), "branch": (left, right, 4 * rng.choice((1, 2, 2, 3, 3, -2))), "load": (to, small, base),
              "store": (rng.choice((3, 4, right)), small, base), "immediate": (to, left, small), "shift": (to, left, rng.randrange(32)),
              "register": (to, left, right)}
    return assemble(name, *fields[ROWS[name][0]])[1]


def pair(rng):
    """Returns two instructions, mostly those of a superinstruction."""
    first, second = rng.choice(SUPERINSTRUCTIONS)
    return [operation(rng, first), operation(rng, second if chance(rng, 0.8) else rng.choice(SECONDS))]


def stored_over(rng, address, instruction_of):
    """Returns two numbers to store over instructions at an address. Each has the last bytes of one instruction and the first bytes of another. The
    two often differ in one bit."""
    one, other = ((instruction_of(rng) << 32 | instruction_of(rng)) >> 8 * (address % 4) & ONES for _ in range(2))
    return one, rng.choice((other, one ^ 1 << rng.choice((rng.randrange(32), rng.randrange(25, 32)))))


def prologue(rng, entry, after, guarded):
    """Returns code for START and its registers. The code stores and loads at x2, and goes to the entry. In some inputs it first sets two PMP entries,
    one of them at the guarded address, and it goes to the entry in another mode or with MPRV. Its handler of traps disables interrupts, and goes to
    the address `after` and to the entry by turns."""
    order = [(PMPADDR[0], 16), (PMPADDR[1], 17), (PMPCFG[0], 18), (MTVEC, 19), (MIE_CSR, 20), (MEPC, 21), (MSTATUS, 22)]
    words = [*(written(*it) for it in order[:-1]), assemble("sw", 26, 0, 2)[1], assemble("lw", 24, 0, 2)[1], written(*order[-1]), WHOLE["mret"]]
    handler = START + 4 * len(words)
    words += [written(MIE_CSR, 0), written(MEPC, 23), assemble("xor", 23, 23, 25)[1], WHOLE["mret"]]
    region = guarded >> 2 | rng.choice((0, 0, 1, 3, 7, 15))
    cfg = rng.choice((0x08, 0x10, 0x18, 0x18, 0x90, 0x98)) | rng.choice((0, 1, 1, 3, 4, 5, 5)) if chance(rng, 0.4) else 0
    status = rng.choice((0x80, 0x880, 0x21880, 0x21880)) if cfg else 0x1880
    values = (region, ONES, cfg and cfg | 0x1F00, handler, rng.choice((0, 0x80)), entry, status, after, 0, after ^ entry, rng.getrandbits(32))
    return words, list(zip(range(16, 27), values))


def pairs(rng):
    """Returns a program of superinstructions, some across the end of a sector or of a cache line. Every second or fourth turn of its loop stores over
    one of its operations, or over bytes of two; it stores two values by turns. Runs of all short lengths have breakpoints and watchpoints between the
    two operations."""
    place = 4 * rng.choice((16, rng.randrange(16, 64), rng.randrange(21, 32, 2), rng.randrange(245, 256, 2), rng.randrange(249, 256)))
    start, words = START + place, [word for _ in range(rng.choice((1, 2, 3, 5))) for word in pair(rng)]
    if chance(rng, 0.3):
        words.insert(rng.randrange(len(words)), operation(rng, "addi"))
    offset, after, end = rng.choice((0, 0, 0, 0, 1, 2, 3, 3)), start + 4 * len(words), (start | 63) + 1
    edges = [at for at in (end - 4, end - 4, end) if at < after]
    target = rng.choice((*edges, *rng.sample(range(start, after, 4), 2))) + offset
    new, other = stored_over(rng, target, lambda rng: operation(rng, rng.choice(SECONDS)))
    words += [assemble("addi", 9, 9, 1)[1], assemble("andi", 10, 9, rng.choice((1, 3)))[1], assemble("bne", 10, 0, 12)[1],
              assemble(rng.choice(("sw", "sw", "sw", "sh", "sb")), 3, 0, 1)[1], assemble("xor", 3, 3, 4)[1]]
    words += [assemble("add", 11, 11, rng.choice((5, 6, 7, 8)))[1]] * chance(rng, 0.5)
    words.append(assemble("jal", 0, -4 * len(words))[1])
    first, registers = prologue(rng, start, after, rng.choice((start + 4 * rng.randrange(len(words)), target & -4, *[START + 0x800] * 2)))
    lines = ["setreg %d %x" % it for it in ((1, target), (2, START + 0x800), (3, new), (4, new ^ other), *registers,
                                            *((i, rng.getrandbits(rng.choice((2, 32)))) for i in (5, 6, 7, 8)))]
    lengths = rng.sample(range(1, 25), 10) if chance(rng, 0.3) else [rng.choice((8, 9, 40, 63, 64, 65, 200, 333)) for _ in range(3)]
    for length in lengths:
        lines += ["%s %d" % (rng.choice(("run", "step")), length), "regs"]
        if chance(rng, 0.2):
            stop = rng.choice((start + 4 * rng.randrange(len(words)), end - 4, target, START + 0x800)) + rng.choice((0, 0, 2))
            lines.append("%s %x" % (rng.choice(("break", "watch")), stop))
        if chance(rng, 0.1):
            lines.append("poke %x %x" % (start + rng.randrange(4 * len(words)), rng.randrange(256)))
        lines += ["timer on"] * chance(rng, 0.03)
    padded = [*first, *[0x13] * (place // 4 - len(first)), *words]
    return ["run", "--ram", "131072"], joined(in_lines(rng, digits_of(padded)), [*lines, "csr b02", "mem %x 64" % start, "mem 80000800 16"])


def poked(at, word):
    """Returns the lines that write a word at an offset from the start of RAM."""
    return ["poke %x %x" % (START + at + i, byte) for i, byte in enumerate(word.to_bytes(4, "little"))]


def piece_word(rng):
    """Returns an instruction of a piece. It computes, or loads and stores at x1 and x2."""
    name = rng.choice(("addi", "addi", "add", "xor", "sltu", "sw", "lw", "lw", "auipc"))
    fields = {"addi": (rng.choice((5, 5, 6)), 5, rng.choice((1, 4, -4))), "sw": (rng.choice((5, 6)), 4 * rng.randrange(3), 2),
              "lw": (6, 0, rng.choice((1, 2))), "auipc": (6, 0)}
    return assemble(name, *fields.get(name, (rng.choice((5, 6)), 5, 6)))[1]


def jump(rng, link, at, target, addresses):
    """Returns a jump from an offset to another one: by an offset, or to a register that has the address of the target."""
    ways = [("jalr", link, 0, register) for register, place in addresses.items() if place == target]
    ways += [("jal", link, target - at)] * (abs(target - at) < 1 << 20)
    return assemble(*rng.choice(ways))[1]


def piece(rng, at, target, addresses):
    """Returns the words of a piece from an offset on. The last one jumps to the target. Before it, the piece may store over the word at x1 with two
    values by turns. By a counter it then branches to another address of those of registers, or returns, in some turns."""
    words = [piece_word(rng) for _ in range(rng.randrange(3))]
    if chance(rng, 0.5):
        words += [assemble("sw", 3, 0, 1)[1], assemble("xor", 3, 3, 4)[1]]
    if chance(rng, 0.5):
        words += [assemble("addi", 12, 12, 1)[1], assemble("andi", 13, 12, rng.choice((2, 4, 4, 6, 8)))[1]]
        here, test = at + 4 * len(words), rng.choice(("beq", "bne"))
        near = [other for other in addresses.values() if abs(other - here) < 4096]
        far = assemble("jalr", rng.choice((0, 8)), rng.choice((0, 0, 0, 1, 2)), rng.choice((8, *addresses)))[1]
        words += rng.choice(([assemble(test, 13, 0, rng.choice(near or [here + 4]) - here)[1]], [assemble(test, 13, 0, 8)[1], far]))
    words.append(jump(rng, rng.choice((0, 0, 8)), at + 4 * len(words), target, addresses))
    return [*words, *[0x13] * rng.randrange(3), assemble("jalr", 0, 0, 9)[1]]


def links(rng):
    """Returns a program in pieces in several cache lines, often two of them of one set. The pieces jump to each other in a cycle, or go on into the
    next line. Some of their stores are over a piece, and some words of pieces change between two runs. Lines have 1024
    bytes, and there are 64 sets. The lines at 0x1FC00 and 0x400000 have the set of the line at 0. The line at 0x10000 has that of 0x400."""
    far = rng.choice((0x1FC00, 0x1FC40, 0x1FC40, 0x1FC38, 0x1FFC0, 0x10000, 0x100FC, 0x103E0, 0x400040))
    size = 0x410000 if far == 0x400040 else 0x20000
    places = [0x40, *map(rng.choice, ((0x80, 0xA0, 0xFC), (0x3D8, 0x3F0, 0x3F8, 0x3FC, 0x400), (0x440, 0x4FC, 0x7F8))), far]
    addresses = dict(zip((9, *rng.sample((10, 11, 14, 15), 4)), places))
    over = START + rng.choice((far, far, far, *places)) + rng.choice((0, 0, 0, 0, 4, 4, 4, 8, 8, 12, -3, -2, -1, -1, -1, 1, 2, 3, 3))
    data = START + rng.choice((0x4000, 0x4000, 0x4000, 0x4000, size - 3, size - 6, size - 8))
    guarded = rng.choice((over & -4, START + rng.choice(places) + rng.choice((0, 0, 4, 8)), data & -4))
    first, registers = prologue(rng, START + 0x40, START + rng.choice(places), guarded)
    cycle, memory = rng.sample(places, 5), dict(zip(range(0, 0x40, 4), first))
    for place in places:
        target = cycle[cycle.index(place) - 1]
        memory.update(zip(range(place, size, 4), piece(rng, place, target, addresses)))
    near = digits_of([memory.pop(at, 0x13) for at in range(0, 0x430, 4)])
    lines, (new, other) = [line for at, word in memory.items() for line in poked(at, word)], stored_over(rng, over, piece_word)
    lines += ["setreg %d %x" % it for it in ((1, over), (2, data), (3, new), (4, new ^ other), (5, rng.randrange(9)), (6, 4),
                                             (8, START + 0x40), *registers, *((i, START + at) for i, at in addresses.items()))]
    for _ in range(rng.randrange(2, 5)):
        lines += ["timer on"] * chance(rng, 0.05)
        lines += ["%s %d" % (rng.choice(("run", "step")), rng.choice((2, 3, 9, 25, 65, 150, 200, 333))), "regs"]
        if chance(rng, 0.1):
            lines.append("%s %x" % (rng.choice(("break", "watch")), START + rng.choice(places)))
        lines += poked(rng.choice(places) + rng.choice((0, 0, 4)), piece_word(rng)) * chance(rng, 0.4)
    shown = ["csr b02", "mem 80000040 64", "mem 800003f0 64", "mem 80004000 16"]
    return ["run", "--ram", str(size)], joined(in_lines(rng, near), [*lines, *shown])


def segments_of(rng, size):
    low = rng.choice((START, START, START + 0x10000))
    for _ in range(rng.choice((0, 1, 1, 2, 2, 3, 5))):
        data = bytes(rng.randrange(256) for _ in range(rng.choice((0, 1, 4, 5, 16))))
        place = rng.choice((low, low + 4 * rng.randrange(12), low + rng.randrange(64), START + size - rng.randrange(1, 20),
                            address(rng, size)))
        yield segment(place & ONES, data, rng.choice((None, len(data), len(data) + rng.randrange(20), rng.randrange(20), 0)),
                      type=rng.choice((LOAD, LOAD, LOAD, LOAD, 0, 4)))


def elf_file(rng):
    """Returns an ELF file, changed or truncated, and commands that show the loaded bytes."""
    words = options(rng)
    size = int(words[2])
    entry = rng.choice((START, START, START + 0x10000, address(rng, size)))
    file = MUTATED if chance(rng, 0.4) else elf(*segments_of(rng, size), entry=entry, tail=rng.choice((b"", CODE)))
    for _ in range(rng.choice((0, 0, 1, 1, 2, 3))):
        place, new = mutation(rng) if chance(rng, 0.8) else (rng.randrange(len(file)), bytes([rng.randrange(256)]))
        file = with_bytes(file, min(place, len(file)), new)
    file = file[:rng.randrange(len(file) + 1)] if chance(rng, 0.1) else file
    shown = [START, START + 0x10000, *(it["paddr"] for it in program_headers(file))][:6]
    lines = ["mem %x 64" % (max(START, min(at - 4, START + size - 64)) & ONES) for at in shown] + ["step 1", "csr 341", "regs"]
    return words, joined(in_lines(rng, file.hex()), lines)


def good_operand(rng, form, limits, names):
    """Returns text that is mostly valid for the form of an operand of a statement."""
    least, most = limits or (0, 1)
    value = rng.choice((0, 2, 4, least, most, rng.randint(least, most))) & (~1 if most % 2 == 0 else -1)
    choices = {register: rng.choice((*X_NAMES, *ABI_NAMES)), csr: rng.choice((*CSRS, "0x%x" % rng.randrange(4096))),
               target: rng.choice((*names, *names, str(value))), based: "%d(%s)" % (value, rng.choice(ABI_NAMES)),
               fence_set: rng.choice(("iorw", "r", "rw", "0", "io", "w", "ow"))}
    return choices.get(form, str(value))


def any_operand(rng, form, limits, names):
    """Returns text for the form of an operand of a statement, valid or not."""
    least, most = limits or (0, 1)
    value = rng.choice((0, 1, 2, 4, 8, -1, -4, least, most, most + 1, least - 1, rng.randint(least, most), rng.randint(least, most) & ~1))
    shown = rng.choice((str(value),) * 5 + (hex(value & ONES), hex(value), "0%d" % value, "%d " % value, "-0", "0x", "+1"))
    reg = rng.choice((*X_NAMES, *ABI_NAMES, "fp") * 3 + ("x32", "X1", "x01", "a8", ""))
    choices = {register: reg, csr: rng.choice((*CSRS, "0x%x" % rng.randrange(4096), str(rng.randrange(4200)), "mhartid ", "CSR")),
               target: rng.choice((*names, *names, shown, "nowhere" if chance(rng, 0.1) else shown)),
               based: rng.choice(("%s(%s)",) * 9 + ("%s (%s)", "(%s)%s", "%s%s", "%s(%s))")) % (shown, reg),
               fence_set: rng.choice(("iorw", "r", "rw", "0", "io", "w", "ow", "wr", "", "iorwx"))}
    return choices.get(form, shown)


def statement(rng, names, is_good):
    name = rng.choice((*STATEMENTS, "li", "jal", "beq", "bne", "nop", "li"))
    forms, limits = STATEMENTS[name]
    operands = [(good_operand if is_good else any_operand)(rng, form, limits, names) for form in forms]
    if not is_good and chance(rng, 0.04):
        operands = operands[:-1] if chance(rng, 0.5) else operands + ["x1"]
    blank = rng.choice((" ", " ", " ", "\t", "   "))
    return name + (blank if operands else "") + rng.choice((",", ", ", ", ", " , ")).join(operands)


def asm(rng):
    """Returns an assembler text: mostly valid statements and labels, so that most errors occur alone."""
    names = rng.sample(("a", "b", "loop", "_x", ".L1", "x1", "end_of.it9", "nop", "c" * 32), rng.randrange(1, 6))
    left, lines, worst = list(names), [], rng.choice((0, 0, 0, 0.1, 0.5))
    for _ in range(rng.randrange(1, 14)):
        label = rng.choice(BLANKS) + left.pop() + ":" + rng.choice(BLANKS) if left and chance(rng, 0.4) else rng.choice(BLANKS)
        body = rng.choice(("", "", "# nop", "nop # x", "nop"))
        if chance(rng, 0.85):
            body = rng.choice(names) + ":" if chance(rng, worst / 10) else statement(rng, names, not chance(rng, worst))
        lines.append(label + body + rng.choice(("",) * 6 + (" # " + rng.choice(("x", "a:", "\x7e")), " ", "\t")))
    lines += [rng.choice(BLANKS) + it + ":" for it in left if chance(rng, 0.97)]
    data = ("".join(line + rng.choice(("\n",) * 9 + ("\r\n",)) for line in lines[:-1]) + lines[-1] + rng.choice(ENDS)).encode("latin-1")
    return ["asm"], spoilt(rng, data) if chance(rng, 0.25) else data


def dis(rng):
    """Returns an image to disassemble: instructions, some with a changed bit, and random words."""
    words = [instruction(rng) ^ (1 << rng.randrange(32) if chance(rng, 0.3) else 0) if chance(rng, 0.8) else rng.getrandbits(32)
             for _ in range(rng.choice((1, 2, 5, 20, 60)))]
    text = in_lines(rng, digits_of(words)) + rng.choice(("",) * 8 + ("--\n", "--\nabc\n", "13\n", " --\t\n9300\n", "-- x\n"))
    data = text.encode("latin-1")
    return ["dis"], spoilt(rng, data) if chance(rng, 0.2) else data


class Scenes:
    """Lines for a monitored bench: calls, steps of an enclave, and commands that show them. The states of enclaves are only guessed. `worlds` has the
    worlds of the harts; the lines are for one hart."""

    def __init__(self, rng, harts=1):
        self.rng, self.lines, self.states, self.regions, self.is_keyed = rng, [], {}, {}, set()
        self.worlds, self.hart = [None] * harts, 0
        for hart in reversed(range(harts)):
            self.go_on(hart)
            self.lines.append("setreg 17 %x" % KEY)

    @property
    def world(self):
        return self.worlds[self.hart]

    @world.setter
    def world(self, slot):
        self.worlds[self.hart] = slot

    def go_on(self, hart):
        """Selects the hart of the following lines."""
        self.lines += ["hart %d" % hart] * (self.hart != hart)
        self.hart = hart

    def step(self):
        """Makes a step of the hart, and possibly some of another."""
        here, other = str(self.hart), str(1 - self.hart)
        is_raced = len(self.worlds) > 1 and chance(self.rng, 0.4)
        return "sched " + self.rng.choice((here + other, other + here, here + here + other, here)) if is_raced else "step 1"

    def call(self, function, *arguments):
        """Makes an ecall with these registers; an enclave sets the key once."""
        rng = self.rng
        if self.world is not None and self.world not in self.is_keyed:
            self.is_keyed |= {self.world} if chance(rng, 0.95) else set()
            self.lines.append("setreg 17 %x" % (KEY if self.world in self.is_keyed else KEY + 1))
        self.lines += ["setreg 16 %x" % function, *("setreg %d %x" % it for it in zip((10, 11, 12, 13, 14), arguments)), self.step()]

    def create(self):
        rng, slot = self.rng, min(set(range(14)) - {*self.states})
        region, window = rng.choice(REGIONS), rng.choice(WINDOWS)
        entry = region[0] + rng.choice((0, 0, 0, 4, 0x100, region[1] - 4, 2 if chance(rng, 0.1) else 0))
        self.lines += ["poke %x 73" % (entry + 4 * i) for i in range(rng.randrange(4))]
        if chance(rng, 0.2):
            word = instruction(rng)
            self.lines += ["poke %x %x" % (entry + i, word >> 8 * i & 0xFF) for i in range(4)]
        self.call(CREATE, *region, *window, entry)
        if not any(meet(region, other) for other in self.regions.values()):
            self.states[slot], self.regions[slot] = "Fresh", region

    def host(self):
        rng = self.rng
        slot = rng.choice((*self.states, *self.states, *self.states, 0, 13))
        function = rng.choice((CREATE, CREATE, RUN, RUN, RUN, RESUME, RESUME, DESTROY, MEASURE, STOP))
        if function == CREATE or not self.states:
            return self.create()
        wanted = {RUN: "Fresh", RESUME: "Stopped"}.get(function)
        slot = next((it for it, state in self.states.items() if state == wanted), slot)
        self.call(function, slot, address(rng) if chance(rng, 0.3) else 0x80030000)
        if wanted and self.states.get(slot) == wanted:
            self.world, self.states[slot] = slot, "Running"
        elif function == DESTROY:
            self.states.pop(slot, None), self.regions.pop(slot, None), self.is_keyed.discard(slot)

    def enclave(self):
        rng, function = self.rng, self.rng.choice((STOP, STOP, EXIT, MEASURE, RUN, None, None, 0))
        if function is None:
            self.lines += rng.choice((["timer on", "step 1"], ["timer on", "step 2"], ["step 1"], ["setreg 6 %x" % address(rng), "step 1"]))
        else:
            self.call(function, address(rng) if chance(rng, 0.3) else rng.randrange(8))
        if function in (STOP, EXIT) or self.lines[-2] == "timer on":
            self.states[self.world], self.world = "Exited" if function == EXIT else "Stopped", None

    def show(self):
        rng, regions = self.rng, [*self.regions.values(), (START, 0x10000)]
        base, size = rng.choice(regions)
        near = base + rng.choice((-4, -2, -1, 0, 4, size - 4, size - 2, size - 1, size, size // 2))
        self.lines += rng.choice((["regs"], ["enclaves"], ["pmp"], ["csr 300", "csr 341", "csr 304"], ["dis %x" % near],
                                  ["mem %x %d" % (near, rng.choice((1, 4, 64)))],
                                  ["access %s %s %x %s" % (rng.choice("MSU"), rng.choice("rwx"), near, rng.choice("124"))] * 2,
                                  ["poke %x %x" % (near, rng.randrange(256))], [command(rng)], ["reg 10", "reg 11"]))

    def turns(self, count):
        for _ in range(count):
            if len(self.worlds) > 1 and chance(self.rng, 0.4):
                self.go_on(1 - self.hart)
            turn = self.host if self.world is None else self.enclave
            self.rng.choice((self.show, turn, turn))()
        return self


def staged(rng, is_twin):
    """Returns scripts over an image of ecalls, and over a random image."""
    code, harts = [0x73 if chance(rng, 0.97) else instruction(rng) for _ in range(60)], rng.choice((1, 1, 2, 2))
    scenes = Scenes(rng, harts).turns(rng.choice((4, 8, 12)))
    if is_twin:
        for hart in range(harts):
            if scenes.worlds[hart] is not None and chance(rng, 0.9):
                scenes.go_on(hart)
                scenes.lines += ["timer on", "step 1"]
                scenes.states[scenes.world], scenes.world = "Stopped", None
        slot = rng.choice((*scenes.states, *scenes.states, *scenes.states, 0, 12))
        scenes.lines.append("--")
        scenes.turns(rng.choice((4, 8, 12)))
    words = ["twin", "--slot", str(slot)] if is_twin else ["run", "--monitor"]
    data = joined(in_lines(rng, digits_of(code)), scenes.lines + ["enclaves", "regs", "pmp"])
    return words + ["--ram", "262144"] + ["--harts", "2"] * (harts > 1), spoilt(rng, data) if chance(rng, 0.1) else data


def played(rng, kind):
    """Returns a script that is made while a model replies, possibly with removed, duplicated or inserted lines."""
    play = kind(rng.getrandbits(48), rng.choice((8, 16, 30, 60)), rng.choice((1, 2)))
    lines = list(play.lines)
    for _ in range(rng.choice((0, 0, 0, 1, 2, 5))):
        at = rng.randrange(len(lines))
        lines[at:at + rng.choice((0, 1))] = rng.choice(([], [command(rng)], [command(rng)], [lines[at]] * 2, ["--"]))
        lines = lines or ["regs"]
    data = joined(in_lines(rng, play.image.hex()), lines)
    return play.words, spoilt(rng, data) if chance(rng, 0.03) else data


def monitor(rng):
    return played(rng, Play) if chance(rng, 0.3) else staged(rng, False)


def twin(rng):
    return played(rng, TwinPlay) if chance(rng, 0.3) else staged(rng, True)


KINDS = {"image": image, "script": script, "code": code, "pairs": pairs, "links": links, "elf": elf_file, "asm": asm, "dis": dis, "monitor": monitor,
         "twin": twin}


def drawn(rng, kind):
    """Returns the arguments and the input of this kind."""
    while True:
        words, data = KINDS[kind](rng)
        if not LONG.search(data):
            return words, data
