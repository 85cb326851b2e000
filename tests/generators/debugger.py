#!/usr/bin/env python3
"""Generates the cases of debugger. Breakpoints and watchpoints end runs at each boundary of an access, in order, and in sets of 32 and 33
addresses. The other cases are poke, hart and sched with one hart, every malformed line of these commands, and long scripts of them.

    python3 -m generators.debugger                      writes its digest and sample
    python3 -m generators.debugger --check              checks that they are up to date
    python3 -m generators.debugger --check-with-llvm    checks each instruction word against llvm-mc

Independent of the code under test: the replies are those of the model in monitor_bench.py, over a bare hart. A handwritten
reply must equal that of the model.
"""
import sys

from generators import case_files
from models.instruction_words import assemble, named
from models.monitor_bench import Bench

START, PAST, ONES = 0x80000000, 0x80100000, 0xFFFFFFFF
AREA = START + 0x2000  # data, after the code
WIDTH = {"b": 1, "h": 2, "w": 4}
ACCESSES = named("load") + named("store")
MOST = 32  # addresses in a set
words = {}  # the words of all instructions, by text


class Case:
    """A bench with a program in mode M: its input, and the replies of the model."""

    def __init__(self, name, program):
        self.topic, self.name, self.image, self.lines, self.replies = "debugger", name, {}, [], []
        for i, instruction in enumerate(program):
            text, word = assemble(*instruction)
            words[text] = word
            self.image.update((START + 4 * i + at, byte) for at, byte in enumerate(word.to_bytes(4, "little")))
        self.bench = Bench(bytes(self.image.values()), kind="raw", is_monitored=False)
        cases.append(self)

    def files(self):
        return {"stdin": case_files.stdin(self.image, self.lines), "stdout": "".join(r + "\n" for r in self.replies)}

    @property
    def pc(self):
        return self.bench.machine.pc

    def add(self, line, *written):
        """Adds a line of the script, with its reply if that is handwritten."""
        replies = self.bench.replies(line)
        assert not written or replies == list(written), (line, replies)
        self.lines.append(line)
        self.replies += replies

    def go(self, command, count, line=None):
        """Adds steps, and the reason why they end."""
        self.add(line or "%s %d" % (command, count))
        return self.replies[-1].split("why=")[1].split(" ")[0]

    def run(self, count):
        return self.go("run", count)

    def sched(self, digits):
        self.add("sched " + digits)

    def put(self, command, address):
        """Adds break or watch."""
        self.add("%s %x" % (command, address))

    def take(self, command, address):
        """Adds clear or unwatch."""
        self.put(command, address)

    def setreg(self, register, number):
        self.add("setreg %d %x" % (register, number))

    def poke(self, address, byte):
        self.add("poke %x %x" % (address, byte))

    def mem(self, address, count):
        self.add("mem %x %d" % (address, count))

    def reg(self, register):
        self.add("reg %d" % register)


cases = []
BACK = ("jalr", 0, 0, 31)  # to the address in x31


def numbers(seed):
    """Yields pseudorandom numbers that are the same on every platform."""
    while True:
        seed = seed * 6364136223846793005 + 1442695040888963407 & (1 << 64) - 1
        yield seed >> 33


# ---- runs that a watchpoint ends

def each_boundary():
    """Each access at each alignment, with a watchpoint on each byte from one before it to one after it."""
    for name in ACCESSES:
        case = Case("watch_%s" % name, [(name, 5, 0, 8), BACK])
        case.setreg(31, START)
        case.setreg(5, 0x87654321)
        for offset in range(4):
            address = AREA + offset
            case.setreg(8, address)
            for watched in range(address - 1, address + WIDTH[name[1]] + 1):
                case.put("watch", watched)
                case.run(2)
                case.take("unwatch", watched)
                if case.pc != START:
                    case.run(1)


def lowest_of_many():
    """Watchpoints in any order: the lowest accessed one is reported, and none that was not accessed."""
    case = Case("lowest_watch", [("sw", 5, 0, 8), ("lh", 6, 1, 8), ("lbu", 7, 3, 8), BACK])
    case.setreg(31, START)
    case.setreg(8, AREA)
    for watched in (AREA + 4, AREA + 3, AREA - 1, AREA + 2, AREA + 1, AREA):
        case.put("watch", watched)
        for _ in range(4):
            case.run(9)
    for watched in (AREA, AREA + 1, AREA + 3, AREA + 2, AREA + 4, AREA - 1):
        case.take("unwatch", watched)
        for _ in range(4):
            case.run(9)


def fetches():
    """A fetch hits no watchpoint; a store into the code does."""
    case = Case("watch_on_code", [("addi", 1, 1, 1), ("sb", 5, 0, 8), ("ecall",)])
    for address in range(START, START + 12):
        case.put("watch", address)
    case.setreg(8, START + 8)
    case.setreg(5, 0x73)
    case.run(9)
    case.run(9)
    case.reg(1)


def refused():
    """An access that traps hits no watchpoint on any of its bytes."""
    for name, address in (("load_below_ram", START - 2), ("load_behind_ram", PAST - 2), ("load_round_the_end", ONES - 1)):
        case = Case(name, [("lw", 5, 0, 8), BACK])
        case.setreg(8, address)
        for i in range(4):
            case.put("watch", address + i & ONES)
        case.run(1)
        case.run(2)
        case.reg(5)
    case = Case("last_bytes_of_ram", [("sw", 5, 0, 8), ("lb", 5, 3, 8), BACK])
    case.setreg(8, PAST - 4)
    case.setreg(31, START)
    for address in (PAST, PAST - 1, START - 1):
        case.put("watch", address)
        case.run(9)
        case.run(9)


# ---- order of the checks

def order():
    loop = [("addi", 1, 1, 1), ("sb", 1, 0, 8), BACK]
    case = Case("watch_done_break", loop)
    case.setreg(8, AREA)
    case.setreg(31, START)
    case.put("break", START)
    for count in (1, 2, 3, 4):  # starts at the breakpoint, and does not stop there
        case.run(count)
        case.run(3)
    case.put("break", START + 8)
    case.put("watch", AREA)
    for count in (1, 2, 3, 1, 2, 1, 1, 5, 5, 5):
        case.run(count)
    for count in (1, 3, 7):
        case.go("step", count)
    case.take("unwatch", AREA)
    for count in (1, 2, 3, 1, 2, 1, 1, 5, 5, 5):
        case.run(count)
    case.take("clear", START + 8)
    case.take("clear", START)
    case.run(1000000)


def breaks_on_the_way():
    """Breakpoints that a jump skips, at an address without an instruction, and at a handler."""
    case = Case("break_places", [("jal", 1, 8), ("addi", 2, 2, 1), ("addi", 3, 3, 1), ("ecall",)])
    for address in (START + 4, START + 2, START + 9, START + 11):
        case.put("break", address)
    case.run(2)
    case.put("break", START + 12)
    case.put("break", 0)
    case.go("step", 1)
    case.run(9)
    case.run(9)
    case.put("break", ONES)
    case.run(2)


# ---- sets of 32 addresses

def full_sets():
    order_of = sorted(range(MOST), key=lambda i: i * 13 % MOST)
    for command, away in (("break", "clear"), ("watch", "unwatch")):
        case = Case("full_%s" % command, [("addi", 0, 0, 0)] * 80)
        for i in order_of:
            case.put(command, AREA + 3 * i)
        for address in (AREA + 1, AREA + 3 * MOST, 0, ONES, AREA, AREA + 3 * (MOST - 1), AREA + 30):
            case.put(command, address)
        case.take(away, AREA + 1)
        case.put(command, AREA + 1)
        case.take(away, AREA + 30)
        case.put(command, AREA)
        case.put(command, AREA + 1)
        case.put(command, AREA + 30)
        for i in order_of:
            case.take(away, AREA + 3 * i)
            case.take(away, AREA + 3 * i)
        case.put(command, AREA + 30)
        case.put(command, AREA + 1)
        case.add("%s 0x%08X" % (command, AREA + 1), "ok")
    case = Case("thirty_two_breaks", [("addi", 1, 1, 1)] * 70)
    for i in order_of:
        case.put("break", START + 8 * i + 4)
    case.put("break", START + 8)
    while case.run(100) == "break":
        pass
    case.reg(1)
    case = Case("thirty_two_watches", [("lbu", 5, 0, 8), ("addi", 8, 8, 1), ("jal", 0, -8)])
    case.setreg(8, AREA)
    for i in order_of:
        case.put("watch", AREA + i * i)
    case.put("watch", AREA + 2)
    while case.run(4000) != "done":
        case.reg(8)


# ---- the rest

def pokes():
    case = Case("poke", [("addi", 1, 1, 1), ("lbu", 5, 0, 8), BACK])
    case.setreg(8, AREA)
    case.setreg(31, START)
    case.put("watch", AREA)
    for address, byte in ((AREA, 0xA5), (AREA, 0), (AREA + 1, 0xFF), (START - 1, 1), (PAST - 1, 0x7F), (PAST, 1), (0, 1),
                          (ONES, 1), (AREA, 0x80)):
        case.poke(address, byte)
    case.add("poke 0x%X 0" % (AREA + 2), "ok")
    case.add("poke %x aB" % (AREA + 3), "ok")
    case.mem(AREA, 4)
    case.mem(PAST - 1, 1)
    case.run(9)
    case.reg(5)
    # addi x1, x1, 1 becomes addi x1, x1, 3
    case.poke(START + 2, 0x30)
    case.go("step", 2)
    case.reg(1)
    case.add("enclaves")
    case.add(" enclaves\t")


def one_hart():
    """hart and sched with the existing hart and with a missing one: then no step is made, not even that of an earlier digit."""
    case = Case("one_hart", [("addi", 1, 1, 1), ("sw", 1, 0, 8), ("ecall",), BACK])
    case.setreg(31, START)
    case.setreg(8, AREA)
    case.put("break", START + 4)
    case.put("watch", AREA)
    for digits in ("0", "1", "00", "01", "10", "0" * 64, "0" * 63 + "1", "1" * 64):
        case.sched(digits)
        case.reg(1)
    for line, reply in (("hart 0", "ok"), ("hart 1", "error hart"), ("csr f14", "csr f14=00000000"), (" hart\t0 ", "ok")):
        case.add(line, reply)
    case.setreg(31, START)
    for line in ("hart", "hart 2", "hart 00", "hart 01", "hart 0x1", "hart -1", "hart 1 1", "hart 1 # x", "hart one", "sched", "sched 2",
                 "sched 12", "sched 0 0", "sched " + "0" * 65, "sched " + "1" * 65, "sched " + "0" * 63 + "2", "sched 0x0", "sched 0,0"):
        case.add(line, "error operand")
    for line in ("Hart 0", "harts 0", "Sched 0", "sched0", "schedule 0"):
        case.add(line, "error command")
    case.add("sched 0" + " " * 114, "error line")
    case.sched("0")
    case.run(9)
    case.reg(1)


def malformed():
    case = Case("operands", [("addi", 0, 0, 0)])
    counts = ["", "0", "00", "1000001", "00000001", "0x1", "+1", "-1", "1 1", "a", "1.", "1 # x"]
    addresses = ["", "0x", "0X0", "x0", "g", "-1", "+1", "123456789", "0x123456789", "0 0", "0,", "pc", "80000000 # x"]
    for command in ("run", "step"):
        for operands in counts:
            case.add(("%s %s" % (command, operands)).strip(), "error operand")
    for command in ("break", "clear", "watch", "unwatch"):
        for operands in addresses:
            case.add(("%s %s" % (command, operands)).strip(), "error operand")
    for operands in addresses:
        case.add(("poke %s 0" % operands).strip(), "error operand")
    for byte in ("", "100", "001", "0x1", "0x", "g", "-1", "+1", "1 2", "1,", "# x"):
        case.add(("poke 80000000 " + byte).strip(), "error operand")
    for operands in ("0", "all", "# x"):
        case.add("enclaves " + operands, "error operand")
    for line in ("Run 1", "RUN 1", "runs 1", "run1", "Break 0", "breaks", "brk 0", "cont 1", "Clear 0", "clears 0", "Watch 0",
                 "watches", "Unwatch 0", "unWatch 0", "un watch 0", "Poke 0 0", "pokes 0 0", "enclave", "Enclaves", "bare"):
        case.add(line, "error command")
    for line in ("run 1\x00", "run 1\r\r", "break 0\x7f", "# watch 0\x80", "poke" + " " * 117 + "0"):
        case.add(line, "error line")
    # nothing is set, and nothing ran
    case.go("step", 1)
    case.put("break", START)
    case.go("run", 2, "run" + " " * 116 + "2")


def hostile_lines():
    """Almost valid commands of all kinds: the script continues after each."""
    case = Case("hostile_lines", [("addi", 1, 1, 1), BACK])
    case.setreg(31, START)
    for line, reply in (
            ("step 1000001", "error operand"), ("step 00000001", "error operand"), ("reg 32", "error operand"),
            ("reg", "error operand"), ("regs 1", "error operand"), ("mem 80000000 65", "error operand"),
            ("poke 80000000 100", "error operand"), ("csr 0x300", "error operand"), ("access M r 80000000 3", "error operand"),
            ("timer maybe", "error operand"), ("mem 800fffff 2", "error outside"), ("mem ffffffff 2", "error outside"),
            ("dis fffffffe", "error outside"), ("csr 7a0", "error csr"), ("sched 0101", "error hart"), ("--", "error command"),
            ("reg\0 1", "error line"), ("a" * 121, "error line"), ("a" * 120, "error command"), ("#" * 120, None), ("\t", None),
            ("# x", None), ("#\t\x7f", "error line")):
        case.add(line, *[reply] if reply else [])
        case.run(1)
    case.reg(1)


def long_scripts():
    """A loop of accesses with a moving base, under a pseudorandom script."""
    for seed in range(1, 7):
        case = Case("long_script_%d" % seed, [("lw", 5, 0, 8), ("sh", 5, 6, 8), ("lb", 6, 9, 8), ("addi", 8, 8, 1), ("sb", 6, 0, 8),
                                              ("lhu", 7, 2, 8), BACK])
        chance = numbers(seed)
        case.setreg(31, START)
        case.setreg(8, AREA)
        for _ in range(250):
            kind, near, code = next(chance) % 16, next(chance) % 24, START + 4 * (next(chance) % 8)
            if kind < 3:
                case.put("watch", AREA + near)
            elif kind < 5:
                case.take("unwatch", AREA + near)
            elif kind < 7:
                case.put("break", code)
            elif kind < 9:
                case.take("clear", code)
            elif kind == 9:
                case.poke(AREA + near, next(chance) % 256)
            elif kind == 10:
                case.setreg(8, AREA + next(chance) % 16)
            elif kind == 11:
                case.go("step", 1 + next(chance) % 9)
            elif kind == 12:
                case.mem(AREA, 24)
            else:
                case.run(1 + next(chance) % 20)


each_boundary()
lowest_of_many()
fetches()
refused()
order()
breaks_on_the_way()
full_sets()
pokes()
one_hart()
malformed()
hostile_lines()
long_scripts()

if __name__ == "__main__":
    sys.exit(case_files.main(sys.argv[1:], cases, words, __doc__))
