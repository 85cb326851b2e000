#!/usr/bin/env python3
"""Generates the cases of corner_values: for each instruction of RV32IM one with all pairs of corner values, and one for each of its traps
in mode M. A trap ends a case, since there is no memory at 0. csr_table.py and traps.py have the instructions of Zicsr and the other
privileged ones.

    python3 -m generators.corner_values                      writes its digest and sample
    python3 -m generators.corner_values --check              checks that they are up to date
    python3 -m generators.corner_values --check-with-llvm    checks each instruction word against llvm-mc

Independent of the code under test. instruction_results.py computes the results, which are then cut to 32 bits. The next pc, the accessed
bytes and the traps of each group are written out below. The module instruction_words.py encodes the instructions by the tables of the manual.
The encodings are those of llvm-mc, except for a fence with reserved fields, which llvm-mc cannot express.
"""
import sys

from generators import case_files
from models.instruction_results import RESULT, TAKEN
from models.instruction_words import WHOLE, assemble, named

START, PAST, ONES = 0x80000000, 0x80100000, 0xFFFFFFFF  # the first byte of RAM, the first one after it, all ones
CORNERS = [0, 1, 2, 0x12345678, 0x7FFFFFFF, 0x80000000, ONES]
IMMEDIATES = [0, 1, -1, 2047, -2048]
HALF = 0x100  # bytes of code from START, twice, so that jumps go forwards and backwards


class Case:
    """A case: the bytes of its image, its script with the replies, and the present registers, pc and bytes."""
    topic, all, words = "corner_values", [], {}

    def __init__(self, name, registers=None):
        self.name, self.script, self.replies, self.last_comment = name, [], [], None
        self.image, self.stored, self.regs, self.pc, self.halves = {}, {}, [0] * 32, START, [START, START + HALF]
        Case.all.append(self)
        for number, value in (registers or {}).items():
            self.set(number, value)

    def say(self, line, *replies):
        self.script.append(line)
        self.replies.extend(replies)

    def set(self, number, value):
        if self.regs[number] != value & ONES:
            self.regs[number] = value & ONES if number else 0
            self.say("setreg %d %x" % (number, value & ONES), "ok")

    def byte(self, address):
        return self.stored.get(address, self.image.get(address, 0))

    def step(self, *instruction, rd=None, value=0, to=None, trap=None):
        """Executes the instruction at pc: it writes `value` to rd and continues at `to` or after itself, or it traps."""
        text, word = assemble(*instruction)
        Case.words[text] = word
        if self.pc not in self.stored:
            assert self.image.get(self.pc) in (None, word & 0xFF), "two words at one place"
            self.image.update(enumerate(word.to_bytes(4, "little"), self.pc))
        if text != self.last_comment:
            self.script.append("# " + text)
        self.last_comment, self.pc = text, 0 if trap else (self.pc + 4 if to is None else to) & ONES
        self.say("step 1", "ran 1 pc=%08x mode=M world=bare why=done trap=%s" % (self.pc, "%08x:%08x" % trap if trap else "-"))
        if rd is not None:
            self.regs[rd] = value & ONES if rd else 0
            self.say("reg %d" % rd, "x%d=%08x" % (rd, self.regs[rd]))

    def store(self, name, rs2, offset, rs1):
        for i in range({"sb": 1, "sh": 2, "sw": 4}[name]):
            self.stored[(self.regs[rs1] + offset + i) & ONES] = self.regs[rs2] >> 8 * i & 0xFF
        self.step(name, rs2, offset, rs1)

    def place(self, address, *instruction):
        """Stores a word far after the image by sw."""
        self.set(5, address)
        self.set(6, assemble(*instruction)[1])
        self.store("sw", 6, 0, 5)

    def fetch_fault(self):
        self.say("step 1", "ran 1 pc=00000000 mode=M world=bare why=done trap=00000001:%08x" % self.pc)

    def mem(self, address, count):
        shown = "".join(" %02x" % self.byte(address + i) for i in range(count))
        self.say("mem %08x %d" % (address, count), "%08x:%s" % (address, shown))

    def registers(self):
        self.say("regs", *("x%d=%08x" % pair for pair in enumerate(self.regs)), "pc=%08x" % self.pc)

    def other_half(self):
        """Returns where the code continues in the half in which pc is not."""
        here = int(self.pc >= START + HALF)
        self.halves[here] = self.pc + 4
        return self.halves[1 - here]

    def files(self):
        return {"stdin": case_files.stdin(self.image, self.script), "stdout": "\n".join(self.replies) + "\n"}


def trap(name, registers, instruction, cause, tval):
    """Adds an instruction that traps: no register and no byte at either end of RAM changes."""
    case = Case(name, registers)
    case.step(*instruction, trap=(cause, tval & ONES))
    case.registers()
    case.mem(START, 8)
    case.mem(PAST - 8, 8)


def results():
    for name in named("register"):
        case = Case(name)
        pairs = [(a, b) for a in CORNERS for b in CORNERS + ([31, 32, 33] if name in ("sll", "srl", "sra") else [])]
        pairs += [(7, 3), (-7, 3), (7, -3), (-7, -3)] if name in ("div", "divu", "rem", "remu") else []
        forms = [(1, 1, 2), (2, 1, 2), (1, 1, 1), (0, 1, 2), (4, 0, 2), (4, 2, 0), (31, 30, 29), (16, 8, 24)]
        for (rd, rs1, rs2), (a, b) in [((3, 1, 2), p) for p in pairs] + [(f, (0x87654321, 0x12345678)) for f in forms]:
            case.set(rs1, a)
            case.set(rs2, b)
            case.step(name, rd, rs1, rs2, rd=rd, value=RESULT[name](case.regs[rs1], case.regs[rs2]))
    for name in named("immediate") + named("shift"):
        case = Case(name)
        numbers = IMMEDIATES if name in named("immediate") else [0, 1, 16, 31]
        steps = [(3, 1, n, a) for n in numbers for a in CORNERS]
        for rd, rs1, n, a in steps + [(1, 1, 5, 0x87654321), (0, 1, 5, 1), (4, 0, 5, 0), (31, 30, 5, 9), (16, 8, 21, -2)]:
            case.set(rs1, a)
            case.step(name, rd, rs1, n, rd=rd, value=RESULT[name.replace("i", "", 1)](case.regs[rs1], n & ONES))
    for name in ("lui", "auipc"):
        case = Case(name)
        for rd, n in [(3, n) for n in (0, 1, 0x7FFFF, 0x80000, 0xFFFFF, 0x12345)] + [(0, 1), (31, 0xABCDE), (16, 1)]:
            case.step(name, rd, n, rd=rd, value=(n << 12) + (case.pc if name == "auipc" else 0))


def branches():
    far, first = Case("branches_far"), START + 48
    pairs = {name: [[p for p in ((1, 2), (2, 1), (1, 1)) if TAKEN[name](*p) == t][0] for t in (True, False)] for name in TAKEN}
    for i, name in enumerate(named("branch")):
        far.place(first - 4 * i + 4092, name, 1, 2, -4096)
    far.step("jal", 0, first - far.pc, to=first)
    for name in named("branch"):
        (a, b), (c, d) = pairs[name]
        far.set(1, a)
        far.set(2, b)
        far.step(name, 1, 2, 4092, to=far.pc + 4092)
        far.step(name, 1, 2, -4096, to=far.pc - 4096)
        for where, offset in (("forwards", 4094), ("backwards", -4094)):
            trap(name + "_misaligned_" + where, {1: a, 2: b}, (name, 1, 2, offset), 0, START + offset)
        case = Case(name)
        steps = [(1, 2, a, b) for a in CORNERS for b in CORNERS]
        for rs1, rs2, a, b in steps + [(1, 1, 5, 5), (0, 2, 0, 1), (2, 0, 1, 0), (31, 30, 1, 2), (16, 8, 2, 1), (1, 2, c, d)]:
            case.set(rs1, a)
            case.set(rs2, b)
            target = case.other_half()
            case.step(name, rs1, rs2, target - case.pc, to=target if TAKEN[name](a, b) else None)
        case.step(name, 1, 2, 6)  # the target of an untaken branch may be misaligned
        case.step(name, 1, 2, -2)


def jumps():
    case = Case("jal")
    for far in [2**k for k in range(8, 20)]:
        case.place(case.pc + 4 + far, "jal", 2, 4 - far)
        case.step("jal", 1, far, rd=1, value=case.pc + 4, to=case.pc + far)
        case.step("jal", 2, 4 - far, rd=2, value=case.pc + 4, to=case.pc + 4 - far)
    for rd, offset in ((3, 8), (4, -4), (0, 8), (31, 4), (16, 16), (8, 32), (1, 64), (1, 128)):
        case.step("jal", rd, offset, rd=rd, value=case.pc + 4, to=case.pc + offset)
    for where, offset in (("forwards", 1048574), ("backwards", -2)):
        trap("jal_misaligned_" + where, {1: 0x12345678}, ("jal", 1, offset), 0, START + offset)
    case = Case("jal_below_ram")
    case.step("jal", 1, -1048576, rd=1, value=START + 4, to=START - 1048576)
    case.fetch_fault()
    case = Case("jalr")
    for rd, rs1, offset, odd in [(3, 1, n, odd) for n in IMMEDIATES for odd in (0, 1)] + [
            (1, 1, 5, 1), (1, 1, -4, 0), (0, 1, 0, 0), (31, 30, 16, 0), (16, 8, 8, 0)]:
        target = case.other_half()
        case.set(rs1, target - offset + odd)
        case.step("jalr", rd, offset, rs1, rd=rd, value=case.pc + 4, to=target)
    for where, base, offset in (("to_zero", ONES, 1), ("past_ram", PAST - 1, 1), ("to_the_last_word", 0, -4)):
        case = Case("jalr_" + where, {1: base})
        case.step("jalr", 5, offset, 1, rd=5, value=START + 4, to=base + offset)
        case.fetch_fault()
    for why, base, offset in (("odd", START + 0x101, 6), ("even", START + 2, 0), ("sum_wraps", ONES, 3), ("minus_one", 0, -1)):
        trap("jalr_misaligned_" + why, {1: base}, ("jalr", 1, offset, 1), 0, base + offset & ~1)


def accesses():
    area, data = START + HALF, bytes.fromhex("0080ff7f00000080ffffff7fffffffff807f01fe")
    for name in named("load") + named("store"):
        size, cause, register = {"b": 1, "h": 2, "w": 4}[name[1]], *((5, 3) if name[0] == "l" else (7, 2))
        for where, base, offset in (("below_ram", START, -1), ("past_ram", PAST, 1 - size), ("at_the_last_address", 1, -2)):
            trap(name + "_" + where, {1: base, 2: ONES, 3: 0x12345678}, (name, register, offset, 1), cause, base + offset)
    forms = [(1, 1, area), (0, 1, area), (31, 30, area + 1), (16, 8, area + 2)]
    for name in named("load"):
        case, size = Case(name), {"b": 1, "h": 2, "w": 4}[name[1]]
        case.image.update(enumerate(data, area))
        case.set(5, PAST - 4)
        case.set(6, 0x807F80FF)
        case.store("sw", 6, 0, 5)
        places = [*range(area, area + len(data) - size + 1), START, PAST - size]
        for i, (rd, rs1, address) in enumerate([(3, 1, a) for a in places] + forms):
            case.set(rs1, address - IMMEDIATES[i % 5])
            value = int.from_bytes(bytes(case.byte(address + j) for j in range(size)), "little", signed=name in ("lb", "lh"))
            case.step(name, rd, IMMEDIATES[i % 5], rs1, rd=rd, value=value)
    for name in named("store"):
        case, size = Case(name), {"b": 1, "h": 2, "w": 4}[name[1]]
        case.image.update(enumerate(b"\x55" * 448, area))
        places = [area + 16 * i + i % 4 for i in range(28)] + [START, PAST - size]
        for i, (rs2, rs1, address) in enumerate([(2, 1, a) for a in places] + forms):
            case.set(rs1, address - IMMEDIATES[i % 5])
            if rs2 != rs1:
                case.set(rs2, CORNERS[i // 4 % 7])
            case.store(name, rs2, IMMEDIATES[i % 5], rs1)
            case.mem(min(max(address // 4 * 4 - 4, START), PAST - 12), 12)


def others():
    fences = [(name,) for name in WHOLE if name.startswith(("fence", ".word"))]
    for name, instructions in (("fence", fences), ("wfi", [("wfi",)]),
                               ("sfence.vma", [("sfence.vma", *r) for r in ((0, 0), (5, 6), (31, 31))])):
        case = Case(name, {5: 0x12345678, 6: START})
        for instruction in instructions:
            case.step(*instruction)
        case.registers()
        case.mem(START, 8)
    for name, cause, tval in (("ecall", 11, 0), ("ebreak", 3, START + 4)):
        case = Case(name)
        case.step("addi", 5, 0, -1, rd=5, value=-1)
        case.step(name, trap=(cause, tval))
        case.registers()


def main(arguments):
    for part in (results, branches, jumps, accesses, others):
        part()
    return case_files.main(arguments, Case.all, Case.words, __doc__)


if __name__ == "__main__":
    sys.exit(main(sys.argv[1:]))
