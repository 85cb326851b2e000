"""A reference model of rvbench, by docs/IMAGES.md and docs/COMMANDS.md: images, commands, and the replies to a script. It models one bench, or two
that differ in one enclave. The machine is that of monitor_model.py with one or two harts, or a bare hart. Independent of the code under test.

    tests/models/monitor_bench.py [run --monitor --harts 2 .. | twin --slot K ..] < stdin    writes the expected output
"""
import argparse
import copy
import re
import sys

from models import elf_model
from models.assembly_model import disassembled
from models.monitor_hart import HartInMemory
from models.monitor_model import HOST_ENTRY, MONITOR_SIZE, SLOTS, Monitored, meet
from models.privileged_hart import KEPT, LETTER, M, START

MOST_ADDRESSES, MOST_STEPS, MOST_SHOWN, MOST_LINE = 32, 1000000, 64, 120
MODE = {letter: mode for mode, letter in LETTER.items()}
HEX, COUNT, BYTE, CSR = "(?:0x)?[0-9a-fA-F]{1,8}", "[0-9]{1,7}", "[0-9a-fA-F]{1,2}", "[0-9a-fA-F]{1,3}"
FORMS = {"step": [COUNT], "run": [COUNT], "break": [HEX], "clear": [HEX], "watch": [HEX], "unwatch": [HEX], "reg": [COUNT],
         "regs": [], "setreg": [COUNT, HEX], "csr": [CSR], "mem": [HEX, COUNT], "poke": [HEX, BYTE], "dis": [HEX], "pmp": [],
         "enclaves": [], "access": ["[MSU]", "[rwx]", HEX, "[124]"], "timer": ["on|off"], "hart": ["[01]"], "sched": ["[01]{1,64}"]}
# the index, and the smallest and largest value of a decimal operand
LIMITS = {"step": (0, 1, MOST_STEPS), "run": (0, 1, MOST_STEPS), "reg": (0, 0, 31), "setreg": (0, 0, 31), "mem": (1, 1, MOST_SHOWN)}


MHARTID = 0xF14  # the number of the selected hart


class Fault(Exception):
    """The reply to a line that has no effect, or the line that ends the program."""


class BareHart(HartInMemory):
    """Without a monitor, the hart starts in M."""
    world, table, entered = "bare", {}, None

    def __init__(self, ram, entry):
        super().__init__(ram)
        self.pc, self.mode, self.peers = entry, M, [self]


# ---- images

def elf_faults(file, size, is_monitored):
    """Returns the faults of elf_model, and those of the range of the monitor."""
    found = elf_model.faults(file, size)
    if is_monitored:
        loads = [it for it in elf_model.program_headers(file) if it["type"] == elf_model.LOAD and it["memsz"]]
        entry = elf_model.field(file, "entry")
        found |= {9} if any(meet((it["paddr"], it["memsz"]), (START, MONITOR_SIZE)) for it in loads) else set()
        found |= {11} if entry is not None and meet((entry, 4), (START, MONITOR_SIZE)) else set()
    return found


def loaded(image, kind, size, is_monitored):
    """Returns the bytes of RAM and the entry, or the fault."""
    if size % 65536 or not 65536 <= size <= 16777216:
        raise Fault("rvbench: ram 1")
    ram = bytearray(size)

    def put(address, data):
        ram[address - START:address - START + len(data)] = data

    if elf_model.is_elf(image, kind):
        found = elf_faults(image, size, is_monitored)
        entry = elf_model.field(image, "entry")
    else:
        entry = HOST_ENTRY if is_monitored else START
        found = {9} if image and entry + len(image) > START + size else set()
        found |= {11} if entry + 4 > START + size else set()
    if found:
        raise Fault("rvbench: image %d" % min(found))
    if not elf_model.is_elf(image, kind):
        put(entry, image)
    else:
        for it in elf_model.program_headers(image):
            if it["type"] == elf_model.LOAD and it["memsz"]:
                put(it["paddr"], image[it["offset"]:][:it["filesz"]])
    return ram, entry


# ---- commands

def shown(trap):
    return "%08x:%08x" % (trap.cause, trap.tval) if trap else "-"


def parsed(line):
    """Returns the tokens of a script line, which has one character per byte; none if the line has no reply."""
    if len(line) > MOST_LINE or re.search("[^\t -~]", line):
        raise Fault("error line")
    words = re.split("[ \t]+", line.strip(" \t"))
    if words[0] == "" or words[0].startswith("#"):
        return []
    if words[0] not in FORMS:
        raise Fault("error command")
    forms = FORMS[words[0]]
    if len(forms) != len(words) - 1 or not all(map(re.fullmatch, forms, words[1:])):
        raise Fault("error operand")
    if words[0] in LIMITS:
        place, least, most = LIMITS[words[0]]
        if not least <= int(words[1 + place]) <= most:
            raise Fault("error operand")
    return words


class Bench:
    """One bench. `machine` is the selected hart; `entered` has the slots that the last command entered."""

    def __init__(self, image, kind="auto", ram=1048576, is_monitored=True, harts=1):
        ram, entry = loaded(image, kind, ram, is_monitored)
        self.machine = (Monitored if is_monitored else BareHart)(ram, entry)
        for _ in range(1, harts):
            self.machine.add_hart()
        self.breaks, self.watches, self.entered = set(), set(), set()

    @property
    def harts(self):
        return self.machine.peers

    def replies(self, line):
        """Returns the reply to a script line."""
        try:
            words = parsed(line)
        except Fault as fault:
            return [fault.args[0]]
        return self.answers(words) if words else []

    def answers(self, words):
        """Returns the reply to a command."""
        self.entered = set()
        try:
            answer = getattr(self, "do_" + words[0])(*words[1:])
        except Fault as fault:
            answer = fault.args[0]
        return [answer] if isinstance(answer, str) else answer

    def world(self):
        return self.place_of(self.machine)[2]

    @staticmethod
    def place_of(hart):
        """Returns the pc, mode and world of a hart."""
        world = hart.world
        return hart.pc, LETTER[hart.mode], "host" if world is None else world if world == "bare" else "e%d" % world

    def step_of(self, hart):
        """Steps a hart; returns its trap."""
        trap = hart.step()
        self.entered |= {hart.entered} - {None}
        return trap

    def stepped(self, count, breaks, watches):
        done, last, why = 0, None, None
        while why is None:
            last = self.step_of(self.machine) or last
            done += 1
            watched = watches.intersection(self.machine.reached)
            if watched:
                why = "watch:%08x" % min(watched)
            elif done == int(count):
                why = "done"
            elif self.machine.pc in breaks:
                why = "break"
        return "ran %d pc=%08x mode=%s world=%s why=%s trap=%s" % (done, *self.place_of(self.machine), why, shown(last))

    def do_step(self, count):
        return self.stepped(count, set(), set())

    def do_run(self, count):
        return self.stepped(count, self.breaks, self.watches)

    def hart_of(self, digit):
        if int(digit) >= len(self.harts):
            raise Fault("error hart")
        return self.harts[int(digit)]

    def do_hart(self, digit):
        self.machine = self.hart_of(digit)
        return "ok"

    def do_sched(self, digits):
        order = [self.hart_of(digit) for digit in digits]  # before any step
        traps = [(hart, self.step_of(hart)) for hart in order]
        output = []
        for number, hart in enumerate(self.harts):
            last = next((trap for stepped, trap in reversed(traps) if stepped is hart and trap), None)
            output.append("hart %d %d pc=%08x mode=%s world=%s trap=%s" % (number, order.count(hart), *self.place_of(hart), shown(last)))
        return output

    def put_into(self, addresses, text):
        address = int(text, 16)
        if address not in addresses and len(addresses) == MOST_ADDRESSES:
            raise Fault("error full")
        addresses.add(address)
        return "ok"

    def do_break(self, text):
        return self.put_into(self.breaks, text)

    def do_watch(self, text):
        return self.put_into(self.watches, text)

    def do_clear(self, text):
        self.breaks.discard(int(text, 16))
        return "ok"

    def do_unwatch(self, text):
        self.watches.discard(int(text, 16))
        return "ok"

    def do_reg(self, text):
        return "x%d=%08x" % (int(text), self.machine.regs[int(text)])

    def do_regs(self):
        return ["x%d=%08x" % pair for pair in enumerate(self.machine.regs)] + ["pc=%08x" % self.machine.pc]

    def do_setreg(self, register, value):
        self.machine.set(int(register), int(value, 16))
        return "ok"

    def do_csr(self, text):
        number = int(text, 16)
        if number not in KEPT:
            raise Fault("error csr")
        word = self.harts.index(self.machine) if number == MHARTID else self.machine.reading(number)
        return "csr %03x=%08x" % (number, word)

    def inside(self, text, count):
        address = int(text, 16)
        if not self.machine.is_inside(address, count):
            raise Fault("error outside")
        return address

    def do_mem(self, text, count):
        address = self.inside(text, int(count))
        return "%08x:" % address + "".join(" %02x" % byte for byte in self.machine.part(address, int(count)))

    def do_poke(self, text, byte):
        self.machine.put(self.inside(text, 1), bytes([int(byte, 16)]))
        return "ok"

    def do_dis(self, text):
        address = self.inside(text, 4)
        word = self.machine.word_at(address)
        return "%08x: %08x %s" % (address, word, disassembled(word))

    def do_pmp(self):
        entries = self.machine.entries
        return ["pmp %d cfg=%02x addr=%08x" % (i, entries.cfgs[i], entries.addrs[i]) for i in range(16)]

    def do_enclaves(self):
        return ["enclave %d %s %08x %08x %08x %08x %08x %s" % (slot, it.state, *it.region, *it.window, it.entry,
                                                                it.measurement.hex())
                for slot, it in sorted(self.machine.table.items())]

    def do_access(self, mode, kind, text, width):
        return self.machine.verdict(MODE[mode], kind, int(text, 16), int(width))

    def do_timer(self, text):
        self.machine.timer = text == "on"
        return "ok"


# ---- whole inputs

def lines_of(text):
    lines = text.split("\n")
    return [line[:-1] if line.endswith("\r") else line for line in lines[:-1]] + lines[-1:] * (lines[-1] != "")


def cut_at(lines):
    """Returns the lines before the first line `--`, which must not be too long, and those after it."""
    cut = next((i for i, line in enumerate(lines) if len(line) <= MOST_LINE and line.strip(" \t") == "--"), len(lines))
    return lines[:cut], lines[cut + 1:]


def image_of(lines):
    """Returns the bytes of the lines of an image, each an even number of digits between blanks."""
    if not all(len(line) <= MOST_LINE and re.fullmatch("[ \t]*([0-9A-Fa-f]{2})*[ \t]*", line) for line in lines):
        raise Fault("rvbench: hex")
    return bytes.fromhex("".join(line.strip(" \t") for line in lines))


def output(text, **setup):
    """Returns the expected output for an input, and the status."""
    image, script = cut_at(lines_of(text))
    try:
        bench = Bench(image_of(image), **setup)
    except Fault as fault:
        return fault.args[0] + "\n", 1
    return "".join(reply + "\n" for line in script for reply in bench.replies(line)), 0


# ---- two benches that differ in one enclave

SHOWS = {"mem": lambda words: int(words[2]), "poke": lambda words: 1, "dis": lambda words: 4}  # how many bytes


class Twins:
    """Two benches after the same first script; then the enclave in the slot of the second one gets another secret."""

    def __init__(self, bench, slot):
        self.slot, self.count, self.one, self.other = slot, 0, bench, copy.deepcopy(bench)
        self.is_apart = self.other.machine.scramble(slot)

    def is_blind(self, words):
        """Returns whether the command neither shows nor writes a byte of the region, in either bench."""
        if words[0] not in SHOWS:
            return True
        block = int(words[1], 16), SHOWS[words[0]](words)
        tables = self.one.machine.table, self.other.machine.table
        return not any(self.slot in table and meet(table[self.slot].region, block) for table in tables)

    def replies(self, line):
        """Returns the reply to a line, and whether it ends the run."""
        try:
            words = parsed(line)
        except Fault as fault:
            return [fault.args[0]], False
        if not words or not self.is_blind(words):
            return ["error blind"] if words else [], False
        output = [mark + reply for mark, bench in (("a: ", self.one), ("b: ", self.other)) for reply in bench.answers(words)]
        self.count += 1
        if self.slot in self.one.entered | self.other.entered:
            return ["twin entered %d" % self.count], True
        return output, False


def twin_output(text, slot=0, **setup):
    """Returns the expected output of two benches, and the status."""
    image, scripts = cut_at(lines_of(text))
    first, second = cut_at(scripts)
    try:
        bench = Bench(image_of(image), **setup)
    except Fault as fault:
        return fault.args[0] + "\n", 1
    output = [reply for line in first for reply in bench.replies(line)]
    twins = Twins(bench, slot)
    if not twins.is_apart:
        return "".join(it + "\n" for it in [*output, "twin no slot"]), 0
    for line in second:
        replies, is_last = twins.replies(line)
        output += replies
        if is_last:
            break
    else:
        output.append("twin end %d" % twins.count)
    return "".join(it + "\n" for it in output), 0


# ---- the arguments

def setup_of(words):
    """Returns the configuration of the arguments, for output or for twin_output."""
    parser = argparse.ArgumentParser()
    parser.add_argument("--kind", default="auto", choices=("auto", "raw", "elf"))
    parser.add_argument("--ram", default=1048576, type=int)
    parser.add_argument("--harts", default=1, type=int, choices=(1, 2))
    if words[:1] == ["twin"]:
        parser.add_argument("--slot", default=0, type=int, choices=range(SLOTS))
    else:
        parser.add_argument("--monitor", dest="is_monitored", action="store_true")
    return vars(parser.parse_args(words[1:] if words[:1] in (["run"], ["twin"]) else words))


def wanted(text, words):
    """Returns the expected output with these arguments, and the status."""
    setup = setup_of(words)
    if setup["harts"] > 1 and not setup.get("is_monitored", True):
        return "rvbench: command line\n", 2
    return (twin_output if words[:1] == ["twin"] else output)(text, **setup)


def main(words):
    text, status = wanted(sys.stdin.buffer.read().decode("latin-1"), words)
    sys.stdout.write(text)
    return status


if __name__ == "__main__":
    sys.exit(main(sys.argv[1:]))
