"""Two harts in S over one RAM: schedules of rvbench's monitored machine and of QEMU with -smp 2.

Both harts are hosts. In rvbench the monitor redirects exceptions to S, and its PMP entries close its range. In QEMU medeleg and the same entries do
that. There are no calls of the monitor, which QEMU does not have.
"""
from __future__ import annotations

import random
import subprocess
from typing import Dict, List, Tuple

from models.instruction_words import assemble, named

from .emulator import Emulator
from .lockstep import Difference
from .registers import INTEGERS, NUMBERS, ONES, RAM, S, State
from .remote import RemoteError

HARTS, RAM_BYTES = 2, 131072
START, CODE, HANDLER, SHARED = RAM + 0x10000, (RAM + 0x11000, RAM + 0x14000), RAM + 0x17000, RAM + 0x18000
SHARED_BYTES, TRIES = 64, 5
SHOWN = ["sstatus", "stvec", "sscratch", "sepc", "scause", "stval"]
NAMES = [*INTEGERS, "pc", *SHOWN]
DELEGATED, CLOSED, OPEN = 0x1FF, 0x18, 0x1F000000
# Register 31 is that of the handler, and 30 has the address of the shared bytes.
BASE, SCRATCH, REGISTERS = 30, 31, range(1, 30)


def words_of(seed: str, hart: int, length: int) -> List[int]:
    """Returns a random straight program: integers, loads and stores of shared bytes, registers of S, and instructions that trap."""
    chosen = random.Random("%s/%d" % (seed, hart))
    register = lambda: chosen.choice(REGISTERS)  # noqa: E731
    made = [assemble("lui", SCRATCH, HANDLER >> 12)[1], assemble("csrrw", 0, NUMBERS["stvec"], SCRATCH)[1], assemble("lui", BASE, SHARED >> 12)[1]]
    while len(made) < length:
        kind, offset = chosen.random(), chosen.randrange(SHARED_BYTES)
        if kind < 0.35:
            made.append(assemble(chosen.choice(named("load")), register(), offset, BASE)[1])
        elif kind < 0.65:
            made.append(assemble(chosen.choice(named("store")), register(), offset, BASE)[1])
        elif kind < 0.85:
            made.append(assemble(chosen.choice(named("register")), register(), register(), register())[1])
        elif kind < 0.95:
            made.append(assemble("csrrw", register(), NUMBERS["sscratch"], register())[1])
        else:  # an illegal word, a store to the monitor's range, or one outside RAM
            made.append(chosen.choice((0xFFFFFFFF, assemble("sw", 1, 0, 0)[1], assemble("csrrs", 1, NUMBERS["mscratch"], 0)[1])))
    return made


def image_of(seed: str, length: int) -> Dict[int, List[int]]:
    """Returns the words of the program of both harts, by their first address."""
    handler = [assemble("csrrs", SCRATCH, NUMBERS["sepc"], 0)[1], assemble("addi", SCRATCH, SCRATCH, 4)[1],
               assemble("csrrw", 0, NUMBERS["sepc"], SCRATCH)[1], assemble("sret")[1]]
    start = [assemble("beq", 10, 0, 8)[1], assemble("jal", 0, CODE[1] - START - 4)[1], assemble("jal", 0, CODE[0] - START - 8)[1]]
    return {START: start, HANDLER: handler, **{CODE[hart]: words_of(seed, hart, length) for hart in range(HARTS)}}


class Pair:
    """Both sides, prepared at the first instruction of both harts."""

    def __init__(self, program: str, seed: str, length: int):
        self.emulator = Emulator(HARTS, RAM_BYTES, counts=False)
        words = [program, "run", "--monitor", "--harts", str(HARTS), "--ram", str(RAM_BYTES)]
        self.bench = subprocess.Popen(words, stdin=subprocess.PIPE, stdout=subprocess.PIPE, text=True)
        data = bytearray(RAM_BYTES - 0x10000)
        for address, code in image_of(seed, length).items():
            data[address - START:address - START + 4 * len(code)] = b"".join(word.to_bytes(4, "little") for word in code)
        self.ask([bytes(data[at:at + 60]).hex() for at in range(0, len(data), 60)] + ["--"], 0)
        self.emulator.write_memory(START, bytes(data))
        for hart in range(HARTS):
            self.select(hart)
            self.emulator.write({"x10": hart, "pmpaddr0": RAM + 0x7FFF >> 2, "pmpaddr15": ONES, "pmpcfg0": CLOSED, "pmpcfg3": OPEN,
                                 "medeleg": DELEGATED, "pc": START, "mode": S})

    def close(self) -> None:
        """Ends both sides."""
        self.emulator.close()
        self.bench.kill()
        self.bench.communicate()

    def ask(self, lines: List[str], replies: int) -> List[str]:
        """Sends lines to the bench, and returns its replies."""
        assert self.bench.stdin and self.bench.stdout
        self.bench.stdin.write("\n".join(lines) + "\n")
        self.bench.stdin.flush()
        return [self.bench.stdout.readline().rstrip("\n") for _ in range(replies)]

    def select(self, hart: int) -> None:
        """Selects a hart of QEMU."""
        self.emulator.remote.order(["Hgp1.%d" % (hart + 1)])

    def states(self, hart: int) -> Tuple[State, State]:
        """Returns the state of a hart on both sides."""
        lines = self.ask(["hart %d" % hart, "regs", *("csr %x" % NUMBERS[name] for name in SHOWN)], 34 + len(SHOWN))[2:]
        ours = dict(zip(NAMES, (int(line.partition("=")[2], 16) for line in lines)))
        self.select(hart)
        answers = self.emulator.remote.ask_all("p%x" % self.emulator.numbers[name] for name in NAMES)
        return ours, dict(zip(NAMES, (int.from_bytes(bytes.fromhex(it), "little") for it in answers)))

    def step(self, hart: int) -> None:
        """Makes a step of a hart of QEMU. With two harts its gdb server stops now and then before the step. Each instruction of a program changes pc,
        so that the step is then made again."""
        self.select(hart)
        self.emulator.write({"pmpcfg0": CLOSED})  # empties the TLB
        before = self.emulator.read("pc")
        for _ in range(TRIES):
            self.emulator.remote.ask("vCont;s:p1.%d" % (hart + 1))
            self.select(hart)
            if self.emulator.read("pc") != before:
                return
        raise RemoteError("QEMU does not step hart %d" % hart)

    def run(self, schedule: str) -> None:
        """Makes the steps of a schedule on both sides, and compares both harts and the shared bytes; raises `Difference`."""
        self.ask(["sched " + schedule], HARTS)
        for digit in schedule:
            self.step(int(digit))
        for hart in range(HARTS):
            ours, theirs = self.states(hart)
            found = ["x%s" % name if name.isdigit() else name for name in NAMES if ours[name] != theirs[name]]
            if found:
                raise Difference("hart %d differs after sched %s in %s: %s" % (hart, schedule, found, [(ours[it], theirs[it]) for it in found]))
        shown = self.ask(["mem %x %d" % (SHARED, SHARED_BYTES)], 1)[0].partition(":")[2].replace(" ", "")
        if bytes.fromhex(shown) != self.emulator.read_memory(SHARED, SHARED_BYTES):
            raise Difference("the shared bytes differ after sched %s" % schedule)


def compare_schedules(program: str, seed: str, steps: int) -> int:
    """Compares random schedules of two harts; returns the number of steps."""
    chosen, done = random.Random("schedules/" + seed), 0
    pair = Pair(program, seed, steps)
    try:
        while done < steps:
            schedule = "".join(chosen.choice("01") for _ in range(chosen.randrange(1, 65)))
            pair.run(schedule)
            done += len(schedule)
    finally:
        pair.close()
    return done
