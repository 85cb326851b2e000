"""An enclave under the monitor in C of examples/monitors/own_monitor in QEMU, and under rvbench's monitor.

One step of rvbench is a step of QEMU. If it traps, QEMU also runs its monitor up to the mret. After each step x1 to x31, pc, the mode and the
registers of S are compared.
"""
from __future__ import annotations

import re
import subprocess
from pathlib import Path
from typing import Dict, List, Tuple

from .actions import MRET
from .bench import MODES
from .emulator import Emulator
from .lockstep import Difference
from .registers import INTEGERS, M, NUMBERS, RAM, State
from .remote import RemoteError

RAM_BYTES, HOST, PT_LOAD = 1048576, RAM + 0x10000, 1
SHOWN = ["stvec", "sscratch", "sepc", "scause", "stval"]
NAMES = [*INTEGERS, "pc", *SHOWN]
RAN = re.compile(r"ran 1 pc=[0-9a-f]{8} mode=([USM]) world=(\w+) why=done trap=(.*)")


def segments_of(elf: bytes) -> List[Tuple[int, bytes]]:
    """Returns the physical address and the bytes of each loaded segment of a 32-bit ELF file."""
    def number(at: int, size: int) -> int:
        return int.from_bytes(elf[at:at + size], "little")
    headers = [number(28, 4) + 32 * index for index in range(number(44, 2))]
    return [(number(it + 12, 4), elf[number(it + 4, 4):number(it + 4, 4) + number(it + 16, 4)]) for it in headers if number(it, 4) == PT_LOAD]


class Pair:
    """Both sides at the first instruction of the host. `combined` has the monitor in C, the host and the enclave, `image` the last two."""

    def __init__(self, program: str, combined: Path, image: str):
        self.bench = subprocess.Popen([program, "run", "--monitor"], stdin=subprocess.PIPE, stdout=subprocess.PIPE, text=True)
        self.ask([image.rstrip("\n"), "--"], 0)
        self.emulator = Emulator(1, RAM_BYTES, counts=False)
        self.worlds: Dict[str, int] = {}
        for address, data in segments_of(combined.read_bytes()):
            self.emulator.write_memory(address, data)
            returns = [address + at for at in range(0, len(data) - 3, 4) if int.from_bytes(data[at:at + 4], "little") == MRET and address < HOST]
            self.emulator.remote.order("Z0,%x,4" % it for it in returns)
        self.emulator.write({"pc": RAM, "mode": M, "x10": HOST, "x11": RAM_BYTES})
        self._leave_monitor()

    def close(self) -> None:
        """Ends both sides."""
        self.emulator.close()
        self.bench.kill()
        self.bench.communicate()

    def ask(self, lines: List[str], replies: int) -> List[str]:
        """Sends lines to the bench, and returns its replies."""
        assert self.bench.stdin and self.bench.stdout
        self.bench.stdin.write("\n".join(lines) + "\n")
        self.bench.stdin.flush()
        return [self.bench.stdout.readline().rstrip("\n") for _ in range(replies)]

    def _one(self, action: str) -> None:
        if not self.emulator.remote.ask("vCont;%s:p1.1" % action).startswith("T05"):
            raise RemoteError("QEMU does not stop")

    def _leave_monitor(self) -> None:
        """Runs the monitor of QEMU to its mret, and steps over it."""
        self._one("c")
        self._one("s")

    def step(self) -> None:
        """Makes a step on both sides, and compares them; raises `Difference`."""
        head, *lines = self.ask(["step 1", "regs", *("csr %x" % NUMBERS[name] for name in SHOWN)], 34 + len(SHOWN))
        found = RAN.fullmatch(head)
        if not found:
            raise Difference("the bench replies '%s'" % head)
        self.worlds[found[2]] = self.worlds.get(found[2], 0) + 1
        self._one("s")
        if self.emulator.read("mode") == M:
            self._leave_monitor()
        ours: State = dict(zip(NAMES, (int(line.partition("=")[2], 16) for line in lines[1:])))
        theirs = {name: self.emulator.read(name) for name in NAMES}
        ours["mode"], theirs["mode"] = MODES[found[1]], self.emulator.read("mode")
        differing = ["%s: %x, QEMU %x" % (name, ours[name], theirs[name]) for name in ours if ours[name] != theirs[name]]
        if differing:
            raise Difference("after '%s': %s" % (head, "; ".join(differing)))

    def compare_memory(self, address: int, count: int) -> None:
        """Compares bytes of memory."""
        lines = self.ask(["mem %x 64" % at for at in range(address, address + count, 64)], count // 64)
        if bytes.fromhex("".join(line.partition(":")[2].replace(" ", "") for line in lines)) != self.emulator.read_memory(address, count):
            raise Difference("memory from %x on differs" % address)


def compare_example(program: str, combined: Path, image: str, steps: int) -> Dict[str, int]:
    """Compares the steps of an example; returns how many were in each world."""
    pair = Pair(program, combined, image)
    try:
        for _ in range(steps):
            pair.step()
        pair.compare_memory(HOST, 0x10000)
        pair.compare_memory(HOST + 0x20000, 0x1000)
        return pair.worlds
    finally:
        pair.close()
