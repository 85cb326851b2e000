"""The QEMU side: qemu-system-riscv32 with its extensions off, stepped over its gdb server.

The machine is `spike`, which has RAM at 80000000 and, apart from a boot ROM at 1000 and a console at 1000000, only the timer at 2000000.
"""
from __future__ import annotations

import re
import shutil
import subprocess
import tempfile
from pathlib import Path
from typing import Optional

from .registers import COMPARED, COUNTERS, INTEGERS, ONES, PMPCFG, RAM, RAM_BYTES, State
from .remote import Remote, RemoteError

PROGRAM = "qemu-system-riscv32"
CPU = ("rv32,g=off,a=off,f=off,d=off,c=off,h=off,v=off,Zifencei=off,Zihintpause=off,sstc=off,mmu=off,pmp=on,priv_spec=v1.12.0,pmu-num=0,"
       "zba=off,zbb=off,zbc=off,zbs=off,debug=off,marchid=0,mimpid=0")
TIMER_COMPARE = 0x02004000
PART = 1024
REGISTER = re.compile(r'<reg name="(\w+)"(?: [a-z]+="[^"]*")*? regnum="(\d+)"')
INCLUDED = re.compile(r'<xi:include href="([^"]*)"')


def version() -> Optional[str]:
    """Returns the first line of QEMU's version, or None if it is not installed."""
    if not shutil.which(PROGRAM):
        return None
    return subprocess.run([PROGRAM, "--version"], capture_output=True, text=True, check=True).stdout.split("\n")[0]


class Emulator:
    """A run of QEMU that stops after each step. `harts` is 1 or 2; hart H is the thread H + 1 of the server.

    If it `counts`, mcycle and minstret count instructions. The timer line must then stay set: QEMU would advance the counters to the time at which
    a later timer is due. Otherwise the counters are the time of the host, and the timer line can change.
    """

    def __init__(self, harts: int = 1, ram: int = RAM_BYTES, counts: bool = True):
        self.folder = tempfile.TemporaryDirectory(prefix="rvbench-qemu-")
        path = Path(self.folder.name) / "gdb"
        words = [PROGRAM, "-M", "spike", "-cpu", CPU, "-smp", str(harts), "-m", "%dK" % (ram // 1024), "-bios", "none", "-display", "none",
                 "-serial", "none", "-monitor", "none", "-S", "-gdb", "unix:%s,server=on,wait=off" % path]
        words += ["-icount", "shift=0,sleep=off"] if counts else []
        self.process = subprocess.Popen(words, stdin=subprocess.DEVNULL, stdout=subprocess.DEVNULL, stderr=subprocess.PIPE, text=True)
        self.ram, self.counts = ram, counts
        try:
            self.remote = Remote(path, self.process)
            self._begin()
        except RemoteError:
            self.process.kill()
            raise

    def _begin(self) -> None:
        """Sets the options of the server, reads the numbers of the registers, and clears RAM and the registers."""
        self.remote.ask("qSupported:multiprocess+;xmlRegisters=riscv")
        text = "".join(map(self.remote.read_file, INCLUDED.findall(self.remote.read_file("target.xml"))))
        self.remote.order(["Qqemu.PhyMemMode:1", "Qqemu.sstep=1"])  # memory as devices see it; interrupts and timers in a step
        found = dict(REGISTER.findall(text))
        self.numbers = {"x%d" % number: number for number in range(32)}
        self.numbers.update({"pc": 32, "mode": 33, **{name: int(number) for name, number in found.items()}})
        missing = [name for name in COMPARED if name not in self.numbers]
        if missing:
            raise RemoteError("the server does not show %s" % " ".join(missing))
        self.write_memory(RAM, bytes(self.ram))
        if not self.counts:
            self.set_timer(False)
        self.shown = [self.numbers[name] for name in (*INTEGERS, "pc", "mode", *COMPARED)]

    def close(self) -> None:
        """Ends QEMU."""
        self.remote.close()
        self.process.kill()
        self.process.communicate()
        self.folder.cleanup()

    def state(self) -> State:
        """Returns the present state."""
        answers = self.remote.ask_all("p%x" % number for number in self.shown)
        if any(len(it) != 8 for it in answers):
            raise RemoteError("the server does not show a register")
        return dict(zip((*INTEGERS, "pc", "mode", *COMPARED), (int.from_bytes(bytes.fromhex(it), "little") for it in answers)))

    def read(self, name: str) -> int:
        """Returns the value of a register."""
        return int.from_bytes(bytes.fromhex(self.remote.ask("p%x" % self.numbers[name])), "little")

    def write(self, values: State) -> None:
        """Writes registers."""
        self.remote.order("P%x=%s" % (self.numbers[name], value.to_bytes(4, "little").hex()) for name, value in values.items())

    def step(self, before: State, refreshes: bool = True, sets_counters: bool = True) -> None:
        """Makes a step. Before it, writes the pmpcfg registers with the values that they have, if it `refreshes`. This empties the TLB, which keeps
        by pages what PMP permitted, and computes the lower bound of each TOR entry. Writes the counters, too, if they count: a counter that is
        stopped shows the value that was last written."""
        values = {name: before[name] for name in PMPCFG if refreshes}
        values.update({name: before[name] for name in COUNTERS if self.counts and sets_counters})
        self.write(values)
        if not self.remote.ask("vCont;s:p1.1").startswith("T05"):
            raise RemoteError("QEMU did not make a step")

    def set_timer(self, is_on: bool) -> None:
        """Raises or lowers the timer interrupt, by mtimecmp."""
        self.remote.order(["M%x,8:%s" % (TIMER_COMPARE, (0 if is_on else ONES << 32 | ONES).to_bytes(8, "little").hex())])

    def read_memory(self, address: int, count: int) -> bytes:
        """Returns bytes of memory."""
        ends = range(address, address + count, PART)
        return b"".join(map(bytes.fromhex, self.remote.ask_all("m%x,%x" % (at, min(PART, address + count - at)) for at in ends)))

    def write_memory(self, address: int, data: bytes) -> None:
        """Writes bytes of memory."""
        parts = [(at, data[at:at + PART]) for at in range(0, len(data), PART)]
        self.remote.order("M%x,%x:%s" % (address + at, len(part), part.hex()) for at, part in parts)
