"""One side of a comparison: a bench with one of the two monitors, and what can be observed below M after each step.

The author's monitor runs on the bare bench. Breakpoints at its `mret` instructions show when it returns. The monitor of rvbench is the
reference."""
from __future__ import annotations

import struct
from functools import lru_cache
from typing import NamedTuple

from rvlook.errors import BenchEnded, RvlookError
from rvlook.protocol.inputs import Image
from rvlook.monitors.encodings import MRET, is_store, jump
from rvlook.monitors.items import MASK, T0, Item
from rvlook.monitors.placement import Placement
from rvlook.protocol.bench import Bench, Closing
from rvlook.protocol.bench_line import tokens_of
from rvlook.protocol.memory_map import MONITOR_END, RAM_BASE
from rvlook.protocol.commands import line_error
from rvlook.protocol.names import CSRS, TIMER
from rvlook.protocol.replies import ROW, Enclave, RanTrap, bytes_of, enclave_of, memory_commands, poke_commands, register_values, step_of
from rvlook.protocol.run import Setup, error_of

MAX_MRET_BREAKPOINTS = 31  # breakpoints at `mret` instructions; the bench has 32
MAX_STEPS_IN_M = 60000000  # the most steps in M, in one trap, with a small RAM
MAX_STEPS_PER_BYTE = 100  # further steps in M for each byte of RAM: a measurement and its checks
RUN_TO_MRET = "run 1000000"  # stops at the breakpoint of the next `mret`
REGISTER_LINES = 33  # lines of `regs`
PMP_LINES = 16  # lines of `pmp`
BELOW = ("sstatus", "sie", "stvec", "scounteren", "sscratch", "sepc", "scause", "stval", "sip", "satp")
DECIDING_BITS = {"mstatus": ~0x1888 & MASK, "mie": 0x80, "mip": 0x80}  # the bits that affect S and U: of mstatus all but MIE, MPIE and MPP
EXACT_CSRS = ("mepc", "mcause", "mtval")
CSR_LIST = (*BELOW, *DECIDING_BITS, *EXACT_CSRS)
VISIBLE_LINES = REGISTER_LINES + len(BELOW)
STATE = "".join(["regs\n", *("csr %x\n" % CSRS[name] for name in CSR_LIST), "pmp\n"]).encode()
STATE_LINES = REGISTER_LINES + len(CSR_LIST) + PMP_LINES


def size_line(ram: int) -> str:
    """Returns the line of the default boot that passes the size of the RAM."""
    return "setreg 11 %x" % ram


class MonitorSetup(NamedTuple):
    """The author's monitor and how it is run."""
    image: Image  # the image of the monitor
    ram: int  # bytes
    boot: tuple[str, ...]  # lines before the first step
    returns: tuple[int, ...]  # addresses of its mret instructions
    lowered: tuple[int, ...] = ()  # a store to one of them clears the timer line; empty: taking the interrupt clears it
    exact: bool = False  # whether PMP entries are compared as stored
    memory: Placement | None = None  # the memory of host and enclaves; None: all RAM from 80010000 on

    def with_ram(self, ram: int) -> MonitorSetup:
        """Returns the setup with another size of the RAM in bytes, also in the line of the default boot that passes the size to the monitor."""
        old_line, new_line = size_line(self.ram), size_line(ram)
        return self._replace(ram=ram, boot=tuple(new_line if line == old_line else line for line in self.boot))

    @property
    def placement(self) -> Placement:
        """Returns where host and enclaves are."""
        return self.memory or Placement(MONITOR_END, RAM_BASE + self.ram)

    @property
    def own(self) -> Setup:
        """Returns the configuration of the author's side."""
        return Setup(self.image, ram=self.ram)

    @property
    def reference(self) -> Setup:
        """Returns the configuration of the reference, whose memory is empty."""
        return Setup(Image("the monitor of rvbench", text=b"", data=b""), monitor=True, ram=self.placement.end - RAM_BASE)


def return_addresses(image: Image) -> tuple[int, ...]:
    """Returns the addresses of `mret` in the segments of a file. Raises RvlookError for no 32-bit ELF file, and for no or too many mret."""
    data = image.data or b""
    if not image.is_elf_32:
        raise RvlookError("'%s' is not a 32-bit ELF file, which a monitor must be" % image.name)
    addresses = [at for part in image.segments() for at in addresses_of_word(data[part.offset:part.offset + part.in_file], part.address, MRET)]
    if not 0 < len(addresses) <= MAX_MRET_BREAKPOINTS:
        raise RvlookError("'%s' has %d mret instructions; a monitor must have 1 to %d" % (image.name, len(addresses), MAX_MRET_BREAKPOINTS))
    return tuple(sorted(addresses))


def addresses_of_word(data: bytes, address: int, word: int) -> list[int]:
    """Returns the addresses, multiples of 4, at which the bytes of a segment have a word."""
    pattern, addresses = struct.pack("<I", word), []
    offset = data.find(pattern)
    while offset >= 0:
        if (address + offset) % 4 == 0:
            addresses.append(address + offset)
        offset = data.find(pattern, offset + 1)
    return addresses


class SideState(NamedTuple):
    """The state after a step, as S and U can observe it."""
    pc: int  # the pc after the step
    mode: str  # the mode after the step
    trap: str  # cause and value of the trap of the step, or a hyphen
    world: str  # the world after the step
    below: bytes  # the replies of x0 to x31, pc and the S-mode registers
    above: tuple[int, ...]  # the values of DECIDING_BITS and EXACT_CSRS
    entries: bytes  # the replies of `pmp`
    spent: int = 0  # steps in M
    fault: str = ""  # why M did not return; empty if it did

    @property
    def registers(self) -> list[int]:
        """Returns the values of x0 to x31."""
        return register_values(self.below.splitlines()[:32])

    @property
    def cause(self) -> str:
        """Returns the cause of the trap in eight digits, or a hyphen."""
        return self.trap[:8]


class Stay(NamedTuple):
    """One stay of the author's side in M."""
    line: int  # number of lines of the log before the stay
    steps: int  # number of steps in M


class MonitorBench(Closing):
    """A bench with a monitor."""

    def __init__(self, setup: MonitorSetup, run: Setup) -> None:
        self.setup, self.run, self.bench = setup, run, run.bench()  # `run`: the configuration of `bench`
        self.log: list[str] = []  # all lines that change the state

    def close(self) -> None:
        """Ends the bench."""
        self.bench.close()

    def do(self, *lines: str) -> list[bytes]:
        """Does lines with one line of reply each; returns the replies."""
        self.log += lines
        return self.bench.replies_to(lines)

    def set_stops(self) -> None:
        """Sets the breakpoints and watchpoints in M. Raises RvlookError if the bench refuses the image."""
        try:
            self.bench.one("reg 0")
        except BenchEnded as error:
            raise error_of(self.run, error) from None
        self.do(*("break %x" % address for address in self.setup.returns), *("watch %x" % address for address in self.setup.lowered))

    def boot(self) -> None:
        """Does the lines of the boot. Raises RvlookError if the bench refuses one."""
        for line in self.setup.boot:
            reply = self.do(line)[0]
            if reply.startswith(b"error"):
                raise RvlookError("boot line '%s': %s" % (line, line_error(reply.decode(), tokens_of(line))[0]))


class Side(MonitorBench):
    """A bench with the author's monitor (`is_own`) or with the reference."""

    def __init__(self, setup: MonitorSetup, is_own: bool) -> None:
        super().__init__(setup, setup.own if is_own else setup.reference)
        self.is_own, self.placement = is_own, setup.placement  # whether it is the author's monitor
        self.stays: list[Stay] = []  # the stays in M so far
        self.pc, self.mode = self.placement.host, "S"  # pc and mode of S or U before the next step

    def begin(self) -> SideState:
        """Goes to the first instruction below M. Raises RvlookError if the bench refuses the image or a line of the boot."""
        if self.is_own:
            self.set_stops()
            self.boot()
            self.mode = "M"
            return self.stay("-", "bare")
        if self.placement.offset:  # the reference begins at 80010000, and jumps to the host
            self.do("setreg %d %x" % (T0, self.pc), *poke_commands(MONITOR_END, struct.pack("<I", jump(T0))), "step 1", "setreg %d 0" % T0)
        return self.observation("-", "host")

    def step(self, item: Item) -> SideState:
        """Does an item, and then all steps in M if it traps to M; returns the state after them."""
        lines = self.lines_of(item)
        if not item.steps:
            self.do(*lines)
            return self.observation("-", "")
        ran = step_of(self.do(*lines, "step 1")[-1].decode())
        self.pc, self.mode, trap = int(ran.pc, 16), ran.mode, trap_text(ran.trap)
        cause = trap[:8]
        if self.is_own and cause == TIMER and not self.setup.lowered:
            self.do("timer off")  # the bare bench has no device that M could clear
        return self.stay(trap, ran.world) if self.is_own and self.mode == "M" else self.observation(trap, ran.world)

    def lines_of(self, item: Item) -> list[str]:
        """Returns the lines that prepare an item."""
        lines = [line for address, data in item.data for line in poke_commands(address, data)]
        lines += ["setreg %d %x" % register for register in item.registers if register[0]]
        if item.word is not None and self.placement.first <= self.pc and self.pc + 4 <= self.placement.end:
            lines += poke_commands(self.pc, struct.pack("<I", item.word))
        return lines + (["timer " + item.line] if item.line else [])

    def stay(self, trap: str, world: str) -> SideState:
        """Does the steps in M up to the return. If M does not return, the fault of the state says why."""
        first_line, spent, fault = len(self.log), 0, ""
        while self.mode == "M" and not fault:
            ran, step = (step_of(reply.decode()) for reply in self.do(RUN_TO_MRET, "step 1"))  # `step`: usually the mret
            spent += ran.steps + 1
            fault = self.fault_of(ran.mode, ran.trap or step.trap, spent, MAX_STEPS_IN_M + MAX_STEPS_PER_BYTE * self.setup.ram)
            if ran.why.startswith("watch") and is_store(word_at(self.bench, int(ran.pc, 16) - 4)):
                self.do("timer off")
            self.pc, self.mode = int(step.pc, 16), step.mode
        self.stays.append(Stay(line=first_line, steps=spent))
        return self.observation(trap, world, spent, fault)

    @staticmethod
    def fault_of(mode: str, trap: RanTrap | None, spent: int, max_steps: int) -> str:
        """Returns why M does not return as it should; empty if it does."""
        if mode != "M":
            return "M is left by another instruction than mret"
        if trap:
            return "trap in M, %s" % trap_text(trap)
        return "M does not return within %d steps" % spent if spent > max_steps else ""

    def observation(self, trap: str, world: str, spent: int = 0, fault: str = "") -> SideState:
        """Asks the bench for its state, and notes pc. The arguments are the fields of the state that the bench cannot show later."""
        replies = self.bench.block(STATE, STATE_LINES).splitlines()
        values = register_values(replies[VISIBLE_LINES:-PMP_LINES])
        above = tuple(value & DECIDING_BITS.get(name, MASK) for name, value in zip(CSR_LIST[len(BELOW):], values))
        self.pc = int(replies[REGISTER_LINES - 1][3:], 16)  # `pc=ADDRESS`
        return SideState(pc=self.pc, mode=self.mode, trap=trap, world=world, below=b"\n".join(replies[:VISIBLE_LINES]), above=above,
                         entries=b"\n".join(replies[-PMP_LINES:]), spent=spent, fault=fault)

    def memory(self) -> bytes:
        """Returns the replies of `mem` for all bytes of host and enclaves."""
        first, end = self.placement.first, self.placement.end
        return self.bench.block(memory_lines(first, end), (end - first) // ROW)

    def enclaves(self) -> list[Enclave]:
        """Returns the enclave table of the reference."""
        return [enclave_of(line) for line in self.bench.ask("enclaves")[0]]


@lru_cache(maxsize=None)
def memory_lines(first: int, end: int) -> bytes:
    """Returns the `mem` commands that show memory from `first` up to before `end`, one in each line."""
    return "\n".join([*memory_commands(first, end - first), ""]).encode()


def trap_text(trap: RanTrap | None) -> str:
    """Returns a trap as the bench writes it."""
    return "%s:%s" % (trap.cause, trap.value) if trap else "-"


def word_at(bench: Bench, address: int) -> int:
    """Returns the word at an address, 0 outside RAM."""
    reply = bench.one("mem %x 4" % (address & MASK))
    return 0 if reply.startswith("error") else int.from_bytes(bytes_of(reply), "little")
