"""Runs a monitor with its host and enclaves on the bare bench from one trap to the next. Observes the state at the entry to M and at the return
from M. Follows traps that a monitor may not survive: traps in M itself, and loops of traps below M."""
from __future__ import annotations

import struct
from typing import Callable, Iterable, NamedTuple, Sequence

from rvlook.errors import Unfinished
from rvlook.monitors.encodings import BACK, csrw, is_store
from rvlook.monitors.ownership import OwnedRange
from rvlook.monitors.sides import (MAX_MRET_BREAKPOINTS, MAX_STEPS_IN_M, PMP_LINES, REGISTER_LINES, MonitorBench, MonitorSetup, memory_lines,
                                   trap_text, word_at)
from rvlook.protocol.memory_map import MONITOR_END, RAM_BASE
from rvlook.protocol.names import CSRS, TIMER
from rvlook.protocol.replies import ROW, Ran, RanTrap, poke_commands, register_values, step_of, value_of

MAX_NESTED_TRAPS = 3  # traps in M, each in the handler of the one before
MAX_EQUAL_TRAPS = 64  # repetitions of one trap, after which it counts as a loop
WORD = 4  # bytes of an instruction
SUPERVISOR = ("sscratch", "sepc", "scause", "stval", "stvec", "sstatus")
STATE_CSRS = (*SUPERVISOR, "mepc", "mstatus", "mtvec")
STATE = "".join(["regs\n", *("csr %x\n" % CSRS[name] for name in STATE_CSRS), "pmp\n"]).encode()
STATE_LINES = REGISTER_LINES + len(STATE_CSRS) + PMP_LINES
MPP_SHIFT, MPP_M = 11, 3  # the position of MPP in mstatus, and its value for M
MODES = "US?M"  # the mode for each value of MPP
SWITCHED_STATUS = 0x80122  # the bits SIE, SPIE, SPP and MXR of sstatus
T0 = 5  # the number of the register
STEPS_PER_RUN = 1000000  # steps of one `run` in M
MAX_WATCHPOINTS = 32  # the most watchpoints that the bench can have
MAX_STOPS_IN_M = 10000  # the most stops of the bench in M before M returns: at traps, at each mret, and at watchpoints
TIMER_VECTOR = 28  # bytes from the base of mtvec, if it is vectored
WITHOUT_EFFECT = ("break ", "clear ", "watch ", "unwatch ", "csr ")  # commands that do not change the state of the hart


class NewVector(Exception):
    """M has trapped to an address that has no breakpoint yet. The run starts again with a breakpoint there."""

    def __init__(self, address: int) -> None:
        super().__init__("%08x" % address)
        self.address = address  # the address of the vector


def vector_of_first_trap(setup: MonitorSetup, log: Sequence[str], steps: int) -> int:
    """Repeats a run with its log, and returns the address to which the first trap within the next `steps` steps goes. There must be such a trap."""
    low, high = 0, steps  # there is no trap within `low` steps, and one within `high`
    while high - low > 1:
        middle = (low + high) // 2
        ran = reply_after(setup, log, middle)
        low, high = (low, middle) if ran.trap else (middle, high)
    return int(reply_after(setup, log, high).pc, 16)


def reply_after(setup: MonitorSetup, log: Sequence[str], steps: int) -> Ran:
    """Repeats a run with its log on a new bench; returns the reply of the bench to `run` with a number of steps after it."""
    with setup.own.bench() as bench:
        bench.replies_to(log)
        return step_of(bench.one("run %d" % steps))


class TrapsInM:
    """The traps in M before one return from M. A handler of M must return to the instruction that trapped or to the next one."""

    def __init__(self, is_code: Callable[[int], bool]) -> None:
        self.is_code = is_code  # whether an address is in memory of the monitor
        self.pending: list[tuple[int, str]] = []  # pc of each trap whose handler runs, and its description
        self.handled: list[int] = []  # pc of each trap whose handler returned

    @property
    def text(self) -> str:
        """Returns the description of the last trap whose handler has not returned."""
        return self.pending[-1][1] if self.pending else ""

    def enter(self, state: HartState, trap: RanTrap) -> str:
        """Notes a trap; returns why it is a violation, or an empty text."""
        self.pending.append((state.pc, "trap in M at %08x, %s" % (state.pc, trap_text(trap))))
        if not self.is_code(state.pc_in_m):
            return "%s, whose vector %08x is not in memory of the monitor" % (self.text, state.pc_in_m)
        return "%s, in the handler of a trap in M" % self.text if len(self.pending) > MAX_NESTED_TRAPS else ""

    def leave(self, state: HartState) -> str:
        """Notes an mret that continues M; returns why it is a violation, or an empty text."""
        if not self.pending:
            return "" if self.is_code(state.pc) else "M continues at %08x in M, which is not in memory of the monitor" % state.pc
        pc, text = self.pending.pop()
        self.handled.append(pc)
        return "" if state.pc in (pc, pc + WORD) else "%s, after which M continues at %08x" % (text, state.pc)

    def end(self, state: HartState) -> str:
        """Returns why a return to S or U is a violation, or an empty text."""
        return "%s, after which M enters %s at %08x" % (self.text, state.mode, state.pc) if self.pending else ""


class TrapLoop:
    """Detects a loop of traps below M: an instruction traps again and again with the same cause and access rights, with at most one step between."""

    def __init__(self) -> None:
        self.last_trap: tuple[str, int, str, bytes] = ("", 0, "", b"")  # cause, pc, mode and PMP entries of the last trap
        self.repetitions, self.last_steps = 0, 0  # repetitions of the last trap so far; steps below M at the last trap

    def detects(self, cause: str, entry: HartState, steps: int) -> bool:
        """Notes a trap that occurs after a number of steps below M; returns whether the trap has been repeated MAX_EQUAL_TRAPS times."""
        this_trap = (cause, entry.pc, entry.mode, entry.entries)
        self.repetitions = self.repetitions + 1 if this_trap == self.last_trap and steps - self.last_steps <= 1 else 0
        self.last_trap, self.last_steps = this_trap, steps
        return self.repetitions >= MAX_EQUAL_TRAPS


class HartState(NamedTuple):
    """The state of the hart in M: at the entry, of the world that trapped; at the return, of the world that continues."""
    registers: tuple[int, ...]  # x0 to x31
    csrs: dict[str, int]  # the csrs by name
    pc: int  # mepc
    mode: str  # MPP
    entries: bytes  # the replies of `pmp`
    pc_in_m: int  # pc of M


class StayInM(NamedTuple):
    """A stay in M, from a trap to the return."""
    cause: str  # the cause of the trap, 8 hexadecimal digits; empty for the first stay
    entry: HartState  # state at the entry
    exit: HartState  # state at the return
    spent: int  # steps in M
    fault: str = ""  # why M did not return as it should; empty if it did
    fault_pc: int = 0  # pc of M at the fault; 0 without a fault
    handled: tuple[int, ...] = ()  # pc of each trap in M from which M returned
    loaded: frozenset[int] = frozenset()  # the watched bytes that M loaded


def entries_of(mtvec: int) -> list[int]:
    """Returns the addresses at which traps enter M, for a value of mtvec."""
    base, is_vectored = mtvec & ~3, mtvec & 1
    return [base, base + TIMER_VECTOR] if is_vectored else [base]


class Guarded(MonitorBench):
    """A bench with a monitor, its host and its enclaves. `log` has the lines that change the state; in it `run N` has the number of steps that
    were done. `is_code` says whether an address is in memory of the monitor."""

    def __init__(self, setup: MonitorSetup, vectors: Iterable[int] = (), is_code: Callable[[int], bool] = lambda _: True) -> None:
        super().__init__(setup, setup.own)
        # `steps`: below M; `vectors`: addresses to which traps go, at which the bench stops
        self.steps, self.is_code, self.vectors, self.loop = 0, is_code, set(vectors), TrapLoop()

    def do(self, *lines: str) -> list[bytes]:
        """Does lines with one line of reply each; returns the replies."""
        replies = self.bench.replies_to(lines)
        for line, reply in zip(lines, replies):
            if line.startswith("run "):
                self.log.append("run %d" % step_of(reply.decode()).steps)
            elif not line.startswith(WITHOUT_EFFECT):
                self.log.append(line)
        return replies

    def begin(self) -> StayInM:
        """Starts the monitor; returns its first return from M. Raises RvlookError if the bench refuses the image or a line of the boot."""
        self.set_stops()
        self.stop_at({*self.vectors, *entries_of(self.mtvec())})
        self.boot()
        entry = self.state()
        return self.to_return("", entry)

    def state(self) -> HartState:
        """Returns the state in M now."""
        replies = self.bench.block(STATE, STATE_LINES).splitlines()
        values = register_values(replies[:-PMP_LINES])
        csrs = dict(zip(STATE_CSRS, values[REGISTER_LINES:]))
        csrs["sstatus"] &= SWITCHED_STATUS
        return HartState(tuple(values[:32]), csrs, csrs["mepc"], MODES[csrs["mstatus"] >> MPP_SHIFT & 3], b"\n".join(replies[-PMP_LINES:]),
                         values[REGISTER_LINES - 1])

    def to_return(self, cause: str, entry: HartState, watched: Sequence[int] = ()) -> StayInM:
        """Runs M up to its mret to S or U, and stops before it. M must return from traps in M that come before. Notes which of the watched bytes M
        loads; `watched` has their addresses. Raises NewVector if M traps to an address that has no breakpoint."""
        watched = watched[:MAX_WATCHPOINTS - len(self.setup.lowered)]
        self.do(*("watch %x" % address for address in watched))
        stay = self.to_mret(cause, entry)
        self.do(*("unwatch %x" % address for address in watched))
        return stay

    def to_mret(self, cause: str, entry: HartState) -> StayInM:
        """Runs M up to its mret to S or U, and stops at the breakpoints and watchpoints in between; see `to_return`."""
        spent, stops, fault, traps = 0, 0, "", TrapsInM(self.is_code)
        loaded: set[int] = set()
        while True:
            stops += 1
            ran = step_of(self.do("run %d" % STEPS_PER_RUN)[0].decode())
            spent += ran.steps
            if ran.why.startswith("watch:"):  # the bench stops after the instruction that accessed the byte
                self.note_access(int(ran.why[len("watch:"):], 16), word_at(self.bench, int(ran.pc, 16) - 4), loaded)
            state = self.state()
            fault, is_end = self.handle_stop(ran, state, traps)
            if not fault and (spent > MAX_STEPS_IN_M or stops > MAX_STOPS_IN_M):
                fault = "%sM does not return within %d steps" % (traps.text + "; " if traps.text else "", spent)
            if fault or is_end:
                fault_pc = traps.pending[-1][0] if traps.pending else state.pc_in_m
                return StayInM(cause, entry, state, spent, fault, fault_pc if fault else 0, tuple(traps.handled), frozenset(loaded))

    def note_access(self, address: int, word: int, loaded: set[int]) -> None:
        """Handles an access of an instruction to a watched byte: a store to the timer clears the timer line; a loaded byte is added to `loaded`."""
        if address not in self.setup.lowered:
            if not is_store(word):
                loaded.add(address)
        elif is_store(word):
            self.do("timer off")

    def handle_stop(self, ran: Ran, state: HartState, traps: TrapsInM) -> tuple[str, bool]:
        """Handles a stop of the bench in M. Returns why the stop is a violation, or an empty text; and whether M returns to S or U. Raises
        NewVector if M has trapped to an address that has no breakpoint."""
        if ran.mode != "M":
            return "M is left by another instruction than mret", False
        if ran.trap and state.pc_in_m not in self.vectors:
            raise NewVector(vector_of_first_trap(self.setup, self.log[:-1], ran.steps))
        if ran.trap:
            return traps.enter(state, ran.trap), False
        if state.pc_in_m not in self.setup.returns:
            return "", False
        leaves_m = state.csrs["mstatus"] >> MPP_SHIFT & 3 != MPP_M
        return traps.end(state) if leaves_m else traps.leave(state), leaves_m

    def leave(self) -> None:
        """Executes the mret, and sets breakpoints where the next trap will enter M."""
        self.do("step 1")
        self.stop_at(entries_of(self.mtvec()))

    def mtvec(self) -> int:
        """Returns the value of mtvec."""
        return value_of(self.do("csr %x" % CSRS["mtvec"])[0])

    def stop_at(self, vectors: Iterable[int]) -> None:
        """Sets breakpoints at addresses to which traps go. Raises Unfinished if the bench has no room for them."""
        self.vectors.update(vectors)
        if any(reply.startswith(b"error") for reply in self.do(*("break %x" % vector for vector in vectors))):
            raise Unfinished("the monitor has %d mret instructions and %d trap vectors, which are more than %d" % (
                len(self.setup.returns), len(self.vectors), MAX_MRET_BREAKPOINTS + 1))

    def to_trap(self, limit: int) -> str | None:
        """Runs S and U until a trap; returns its cause, or None after `limit` steps without one."""
        if limit <= 0:
            return None
        ran = step_of(self.do("run %d" % limit)[0].decode())
        self.steps += ran.steps
        if ran.trap is None:
            return None
        if ran.trap.cause == TIMER and not self.setup.lowered:
            self.do("timer off")
        return ran.trap.cause

    def set_state(self, registers: dict[int, int], csrs: dict[str, int]) -> None:
        """Sets integer registers, by number, and S-mode registers, by name. No command of the bench sets S-mode registers. They are therefore set by
        instructions that are stored at the pc of M and executed; then the code there is restored."""
        if csrs:
            state = self.state()
            pc, old_t0 = state.pc_in_m, state.registers[T0]
            old_code = [word_at(self.bench, pc), word_at(self.bench, pc + 4)]
            commands = []
            for name, value in csrs.items():
                commands += ["setreg %d %x" % (T0, value), *poke_commands(pc, struct.pack("<I", csrw(CSRS[name], T0))), "step 1"]
                commands += [*poke_commands(pc + 4, struct.pack("<I", BACK)), "step 1"]  # jumps back to pc
            self.do(*commands, *poke_commands(pc, struct.pack("<II", *old_code)), "setreg %d %x" % (T0, old_t0))
        self.do(*("setreg %d %x" % (number, value) for number, value in registers.items() if number))  # x0 cannot be set

    def memory(self) -> bytes:
        """Returns all bytes after the range of the monitor."""
        return self.bytes_of(MONITOR_END, RAM_BASE + self.setup.ram)

    def bytes_of(self, first: int, end: int) -> bytes:
        """Returns the bytes from `first` up to before `end`. Bytes after the end of the RAM are left out."""
        lower, upper = first & -ROW, min(-(-end // ROW) * ROW, RAM_BASE + self.setup.ram)
        replies = self.bench.block(memory_lines(lower, upper), (upper - lower) // ROW) if upper > lower else b""
        return bytes.fromhex(b"".join(line[9:] for line in replies.splitlines()).decode())[first - lower:end - lower]  # line[:9]: the address

    def rows_outside(self, hidden: Sequence[OwnedRange]) -> bytes:
        """Returns the replies of `mem` for all rows of ROW bytes after the range of the monitor, except those that lie in a hidden range."""
        shown, start, end = [], MONITOR_END, RAM_BASE + self.setup.ram  # `shown`: first address and end of each range of rows to return
        for hidden_range in sorted(hidden, key=lambda it: it.first):
            hidden_first, hidden_end = max(start, -(-hidden_range.first // ROW) * ROW), min(hidden_range.end & -ROW, end)
            if hidden_first < hidden_end:
                shown.append((start, hidden_first))
                start = hidden_end
        shown.append((start, end))
        return b"".join(self.bench.block(memory_lines(first, end), (end - first) // ROW) for first, end in shown if first < end)
