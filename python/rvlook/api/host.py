"""The test as the host: it makes calls of the monitor in place of the host's code, and enters enclaves.

A call of the test replaces the next instruction of the host by an `ecall` for one step. When the monitor has answered, the test jumps back to that
instruction, and restores its bytes and the registers that the call used. Other registers stay as the monitor left them."""
from __future__ import annotations

from functools import lru_cache
from typing import Dict, List, Optional, Sequence, TYPE_CHECKING

from rvlook.api.places import PlaceLike
from rvlook.api.stepper import LIMIT, MadeCall, Snapshot, Stepper
from rvlook.api.values import CallResult, NotReached, answer_of
from rvlook.api.views import View
from rvlook.errors import RvlookError
from rvlook.monitors.encodings import BACK, ECALL, MRET
from rvlook.monitors.sides import addresses_of_word
from rvlook.protocol import names
from rvlook.protocol.memory_map import MONITOR_END, RAM_BASE
from rvlook.protocol.replies import Enclave, Ran, bytes_of, memory_commands, poke_commands, register_values, step_of
from rvlook.protocol.run import Setup

if TYPE_CHECKING:
    from rvlook.api.machine import Machine

A0, A1, A6, A7 = 10, 11, 16, 17  # numbers of registers
WORD = 4  # bytes of an instruction
MOST_BREAKS = 31  # breakpoints that a search may use
MOST_WATCHED = 24  # watchpoints of one place; the consoles have the others


class HostStepper(Stepper):
    """A machine in which the test can be the host."""

    def __init__(self, setup: Setup, schedule: str, interrupts: Optional[int], at: Optional[Snapshot]) -> None:
        super().__init__(setup, schedule, at)
        self.interrupts = interrupts  # N: an interrupt comes before every Nth step of an enclave; None: no interrupts
        self.words = lru_cache(maxsize=None)(self.find_words)  # finds the addresses of an instruction, cached

    def find_words(self, word: int) -> List[int]:
        """Returns the addresses of an instruction in the image. Raises RvlookError if there are too many for breakpoints."""
        image, addresses = self.setup.image, []
        start = MONITOR_END if self.setup.monitor else RAM_BASE
        for address, size in [(segment.address, segment.in_memory) for segment in image.segments()] or [(start, len(image.data or b""))]:
            addresses += addresses_of_word(self.read_bytes(address, size), address, word)
        if len(addresses) > MOST_BREAKS:
            raise RvlookError("the image has %d copies of one instruction, and the simulator %d breakpoints; run to a place instead" % (
                len(addresses), MOST_BREAKS))
        return addresses

    def registers_now(self) -> List[int]:
        """Returns x0 to x31 and pc of the selected hart."""
        return register_values(self.ask("regs")[0])

    def step_once(self) -> Ran:
        """Does one step of the selected hart, outside a schedule."""
        return self.note_trap(step_of(self.do("step 1")[0][0]))

    def run_to_call(self, call: Optional[str], world: Optional[str], limit: Optional[int]) -> None:
        """Runs until the monitor has answered a call of this name, or until the selected hart is in a world. Raises NotReached if the run ends
        before, or after `limit` steps."""
        if call is not None and call not in names.Call.__members__:
            raise RvlookError("no call '%s'; the calls are %s" % (call, ", ".join(names.Call.__members__)))
        end, ecalls = self.steps + self.limit_of(limit), self.words(ECALL)
        while world is None or self.world != world:
            ran = self.advance(ecalls, limit=end - self.steps)
            if ran.why != "break":
                self.fail("calls %s" % call if call else "enters %s" % world, ran)
            next_call = names.call_of(self.registers_now()) if self.mode == "S" else None
            self.step_once()
            self.leave_m()
            if call is not None and next_call is not None and next_call.name == call:
                return

    def leave_m(self) -> None:
        """Runs a monitor of your own, which runs on the bare machine, up to its return from M."""
        while self.mode == "M" and not self.setup.monitor:
            ran = self.advance(self.words(MRET), limit=LIMIT)
            if ran.why != "break":
                self.fail("returns from M", ran)
            self.step_once()

    def enter(self, registers: Dict[str, int]) -> None:
        """Executes an `ecall` of the host with these registers. Raises RvlookError if the host does not run on the selected hart."""
        if self.schedule:
            raise RvlookError("a test that is the host selects the hart itself; start the machine without a schedule")
        if self.mode != "S" or self.world not in ("host", "bare"):
            raise RvlookError("the host does not run at %s, in %s of %s; go on to the host first" % (self.where, self.mode, self.world))
        values = self.registers_now()
        used = {A0, A1, A6, A7, *map(number_of, registers)}
        pc = values[32]  # after x0 to x31
        self.calls[self.hart] = MadeCall({n: values[n] for n in sorted(used)}, left_at=pc + WORD, slot=registers.get("a0", 0))
        self.execute(ECALL, ["setreg %d %x" % (number_of(name), value & 0xFFFFFFFF) for name, value in registers.items()])
        self.leave_m()
        self.calls[self.hart] = self.calls[self.hart]._replace(has_entered=self.is_inside())

    def answer(self, limit: Optional[int] = None) -> CallResult:
        """Runs an enclave until the host has its answer, and resumes it after each of the `interrupts`. Raises NotReached at the limit in steps."""
        if self.hart not in self.calls:
            raise RvlookError("no call is under way on hart %d; call run() or resume() first" % self.hart)
        call = self.calls[self.hart]
        if self.is_inside() and self.interrupts and self.setup.monitor:
            self.run_interrupted(self.interrupts, self.limit_of(limit))
        while self.is_inside():
            ran = self.advance([call.left_at], limit=limit)
            if self.is_inside() and ran.why != "break":
                self.fail("answers the host", ran)
            self.leave_m()
        values = self.registers_now()
        self.execute(BACK, ["setreg %d %x" % register for register in call.saved_registers.items()])
        del self.calls[self.hart]
        if self.pc != call.left_at - WORD:
            raise NotReached("the host cannot go on at %08x after its call: it is at %s; last trap: %s" % (call.left_at, self.where, self.trap))
        return answer_of(call.has_entered, values[A0], values[A1])

    def run_interrupted(self, every: int, limit: int) -> None:
        """Runs an enclave until it exits by itself. Before every Nth of its steps the timer interrupts it, and the host resumes it. An `ecall` and a
        jump back are in place of the host's code meanwhile."""
        call = self.calls[self.hart]
        host_pc = call.left_at - WORD
        old_bytes = self.read_bytes(host_pc, 2 * WORD)
        self.do(*poke_commands(host_pc, ECALL.to_bytes(WORD, "little") + BACK.to_bytes(WORD, "little")))
        self.set_stops([call.left_at], [])
        resume = ["timer on", "step 1", "setreg %d %x" % (A0, call.slot), "setreg %d %x" % (A6, names.Call.resume), "step 1", "step 1",
                  "run %d" % every]
        ran = step_of(self.do("run %d" % (every - 1))[0][0]) if every > 1 else None
        for _ in range(0, limit, every):
            if ran and not ran.world.startswith("e"):
                break
            *_, last = self.do(*resume)
            ran = step_of(last[0])
        self.do(*poke_commands(host_pc, old_bytes))

    def read_bytes(self, address: int, size: int) -> bytes:
        """Reads bytes, whatever the access rights are. Raises RvlookError outside the RAM."""
        rows = self.ask(*memory_commands(address, size))
        return b"".join(bytes_of(row[0]) for row in rows)

    def is_inside(self) -> bool:
        """Returns whether an enclave that the test has entered has not exited yet."""
        return self.world.startswith("e") if self.setup.monitor else self.pc != self.calls[self.hart].left_at

    def execute(self, word: int, before: Sequence[str]) -> None:
        """Executes an encoded instruction in place of the one at pc, whose bytes are then restored. `before` has the commands to send first."""
        pc = self.pc
        old_bytes = self.read_bytes(pc, WORD)
        *_, ran = self.do(*before, *poke_commands(pc, word.to_bytes(WORD, "little")), "step 1")
        self.do(*poke_commands(pc, old_bytes))
        self.note_trap(step_of(ran[0]))


def number_of(register: str) -> int:
    """Returns the number of an integer register that can be set. Raises RvlookError for x0 and for an unknown name."""
    number = names.NUMBER_OF.get(register, 0)
    if not number:
        raise RvlookError("cannot set '%s'; only x1 to x31 and their ABI names can be set" % register)
    return number


class EnclaveHandle:
    """An enclave that the test has created: the test is its host."""

    def __init__(self, machine: Machine, slot: int) -> None:
        self.machine, self.slot, self.hart = machine, slot, machine.hart  # `hart` is the one that was selected

    @property
    def entry(self) -> Enclave:
        """The entry in the table of enclaves: state, base, size, window, window_size, entry and measurement. Raises RvlookError if the enclave does
        not exist, or the machine has a monitor of your own."""
        enclave = next((enclave for enclave in self.machine.enclaves if enclave.slot == self.slot), None)
        if enclave is None:
            raise RvlookError("no enclave in slot %d; it is destroyed, or the monitor is your own" % self.slot)
        return enclave

    @property
    def state(self) -> str:
        """The state: `Fresh`, `Running`, `Stopped` or `Exited`. Raises RvlookError as `entry` does."""
        return self.entry.state

    def window(self, structure: str) -> View:
        """Returns the window as a structure of the program. Raises SymbolError for an unknown structure."""
        address = self.entry.window if self.machine.setup.monitor else self.machine.program.place("window_base").address
        return self.machine.view(structure, address)

    def run(self, until: Optional[PlaceLike] = None, touches: Optional[PlaceLike] = None) -> CallResult:
        """Enters the enclave, and returns its answer. With `until` the enclave stays before the instruction at that place. With `touches` it stays
        after the first load or store of a byte there. `finish` then continues it. Raises NotReached if the enclave does not reach the place, or if
        there is no answer within the limit in steps."""
        return self.go("run", until, touches)

    def resume(self, until: Optional[PlaceLike] = None, touches: Optional[PlaceLike] = None) -> CallResult:
        """Resumes the enclave. Parameters, result and errors are as for `run`."""
        return self.go("resume", until, touches)

    def go(self, name: str, until: Optional[PlaceLike], touches: Optional[PlaceLike]) -> CallResult:
        """Enters the enclave by a call. Raises NotReached if the enclave exits before the place."""
        machine, self.hart = self.machine, self.machine.hart
        machine.enter({"a0": self.slot, "a6": names.Call[name].value, "a7": names.KEY})
        if until is None and touches is None:
            return machine.answer()
        left_at = machine.calls[machine.hart].left_at
        what = "reaches %s" % until if until is not None else "touches %s" % touches
        places = machine.addresses(until)
        if machine.is_inside() and machine.pc in places:  # it begins there
            return CallResult("running", machine.where)
        ran = machine.advance([left_at, *places], machine.watched(touches))
        if ran.why.startswith(("break", "watch")) and machine.is_inside():
            return CallResult("running", machine.where)
        if machine.is_inside():
            machine.fail(what, ran)
        raise NotReached("the enclave never %s: the host has its answer, %s" % (what, machine.answer()))

    def finish(self) -> CallResult:
        """Continues after `run` or `resume` with a place, until the host has the answer. Selects the hart of the enclave. Raises NotReached if
        there is no answer within the limit in steps."""
        if self.machine.hart != self.hart:
            self.machine.hart = self.hart
        return self.machine.answer()

    def destroy(self) -> CallResult:
        """Destroys the enclave, and returns the answer of the monitor."""
        return self.machine.call("destroy", self.slot)
