"""Calls, returns, traps, control and status registers, and calls of the monitor (docs/ISA.md, docs/MONITOR.md)."""
from __future__ import annotations

from rvlook.symbolic.decode import Decoded
from rvlook.symbolic.fields import (
    CSRS, EXITED, FINDING_REPORTED, SCAUSE, SEPC, SSCRATCH, SSTATUS, STOPPED, STVAL, STVEC, Answer, Area, OpenCall, PathEnded)
from rvlook.symbolic.memory import MemoryState
from rvlook.symbolic.nodes import M32, Node, Word
from rvlook.symbolic.origins import Tag
from rvlook.symbolic.words import add, is_number_choice, operation

MONITOR_KEY = 0x0A454E43  # the value of a7 in a call of the monitor
# Functions of the monitor that an enclave may call: values of a6.
MEASURE = 5
STOP = 6
EXIT = 7
# Statuses that the monitor returns in a0.
SUCCESS = 0
NOT_SUPPORTED = M32
BAD_ADDRESS = 0xFFFFFFF7
# Causes of traps: values of scause (Privileged ISA).
FETCH = 1  # instruction access fault
ILLEGAL = 2  # illegal instruction
BREAKPOINT = 3
ECALL_U = 8  # ecall in U-mode
DIGEST = 32  # bytes of a measurement
# Bits of sstatus (Privileged ISA).
SIE = 0x2  # interrupts are enabled in S-mode
SPIE = 0x20  # the value of SIE before the last trap
SPP = 0x100  # the mode before the last trap: 1 for S-mode
# Numbers of registers.
SP = 2
A0 = 10
A1 = 11
A6 = 16
A7 = 17


class CallState(MemoryState):
    """The state of a path, with calls, returns, traps, and calls of the monitor."""
    __slots__ = ()

    def note_call(self, pc: int, target: int, is_trap: bool = False) -> None:
        """Opens a call: the instruction at `pc` calls the function whose first instruction is at `target`, or traps to the handler at `target`."""
        search = self.search
        self.context = search.world.contexts.called(self.context, pc, is_trap)
        search.calls += 1
        self.calls = OpenCall(self.calls, self.call, pc + 4, self.regs[SP], self.entry)
        self.call = search.calls
        self.entry = target
        if target not in search.flows.by_entry:
            search.note_flow(target)

    def note_return(self, target: int) -> None:
        """Closes the calls that a return to the address `target` ends. Reports a return to another address than that after the innermost call: the
        host may have overwritten the return address."""
        search = self.search
        contexts = search.world.contexts
        if self.calls and self.calls.back != target:
            if self.is_base:
                search.doubt("return", self, "a return that is none")
            else:
                search.report("return", self, "goes to %08x" % target, self.model)
                raise PathEnded(FINDING_REPORTED)
        self.context = contexts.returned(self.context, target)
        self.leave_call(target)

    def leave_call(self, target: int) -> None:
        """Closes the innermost open call whose return address is `target`, and the calls inside it. Does nothing if there is none."""
        returning_call = next((open_call for open_call in self.open_calls() if open_call.back == target), None)
        if returning_call:
            self.calls = returning_call.outer
            self.call = returning_call.caller
            self.entry = returning_call.entry
            self.areas = tuple(area for area in self.areas if self.is_open(area.call))

    def leave_frame(self) -> None:
        """Ends the stack frame of the present call before a tail call. The function to which the call jumps has a frame of its own, so the call gets
        a new number."""
        self.search.calls += 1
        self.areas = tuple(area for area in self.areas if area.call != self.call)
        self.call = self.search.calls

    def note_moved_sp(self, old_sp: int, is_relative: bool) -> None:
        """Updates the stack and its variable-length arrays after sp has changed by another amount than a constant. `old_sp` is the value before.
        `is_relative` says whether the new value was computed from the old one: then an array begins or ends. Else sp points to another stack. Ends
        the path if sp is an expression."""
        new_sp = self.regs[SP]
        if type(new_sp) is not int:
            raise PathEnded("sp")
        self.stack_bottom, _ = self.search.extents.stack_of(new_sp)
        if is_relative and new_sp < old_sp:
            self.areas += (Area(self.call, low=new_sp, high=old_sp),)
            if new_sp < self.stack_bottom:
                self.overflow(new_sp, "store")
        elif is_relative:
            self.areas = tuple(area for area in self.areas if area.call != self.call or area.low >= new_sp)

    # ---- traps

    def trap(self, cause: int, value: Word) -> int:
        """Takes a trap with a value of scause and a value of stval, as the monitor redirects the trap to S-mode (docs/MONITOR.md, Trap handling).
        Returns the next pc: the trap handler of the enclave."""
        search = self.search
        csr = self.csr
        # The target comes before any change: it may divide the path, and the other path executes this step again.
        target = self.jump_target(csr[STVEC]) & -4
        search.note_trap(self, cause, value)
        status = csr[SSTATUS]
        csr[SEPC] = self.pc & -4
        csr[SCAUSE] = cause
        csr[STVAL] = value
        csr[SSTATUS] = status & ~(SIE | SPIE | SPP) | (SPP if self.mode else 0) | (SPIE if status & SIE else 0)
        self.mode = 1
        self.note_call(self.pc, target, is_trap=True)
        return target

    def jump_target(self, address: Word) -> int:
        """Returns the number of a jump target that was loaded from stvec or sepc. The host must not choose the address: an expression is reported,
        unless it is a choice between two numbers."""
        if type(address) is Node and not is_number_choice(address):
            return self.search.jump(self, address, is_return=True)
        return self.concretize(address)

    def sret(self) -> int:
        """Executes `sret`: returns from a trap. Returns the next pc."""
        target = self.jump_target(self.csr[SEPC])
        status = self.csr[SSTATUS]
        contexts = self.search.world.contexts
        self.mode = 1 if status & SPP else 0
        self.csr[SSTATUS] = status & ~(SIE | SPIE | SPP) | (SIE if status & SPIE else 0) | SPIE
        self.leave_call(target)
        self.context = next((contexts.parents[context] for context in contexts.chain(self.context) if contexts.traps[context]), 0)
        return target

    def csr_access(self, instruction: Decoded) -> int:
        """Executes an access to a control and status register, with the operation "w", "s" or "c" (write, set bits, clear bits). In U-mode, and for a
        register that the enclave does not have, it is an illegal instruction. Returns the next pc."""
        rd, rs1, number, is_immediate = instruction.rd, instruction.rs1, instruction.csr, instruction.is_immediate
        if not self.mode or number not in CSRS:
            return self.trap(ILLEGAL, instruction.imm)
        old = self.csr[number]
        old_tag = self.csr_tags.get(number)
        old_sp = self.regs[SP]
        is_write = instruction.op == "w" or rs1 != 0  # csrrs and csrrc with x0 only read (Unprivileged ISA, Zicsr)
        if is_write:
            operand = rs1 if is_immediate else self.regs[rs1]
            tag: Tag = None
            if instruction.op == "s":
                new = operation("or", old, operand)
            elif instruction.op == "c":
                new = operation("and", old, operation("xor", operand, M32))
            else:
                new = operand
                tag = None if is_immediate else self.tags[rs1]
            new = operation("and", new, CSRS[number])  # the bits that can be written
            self.csr[number] = self.concretize(new) if number == SSTATUS else new  # traps compute with the bits of sstatus
            self.csr_tags[number] = tag if number == SSCRATCH else None  # the handler swaps its stack pointer with sscratch
        if rd:
            self.regs[rd] = old
            self.tags[rd] = old_tag
            if rd == SP:
                self.note_moved_sp(old_sp, is_relative=False)
        return self.pc + 4

    # ---- the monitor

    def ecall(self) -> int:
        """Executes `ecall`: in S-mode a call of the monitor, in U-mode a trap to the runtime of the enclave in S-mode. Returns the next pc."""
        if not self.mode:
            return self.trap(ECALL_U, 0)
        is_monitor_call = self.concretize(self.regs[A7]) == MONITOR_KEY
        function = self.concretize(self.regs[A6]) if is_monitor_call else 0  # 0 is no function of the monitor that an enclave may call
        if function in (STOP, EXIT):
            self.leave_enclave(function)
        elif function == MEASURE:
            return self.measure()
        else:
            self.set_result(NOT_SUPPORTED)
        return self.pc + 4

    def set_result(self, status: int) -> None:
        """Sets the results of a call of the monitor: a0 to a status, and a1 to 0."""
        for register, result in ((A0, status), (A1, 0)):
            self.regs[register] = result
            self.tags[register] = None

    def leave_enclave(self, call: int) -> None:
        """Leaves the enclave by the call STOP or EXIT. Ends the path at an exit, at a merged stop, and after the last activation of the search. Else
        begins the next activation, in which the host gives new inputs."""
        search = self.search
        search.check_answer(self, self.regs[A0])
        self.answers.append(Answer(self.steps, call, self.regs[A0], len(self.loads), len(self.stores)))
        search.check_leaving(self)
        if call == EXIT:
            raise PathEnded(EXITED)
        if search.merger:
            search.merge_at_stop(self)
            if not self.is_base:
                raise PathEnded(STOPPED)
            self.is_covered = bool(search.means.loops_from)
        if self.activation + 1 >= search.activations:
            raise PathEnded(STOPPED)
        self.activation += 1
        self.calm_window = {}
        self.fetched = {}
        self.symbolic_fetches = []
        self.branch_counts = {}
        self.pending_outputs = ()
        self.is_released = False
        windows_of_run = search.world.windows
        last_number = len(windows_of_run) - 1  # after the last activation of the run itself, the window of that activation is used again
        self.window_memory = bytearray(windows_of_run[min(self.activation, last_number)])
        self.set_result(SUCCESS)

    def measure(self) -> int:
        """Executes the call MEASURE: stores the measurement of the enclave at the address in a1, as the monitor does. Sets a0 to BAD_ADDRESS if the
        enclave may not store there. Returns the next pc."""
        at = self.regs[A1]
        world = self.search.world
        digest = bytes.fromhex(world.enclave.measurement)
        if type(at) is Node:
            extent = self.place_at(at, DIGEST, self.tags[A1], 0, "store")
            if extent is not None and extent.low == world.window[0]:
                for n, byte in enumerate(digest):
                    self.store_window(self.value(at) + n, 1, byte, add(at, n))
                self.set_result(SUCCESS)
                return self.pc + 4
            at = self.concretize(at, "address")
        if all(world.is_allowed(at + n, 1) for n in range(DIGEST)):
            self.access(at, DIGEST, self.tags[A1], 0, "store")
            for n, byte in enumerate(digest):
                self.store(at + n, 1, byte)
            self.set_result(SUCCESS)
        else:
            self.set_result(BAD_ADDRESS)
        return self.pc + 4
