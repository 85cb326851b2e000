"""The monitored machine: one or two harts under a security monitor in the style of Keystone (EuroSys 2020), by the tables of docs/MONITOR.md. It has
the enclave table, the PMP entries, the calls with their refusals in order, world switches, timer interrupts, and redirected traps. SHA-256 is
that of hashlib. Independent of the code under test.
"""
import hashlib

from models.monitor_hart import HartInMemory
from models.pmp_entries import Entries, napot
from models.privileged_hart import MIE_CSR, MEPC, MSTATUS, NUMBER, ONES, S, SIE, SPIE, SPP, START, U

KEY = 0x0A454E43
MONITOR_SIZE = 0x10000
HOST_ENTRY = START + MONITOR_SIZE
SLOTS = 13
LEAST_SIZE = 4096
CREATE, DESTROY, RUN, RESUME, MEASURE, STOP, EXIT = range(1, 8)
OF_HOST, OF_ENCLAVE = (CREATE, DESTROY, RUN, RESUME, MEASURE), (MEASURE, STOP, EXIT)
NOT_SUPPORTED, BAD_REGION, BAD_WINDOW, OVERLAP, BAD_ENTRY, NO_SLOT, NO_ENCLAVE, BAD_STATE, BAD_ADDRESS = range(
    ONES, ONES - 9, -1)
EXITED, STOPPED, INTERRUPTED = 0, 1, 2  # a0 of the host when an enclave exits, stops or is interrupted
DIGEST = 32
SUPERVISOR = [NUMBER[name] for name in ("stvec", "sscratch", "sepc", "scause", "stval")]
STVEC, SSCRATCH, SEPC, SCAUSE, STVAL = SUPERVISOR
SUPERVISOR_FLAGS = SIE | SPIE | SPP | 1 << 19  # SIE, SPIE, SPP and MXR of mstatus
TIMER_CAUSE, ECALL_FROM_S = 0x80000007, 9


class Context:
    """The saved context of a world that does not run; by default all 0 and in mode U."""

    def __init__(self, pc=0, mode=U, regs=None):
        self.regs, self.pc, self.mode = regs or [0] * 32, pc, mode
        self.supervisor, self.flags = dict.fromkeys(SUPERVISOR, 0), 0


class Enclave:
    """A live slot."""

    def __init__(self, region, window, entry, measurement):
        self.region, self.window, self.entry, self.measurement = region, window, entry, measurement
        self.state = "Fresh"
        self.context = Context(entry, S, [0] * 10 + [*region, *window] + [0] * 18)


class Refused(Exception):
    def __init__(self, status):
        self.status = status


def meet(one, other):
    """Returns whether two blocks, each a base and a size, share a byte."""
    return max(one[0], other[0]) < min(one[0] + one[1], other[0] + other[1])


def measurement_of(region, window, entry, data):
    numbers = b"".join(number.to_bytes(4, "little") for number in (*region, *window, entry))
    return hashlib.sha256(numbers + data).digest()


class Monitored(HartInMemory):
    """A hart: `world` is None for the host, or the slot of the enclave that runs; `entered` the slot that the last step entered.
    `peers` are all harts of the machine, this one with them, which have one RAM and one table."""

    def __init__(self, ram, entry):
        super().__init__(ram)
        self.pc, self.mode, self.world, self.host, self.entered = entry, S, None, None, None
        self.table, self.peers = {}, [self]
        self.lay_out()

    def add_hart(self):
        """Returns a second hart of the machine at reset: equal to the first one, except for its number in a0."""
        other = Monitored(b"", self.pc)
        other.ram, other.table, other.peers = self.ram, self.table, self.peers
        other.set(10, len(self.peers))
        self.peers.append(other)

    # ---- blocks, and the entries

    def is_lawful(self, block):
        base, size = block
        return size >= LEAST_SIZE and size & size - 1 == 0 and base % size == 0 and self.is_inside(base, size)

    def lay_out(self):
        """Programs the sixteen entries and mie from the enclave table and the world of the hart."""
        entries = {0: (0x18, napot(START, MONITOR_SIZE))}
        for slot, enclave in self.table.items():
            entries[slot + 1] = (0x1F if slot == self.world else 0x18, napot(*enclave.region))
        if self.world is None:
            entries[15] = (0x1F, ONES)
        elif self.table[self.world].window[1]:
            entries[14] = (0x1B, napot(*self.table[self.world].window))
        before, self.entries, self.kept[MIE_CSR] = self.entries, Entries(entries), 0 if self.world is None else 0x80
        if vars(before) != vars(self.entries):
            self.verdicts.clear()

    # ---- a step

    def step(self):
        """Makes a bare step; after a trap the monitor handles it, programs the entries of every hart, and returns."""
        self.entered = None
        trap = super().step()
        if trap:
            mode = self.kept[MSTATUS] >> 11 & 3
            if trap.cause == ECALL_FROM_S:
                self.called()
            elif trap.cause == TIMER_CAUSE:
                self.timer = False
                self.leave_enclave("Stopped", self.saved(self.kept[MEPC], mode), INTERRUPTED, 0)
            else:
                self.pass_on(trap, mode)
            for hart in self.peers:
                hart.lay_out()
        return trap

    def return_to(self, pc, mode):
        self.leave(MEPC, pc)
        self.kept[MSTATUS] = self.kept[MSTATUS] & ~(3 << 11) | mode << 11
        self.pc = self.mret()

    def pass_on(self, trap, mode):
        """Redirects an exception to mode S of the same world."""
        status = self.kept[MSTATUS]
        self.leave(SEPC, self.kept[MEPC])
        self.leave(SCAUSE, trap.cause)
        self.leave(STVAL, trap.tval)
        self.kept[MSTATUS] = (status & ~(SIE | SPIE | SPP) | (SPIE if status & SIE else 0) | (SPP if mode == S else 0))
        self.return_to(self.kept.get(STVEC, 0) & ~3, S)

    # ---- switches

    def saved(self, pc, mode):
        """Returns the context of the suspended world."""
        context = Context(pc, mode, list(self.regs))
        context.supervisor = {number: self.kept.get(number, 0) for number in SUPERVISOR}
        context.flags = self.kept[MSTATUS] & SUPERVISOR_FLAGS
        return context

    def load_context(self, context):
        self.regs = list(context.regs)
        self.kept.update(context.supervisor)
        self.kept[MSTATUS] = self.kept[MSTATUS] & ~SUPERVISOR_FLAGS | context.flags
        self.return_to(context.pc, context.mode)

    def enter_enclave(self, slot):
        self.host = self.saved(self.kept[MEPC] + 4 & ONES, S)
        enclave = self.table[slot]
        self.world = self.entered = slot
        enclave.state = "Running"
        self.load_context(enclave.context)

    def leave_enclave(self, state, context, status, value):
        enclave = self.table[self.world]
        enclave.state, enclave.context, self.world = state, context, None
        self.host.regs[10:12] = [status, value]
        self.load_context(self.host)

    # ---- changes without a step

    def scramble(self, slot):
        """Replaces each byte of the region and each saved register of a live enclave that runs on no hart by its complement. Returns whether there
        is such an enclave."""
        if slot not in self.table or self.table[slot].state == "Running":
            return False
        enclave = self.table[slot]
        base, size = enclave.region
        self.put(base, bytes(byte ^ 0xFF for byte in self.part(base, size)))
        enclave.context.regs = [0] + [word ^ ONES for word in enclave.context.regs[1:]]
        return True

    # ---- calls

    def called(self):
        """Handles an ecall from S: executes or refuses the call, and continues after it."""
        past = self.kept[MEPC] + 4 & ONES
        try:
            function = self.regs[16]
            if self.regs[17] != KEY or function not in (OF_HOST if self.world is None else OF_ENCLAVE):
                raise Refused(NOT_SUPPORTED)
            if function in (RUN, RESUME):
                return self.enter_enclave(self.slot_in(self.regs[10], "Fresh" if function == RUN else "Stopped"))
            if function in (STOP, EXIT):
                return self.left_by_call(function, past)
            answer = 0, {CREATE: self.create, DESTROY: self.destroy, MEASURE: self.measure}[function]()
        except Refused as refusal:
            answer = refusal.status, 0
        self.regs[10:12] = answer
        return self.return_to(past, S)

    def left_by_call(self, function, past):
        value, context = self.regs[10], Context()
        if function == STOP:
            context = self.saved(past, S)
            context.regs[10:12] = [0, 0]
        self.leave_enclave("Stopped" if function == STOP else "Exited", context, STOPPED if function == STOP else EXITED, value)

    def slot_in(self, slot, *states):
        """Returns the slot if it is live and in one of these states."""
        if slot not in self.table:
            raise Refused(NO_ENCLAVE)
        if self.table[slot].state not in states:
            raise Refused(BAD_STATE)
        return slot

    def create(self):
        base, size, window_base, window_size, entry = self.regs[10:15]
        region, window = (base, size), (window_base, window_size) if window_size else (0, 0)
        if not self.is_lawful(region):
            raise Refused(BAD_REGION)
        if window_size and not self.is_lawful(window):
            raise Refused(BAD_WINDOW)
        monitor, regions = (START, MONITOR_SIZE), [it.region for it in self.table.values()]
        windows = [it.window for it in self.table.values()]
        if (any(meet(region, other) for other in [monitor, window, *regions, *windows])
                or any(meet(window, other) for other in [monitor, *regions])):
            raise Refused(OVERLAP)
        if entry % 4 or not base <= entry < base + size:
            raise Refused(BAD_ENTRY)
        free = [slot for slot in range(SLOTS) if slot not in self.table]
        if not free:
            raise Refused(NO_SLOT)
        measurement = measurement_of(region, window, entry, self.part(base, size))
        self.table[free[0]] = Enclave(region, window, entry, measurement)
        return free[0]

    def destroy(self):
        slot = self.slot_in(self.regs[10], "Fresh", "Stopped", "Exited")
        base, size = self.table.pop(slot).region
        self.put(base, bytes(size))
        return 0

    def measure(self):
        slot = self.regs[10] if self.world is None else self.world
        if slot not in self.table:
            raise Refused(NO_ENCLAVE)
        address = self.regs[11]
        if not all(self.is_done(S, "w", address + i, 1) for i in range(DIGEST)):
            raise Refused(BAD_ADDRESS)
        self.put(address, self.table[slot].measurement)
        return 0
