"""Loaded by gdb with `-x python/rvlook/gdb/client.py`, for what the protocol cannot express.

A backtrace continues from a trap handler to the interrupted code, and from an enclave to the host that entered it. Registers are read again
after each `monitor`, which may step. gdb waits as long as a run of the bench may take."""
from __future__ import annotations

import gdb
from gdb.unwinder import Unwinder, register_unwinder  # type: ignore[attr-defined]

SAVED = ["ra", "sp", *("s%d" % number for number in range(12))]  # callee-saved registers, and ra
UNCHANGED = ["world", "priv", "stvec", "host_pc", *("host_" + name for name in SAVED)]  # registers that a trap does not change
BASE_MASK = 0xFFFFFFFC  # the bits of stvec that are BASE: the address of the trap handler
SWAP = 0x14011173  # csrrw sp, sscratch, sp: exchanges the stack pointers of the handler and of the interrupted code
STORE, SP, MOVE_SP = 0x2023, 2, 0x10113  # sw (opcode and funct3), the number of sp, and addi sp, sp (all but the immediate)


class FrameId:
    """The identity of a frame, by which gdb recognises it."""

    def __init__(self, sp: gdb.Value, pc: gdb.Value) -> None:
        self.sp, self.pc = sp, pc  # sp and pc of the frame


class Assembly(Unwinder):
    """Unwinds frames in code without debugging information: trap handlers, and the assembly with which an enclave begins."""

    def __init__(self) -> None:
        super().__init__("rvbench")

    def __call__(self, pending: gdb.PendingFrame) -> gdb.UnwindInfo | None:
        try:
            pc = int(pending.read_register("pc")) & 0xFFFFFFFF
            if self.is_function(pc):
                return None
            handler = int(pending.read_register("stvec")) & BASE_MASK
            if handler and handler <= pc and name_of(pc) == name_of(handler):
                return self.interrupted(pending, pc, handler)
            is_enclave = str(pending.read_register("world")).startswith("e")  # the world of the enclave in slot N is eN
            return self.caller(pending, pc) if is_enclave else None
        except (ValueError, gdb.error):
            return None  # a register of this frame is not known, or there is none of that name without the server

    @staticmethod
    def is_function(pc: int) -> bool:
        """Returns whether the debugging information has a function at an address."""
        space = gdb.current_progspace()
        block = space.block_for_pc(pc) if space else None
        while block and not block.function:
            block = block.superblock
        return block is not None

    @staticmethod
    def interrupted(pending: gdb.PendingFrame, pc: int, handler: int) -> gdb.UnwindInfo:
        """Returns the frame of a trap handler, whose caller is the interrupted code. The instructions before `pc` show where registers were saved."""
        saved = {}  # the offsets from sp at which registers are saved, by their numbers
        stack, moved, is_swapped = int(pending.read_register("sp")), 0, False  # `moved`: the sum of the constants that were added to sp
        for at in range(handler, pc, 4):
            word = int.from_bytes(bytes(gdb.selected_inferior().read_memory(at, 4)), "little")
            if word == SWAP:
                is_swapped = not is_swapped
            elif word & 0x000FFFFF == MOVE_SP:
                moved += signed(word >> 20)
            elif word & 0x000FF07F == STORE | SP << 15:  # relative to sp
                saved[word >> 20 & 31] = signed(word >> 25 << 5 | word >> 7 & 31)
        info = pending.create_unwind_info(FrameId(pending.read_register("sp"), gdb.Value(pc)))
        for name in [*UNCHANGED, *("x%d" % number for number in (1, *range(3, 32)) if number not in saved)]:
            info.add_saved_register(name, pending.read_register(name))
        kind = pending.read_register("ra").type
        info.add_saved_register("pc", pending.read_register("sepc"))
        info.add_saved_register("sp", pending.read_register("sscratch") if is_swapped else gdb.Value(stack - moved).cast(kind))
        for number, offset in saved.items():
            data = bytes(gdb.selected_inferior().read_memory((stack + offset) & 0xFFFFFFFF, 4))
            info.add_saved_register("x%d" % number, gdb.Value(int.from_bytes(data, "little")).cast(kind))
        return info

    @staticmethod
    def caller(pending: gdb.PendingFrame, pc: int) -> gdb.UnwindInfo:
        """Returns the frame of an enclave, with the registers of the host as those of its caller."""
        values = {name: pending.read_register("host_" + name) for name in ["pc", *SAVED]}
        int(values["pc"])  # raises gdb.error if the server has found no entry of the enclave
        info = pending.create_unwind_info(FrameId(pending.read_register("sp"), gdb.Value(pc)))
        for name, value in values.items():
            info.add_saved_register(name, value)
        return info


def signed(value: int) -> int:
    """Returns the lowest 12 bits of a value as a signed number."""
    return (value & 0xFFF) - (1 << 12 if value & 0x800 else 0)


def name_of(pc: int) -> str:
    """Returns the label at or before an address."""
    return (gdb.execute("info symbol 0x%x" % pc, to_string=True) or "").split(" ")[0]


def before_monitor() -> None:
    """Announces that gdb reads all registers again after a line of `monitor`."""
    try:
        gdb.execute("maintenance packet QRvlookFresh", to_string=True)
    except gdb.error:
        pass  # there is no server yet; gdb reports that for the line itself


register_unwinder(None, Assembly(), replace=True)
gdb.execute("set remotetimeout 60")
gdb.execute("define hook-monitor\npython before_monitor()\nend")
gdb.execute("define hookpost-monitor\nmaintenance flush register-cache\nend")
