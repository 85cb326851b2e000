"""Call contexts: the calls that are open at a step, and where the stack frame of each of them is."""
from __future__ import annotations

from typing import Iterator

from rvlook.finders.inputs.code import LINKS, Code, Kind
from rvlook.finders.inputs.trace import ROOT

MONITOR_CALL = 9  # the cause of an ecall from S
MAX_DEPTH = 200  # open calls of a context; a deeper call has the context of its caller


class Contexts:
    """The call contexts of all traces, by number. A context is the context of the caller with one more call."""
    def __init__(self) -> None:
        self.numbers: dict[tuple[int, int], int] = {}  # the number of each context, by the caller's context and the pc of the call
        # by number: the caller's context, the pc of the call, the open calls, and whether a trap opened it
        self.parents, self.calls, self.depths, self.traps = [ROOT], [0], [0], [False]
        self.frames: dict[int, int] = {}  # sp of each context
        self.version = 0  # counts the changes of frames and saved registers
        self.saved: dict[int, set[int]] = {}  # the addresses at which a context saves registers of its caller

    def after(self, context: int, code: Code, pc: int, following: int, trap: tuple[int, int] | None) -> int:
        """Returns the context after a step. `trap` is the cause and the value of the trap of the step, or None."""
        if trap and trap[0] != MONITOR_CALL:
            return self.called(context, pc, is_trap=True)
        if code.kind in (Kind.CALL, Kind.INDIRECT) and code.link in LINKS:
            return self.called(context, pc, is_trap=False)
        if code.kind is Kind.RETURN:
            return self.returned(context, following)
        if code.kind is Kind.TRAP_RETURN:
            return next((self.parents[caller] for caller in self.chain(context) if self.traps[caller]), ROOT)
        return context

    def called(self, context: int, pc: int, is_trap: bool) -> int:
        """Returns the context after a call or a trap at pc in a context. Adds it if it is new."""
        if self.depths[context] >= MAX_DEPTH:
            return context
        key = context, pc
        if key not in self.numbers:
            self.numbers[key] = len(self.parents)
            self.parents.append(context)
            self.calls.append(pc)
            self.depths.append(self.depths[context] + 1)
            self.traps.append(is_trap)
        return self.numbers[key]

    def returned(self, context: int, pc: int) -> int:
        """Returns the context after a return to an address: that of the innermost call before this address."""
        return next((self.parents[caller] for caller in self.chain(context) if self.calls[caller] + 4 == pc), ROOT)

    def is_return_address(self, context: int, pc: int) -> bool:
        """Returns whether the innermost call of a context is right before an address. Outside every call any address is."""
        return context == ROOT or self.calls[context] + 4 == pc

    def chain(self, context: int) -> Iterator[int]:
        """Yields a context, its caller's context, and so on."""
        while context:
            yield context
            context = self.parents[context]

    def update_frame(self, context: int, code: Code, address: int) -> None:
        """Records sp of a context, from an access relative to sp at `address`, or from an instruction that lowers sp. Records saved registers too."""
        sp = address - code.offset
        if code.moves_sp:  # `address` is not that of an access: sp follows from the caller's sp, if that is known
            caller_sp = self.frames.get(self.parents[context]) if context else None
            sp = self.frames.get(context, -1) if caller_sp is None or context in self.frames else caller_sp + code.moves_sp
        if sp != self.frames.get(context, -1):  # -1: not known
            self.frames[context] = sp
            self.version += 1
        new_addresses = set(range(address, address + 4)) - self.saved.get(context, set()) if code.is_saving else ()
        if new_addresses:
            self.saved.setdefault(context, set()).update(new_addresses)
            self.version += 1
