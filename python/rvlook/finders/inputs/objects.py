"""The objects of an enclave: what is at an address, and where objects begin."""
from __future__ import annotations

from bisect import bisect_right
from typing import NamedTuple

from rvlook.finders.inputs.contexts import Contexts
from rvlook.image.variables import Member, Variables
from rvlook.protocol.replies import Enclave
from rvlook.protocol.symbols import Symbol, Symbols

LINKER_SUFFIXES = ("_stack_top", "_stack_bottom", "region_base", "region_size")  # the ends of the names of a linker script, which name no object


class ObjectPlace(NamedTuple):
    """An object in memory."""
    name: str  # the name in the report
    variable: str = ""  # the variable that it is, or whose member it is; empty for no variable
    is_array: bool = False  # whether it is an array


# places outside all objects
WINDOW, OUTSIDE, UNUSED, NOTHING = (ObjectPlace(text) for text in ("the window", "memory outside region and window", "the unused stack", "no object"))


class Objects:
    """The objects of an enclave: variables and their members by DWARF, else symbols; then local variables and stack frames."""
    def __init__(self, enclave: Enclave, symbols: Symbols, variables: Variables, contexts: Contexts) -> None:
        self.enclave, self.symbols, self.contexts = enclave, symbols, contexts  # `contexts`: have the stack frames
        self.fixed = [variable for variable in variables.fixed if enclave.has(variable.at)]  # variables at fixed addresses, down to their members
        self.starts = [variable.at for variable in self.fixed]  # the addresses of `fixed`
        self.locals, self.parameters = variables.locals, variables.parameters  # the local variables and the parameters of functions
        region_symbols = [symbol for symbol in symbols.ordered if enclave.has(symbol.address) and not symbol.name.endswith(LINKER_SUFFIXES)]
        self.region_symbols, self.symbol_starts = region_symbols, [symbol.address for symbol in region_symbols]  # in the region; their addresses
        bottoms = [symbol.address for symbol in symbols.ordered if symbol.name.endswith("_stack_bottom") and enclave.has(symbol.address)]
        # the lowest address of the stacks; without symbols of stacks the end of the last symbol, without any symbol the end of the region
        symbol_ends = (symbol.address + max(4, symbol.size) for symbol in region_symbols)
        self.stack = min(bottoms, default=max(symbol_ends, default=enclave.base + enclave.size))

    def object_at(self, address: int, context: int, pc: int) -> ObjectPlace:
        """Returns the object at an address, for an instruction in a call context."""
        if self.enclave.shares(address):
            return WINDOW
        if not self.enclave.has(address):
            return OUTSIDE
        return self.fixed_at(address) if address < self.stack else self.stack_object_at(address, context, pc)

    def fixed_at(self, address: int) -> ObjectPlace:
        """Returns the variable, its member, or the symbol at an address below the stacks."""
        index = bisect_right(self.starts, address) - 1
        member = self.fixed[index] if index >= 0 else None
        if member and address < member.at + member.size:
            return place_of(member)
        symbol = self.symbol_at(address)
        return ObjectPlace(symbol.name, symbol.name) if symbol else NOTHING

    def symbol_at(self, address: int) -> Symbol | None:
        """Returns the symbol of the region that includes an address, or None."""
        index = bisect_right(self.symbol_starts, address) - 1
        symbol = self.region_symbols[index] if index >= 0 else None
        return symbol if symbol and (not symbol.size or address < symbol.address + symbol.size) else None

    def stack_object_at(self, address: int, context: int, pc: int) -> ObjectPlace:
        """Returns the local variable at an address of a stack, the saved registers, or the rest of a frame. `pc` and `context` are of the access."""
        frames, is_below = self.contexts.frames, True
        for frame_context in self.contexts.chain(context):
            sp, caller = frames.get(frame_context), frames.get(self.contexts.parents[frame_context])
            if sp is not None and address >= sp and not (caller is not None and sp < caller <= address):
                return self.frame_object_at(address, frame_context, sp, pc)
            is_below = is_below and (sp is None or address < sp)
            pc = self.contexts.calls[frame_context]
        return UNUSED if is_below and context else ObjectPlace("the stack")

    def frame_object_at(self, address: int, context: int, sp: int, pc: int) -> ObjectPlace:
        """Returns the object at an address in the frame of a context that begins at sp. The function of the context has the instruction at pc."""
        function = self.symbols.function(pc) or "%08x" % pc
        caller = self.contexts.frames.get(self.contexts.parents[context], sp)
        for local in self.locals:
            start = (sp if local.is_sp else caller) + local.member.at
            if local.first <= pc < local.end and start <= address < start + local.member.size:
                name = "%s in %s" % (local.member.name, function)
                return ObjectPlace(name, name.partition(".")[0], bool(local.member.element))
        if address in self.contexts.saved.get(context, ()):
            return ObjectPlace("the saved registers of " + function)
        return ObjectPlace("the frame of " + function, "the frame of " + function)

    def object_starts(self, executed: set[int]) -> list[int]:
        """Returns the addresses at which objects begin. Leaves out symbols that are in `executed`, the pcs of the run: they are functions."""
        symbols = [symbol.address for symbol in self.region_symbols if symbol.address not in executed and symbol.address < self.stack]
        return list(dict.fromkeys([variable.at for variable in self.fixed] + symbols))

    def is_function(self, address: int) -> bool:
        """Returns whether a symbol of the region begins at an address, so that a call may go there."""
        return any(symbol.address == address for symbol in self.region_symbols)


def place_of(member: Member) -> ObjectPlace:
    """Returns a variable or a member as an object."""
    return ObjectPlace(member.name, member.name.partition(".")[0].partition("[")[0], bool(member.element))
