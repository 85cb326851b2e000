"""Finds the bounds of the object at an address: a variable, a member, a local variable, a saved register, or the rest of a frame."""
from __future__ import annotations

from bisect import bisect_right
from typing import Dict, Iterator, List, NamedTuple, Optional, Sequence, Tuple, TYPE_CHECKING

from rvlook.access.stack import Stack, stacks_of

if TYPE_CHECKING:
    from rvlook.image.variables import Local, Member
    from rvlook.symbolic.origins import Origin
    from rvlook.symbolic.fields import AnyState as State
    from rvlook.symbolic.world import World

SP = 2  # the number of the register
MAX_MEMBER_BYTES = 65536  # a member that begins further before an address than this number of bytes is not found
Bounds = Tuple[int, int]  # the first address, and the end


class LocalVariable(NamedTuple):
    """A local variable of a function, in a range of instructions."""
    first: int  # the pc of the first instruction for which the variable is at this place
    end: int  # the end of these instructions
    is_sp: bool  # whether the offsets count from sp; else they count from the end of the frame
    low: int  # the offset of its first byte
    high: int  # the offset of its end
    name: str


class Extent(NamedTuple):
    """The bounds of the object to which an address belongs."""
    low: int  # the first address of the object
    high: int  # its end
    name: str
    is_start: bool  # whether the address is where the object, or one of its members, begins

    @property
    def bounds(self) -> Bounds:
        """Returns the first address and the end."""
        return self.low, self.high

    def has(self, at: int, width: int) -> bool:
        """Returns whether an access of `width` bytes at an address stays in the object."""
        return self.low <= at and at + width <= self.high


class Frame(NamedTuple):
    """The stack frame of a call."""
    call: int  # the number of the call
    sp: int  # the first address of the frame
    top: int  # its end: sp of the caller, or the end of the stack
    pc: int  # the present instruction of the call


class Extents:
    """Finds the objects of an enclave by address."""

    def __init__(self, world: World) -> None:
        self.world = world
        self.objects = world.objects
        self.region_symbols = world.objects.region_symbols  # the symbols in the region, in ascending order of their addresses
        self.static_members = world.objects.fixed  # the variables at fixed addresses, down to their members, in the same order
        low, high = world.region
        self.stacks: List[Stack] = [stack for stacks in stacks_of(world.symbols).values() for stack in stacks if low <= stack.bottom < high]
        self.locals = variables_of(world.objects.locals)
        self.member_starts = {member.at for member in self.static_members}  # the addresses at which members of variables begin
        self.reaches: Dict[Member, int] = {}  # the size of the largest object that begins with a member

    def stack_of(self, sp: int) -> Bounds:
        """Returns the bounds of the stack to which a stack pointer belongs. If no symbol names this stack, it is the part of the region above all
        variables."""
        for stack in self.stacks:
            if stack.bottom < sp <= stack.top:
                return stack.bottom, stack.top
        return self.objects.stack, self.world.region[1]

    def variable_at(self, address: int) -> Extent:
        """Returns the variable at an address of the region below the stacks: by its symbol, else the bytes between two symbols."""
        symbol = self.objects.symbol_at(address)
        starts = self.objects.symbol_starts
        index = bisect_right(starts, address)  # the index of the next symbol
        end = starts[index] if index < len(starts) else self.objects.stack
        if symbol:
            high = symbol.address + symbol.size if symbol.size else end
            is_start = address == symbol.address or address in self.member_starts
            return Extent(symbol.address, high, self.objects.fixed_at(address).name, is_start)
        symbol_before = self.region_symbols[index - 1] if index else None
        low = symbol_before.address + symbol_before.size if symbol_before else self.world.region[0]
        name = "the data after %s" % symbol_before.name if symbol_before else "the data"
        return Extent(low, max(end, address + 1), name, is_start=False)

    def member_at(self, address: int) -> Optional[Member]:
        """Returns the member of a variable at an address below the stacks, or None without DWARF."""
        members = self.static_members
        index = bisect_right(self.objects.starts, address) - 1  # the index of the last member that begins at or before the address
        while index >= 0 and members[index].at > address - MAX_MEMBER_BYTES:
            if address < members[index].at + members[index].size:
                return members[index]
            index -= 1
        return None

    def begins_other_member(self, target: int, base: int) -> bool:
        """Returns whether a member begins at the address `target`, and the address `base` is outside this member."""
        member = self.member_at(target) if target < self.objects.stack else None
        return member is not None and member.at == target and not member.at <= base < member.at + member.size

    # ---- frames

    def frames(self, state: State) -> Iterator[Frame]:
        """Yields the stack frames of the open calls of a state, the innermost first."""
        call = state.call
        sp = state.regs[SP]
        pc = state.pc
        for open_call in state.open_calls():
            yield Frame(call, sp, self.top_of(sp, open_call.sp), pc)
            call = open_call.caller
            sp = open_call.sp
            pc = open_call.back - 4
        yield Frame(call, sp, self.stack_of(sp)[1], pc)

    def top_of(self, sp: int, caller_sp: int) -> int:
        """Returns the end of a frame: the sp of its caller, unless that is on another stack."""
        _, top = self.stack_of(sp)
        return caller_sp if sp <= caller_sp <= top else top

    def object_at(self, state: State, address: int, origin: Optional[Origin] = None) -> Optional[Extent]:
        """Returns the object at an address. Returns None outside region and window, and between two frames. The local variables of a frame depend on
        a pc. If the call of this frame has computed `origin`, this is the pc of the origin, else the present pc of the call."""
        world = self.world
        if world.window[0] <= address < world.window[1]:
            return Extent(*world.window, name="the window", is_start=True)
        if not world.region[0] <= address < world.region[1]:
            return None
        if address < self.objects.stack:
            return self.variable_at(address)
        for frame in self.frames(state):
            if frame.sp <= address < frame.top:
                pc = frame.pc
                if origin is not None and origin.pc and origin.call == frame.call:
                    pc = origin.pc
                return self.in_frame(state, address, frame, pc)
        return None

    def in_frame(self, state: State, address: int, frame: Frame, pc: int) -> Extent:
        """Returns the local variable at an address in a frame, a saved register, or the bytes between these. `pc` is the instruction that has
        computed the address."""
        function = self.world.symbols.function(pc) or "%08x" % pc
        # The objects in the frame: the first address, the end, and the name of each.
        objects = [(saved, saved + 4, "a saved register of " + function) for saved in state.search.saved.get(frame.call, ())]
        for variable in self.locals:
            if variable.first <= pc < variable.end:
                base = frame.sp if variable.is_sp else frame.top
                objects.append((base + variable.low, base + variable.high, "%s in %s" % (variable.name, function)))
        objects += [(area.low, area.high, "the variable-length array in " + function) for area in state.areas if area.call == frame.call]
        for start, end, name in objects:
            if start <= address < end:
                return Extent(start, end, name, is_start=address == start)
        low = max([frame.sp, *(end for _, end, _ in objects if end <= address)])
        high = min([frame.top, *(start for start, _, _ in objects if start > address)])
        return Extent(low, high, "the frame of " + function, is_start=False)


def variables_of(members: Sequence[Local]) -> List[LocalVariable]:
    """Returns the local variables as a whole: joins the members of one variable. An entry with the same name as an earlier one is another variable if
    it has no members, or if its offset is less than that of the member before."""
    # The offsets of each variable, by its range of instructions, its base, its name, and a number that distinguishes variables of one name.
    found: Dict[Tuple[int, int, bool, str, int], Bounds] = {}
    last: Dict[Tuple[int, int, bool, str], Tuple[int, int]] = {}  # the number of the last variable of a name, and the end of its last member
    for member in members:
        full_name = member.member.name
        name = full_name.partition(".")[0].partition("[")[0]
        at = member.member.at
        size = member.member.size
        key = member.first, member.end, member.is_sp, name
        number, end = last.get(key, (0, at))
        is_whole = "." not in full_name and "[" not in full_name
        if is_whole or at < end - size:
            number += 1
        last[key] = number, at + size
        low, high = found.get((*key, number), (at, at + size))
        found[(*key, number)] = min(low, at), max(high, at + size)
    return [LocalVariable(first, end, is_sp, low, high, name) for (first, end, is_sp, name, _), (low, high) in found.items()]
