"""The object rule: an access stays in the object from which its address was computed.

The *origin* (tag) of an address says from which symbol, frame or pointer it was computed (`origins`). An address may be *folded*: the compiler may
have computed it from another object, at a constant distance. The *kind* of an access is "load" or "store"."""
from __future__ import annotations

from typing import List, NamedTuple, Optional, Tuple

from rvlook.symbolic.conditions import all_of, any_of, within
from rvlook.symbolic.decode import decode
from rvlook.symbolic.evaluation import evaluate
from rvlook.symbolic.extents import Extent
from rvlook.symbolic.fields import FINDING_REPORTED, PathEnded
from rvlook.symbolic.members import Place, ask_member, member_leaves
from rvlook.symbolic.nodes import INPUT, M32, SECRET, Condition, Node, Word
from rvlook.symbolic.origins import MIXED, How, Origin, Tag
from rvlook.symbolic.paths import MAX_FOLLOWED_VALUES, ForkingState
from rvlook.symbolic.words import not_

LOOK_BACK_INSTRUCTIONS = 6  # how many of the last instructions are searched for an addition of a constant (`AccessState.constant_in`)
UNKNOWN_ORIGIN = "an address whose origin is not known"
MAY_BE_FOLDED = "an address that may be folded by the compiler"
NO_LAST_OBJECT = (None, 0, 0)  # the entry of an instruction in `last_objects` before its first access: no origin, and an object without bytes
FRAME_HAS_RETURNED = "uses a local variable of a function that has returned"


class Candidate(NamedTuple):
    """An object in which an access at an expression may stay."""
    inside: Condition  # the condition that the access stays in the object
    extent: Extent


class AccessState(ForkingState):
    """The state of a path that checks whether its accesses stay in their objects."""
    __slots__ = ()

    def is_open(self, call: int) -> bool:
        """Returns whether the call with the number `call` has not returned yet."""
        return call == self.call or any(open_call.caller == call for open_call in self.open_calls())

    def is_gone(self, tag: Tag) -> bool:
        """Returns whether an address was computed from the stack frame of a call that has returned. `tag` is the origin of the address."""
        return tag is not None and tag.how in (How.FRAME, How.STACK) and not self.is_open(tag.call)

    def anchored(self, tag: Tag, value: Word, offset: int) -> Tag:
        """Returns the origin of the sum of a register and an offset, which goes to another register. `value` is the value of the register, and `tag`
        is its origin. If the register has the address of a variable, and another variable or member begins exactly at the sum, the sum is the base
        of its origin. The reason is that compilers compute the addresses of several variables and members from one of them."""
        if tag is None or tag.how is not How.SYMBOL or tag.call != self.call or value != tag.base or not offset:
            return tag
        extents = self.search.extents
        target = tag.base + offset & M32
        extent = extents.object_at(self, target)
        if extent is None or not extent.is_start:
            return tag
        is_other = extent.low == target or extents.begins_other_member(target, tag.base)
        return tag._replace(base=target) if is_other else tag

    def constant_in(self, register: int, pc: int) -> int:
        """Returns the constant c if the last instruction that has written the register is an addition of c to another register. Returns 0 for
        another instruction, or if it is further back than LOOK_BACK_INSTRUCTIONS or before a jump."""
        world = self.search.world
        for n in range(1, min(LOOK_BACK_INSTRUCTIONS, len(self.pcs)) + 1):
            earlier_pc = pc - 4 * n
            is_straight = self.pcs[-n] == earlier_pc  # the path has executed the instructions from there in a row
            if not is_straight or not world.region[0] <= earlier_pc:
                return 0
            instruction = decode(world.word_at(earlier_pc))
            if instruction.rd == register:
                is_addition = instruction.kind == "imm" and instruction.op == "add" and instruction.rs1 not in (0, register)
                return instruction.imm if is_addition else 0
        return 0

    def objects_of(self, origin: Origin, offset: int, address: Optional[int] = None) -> List[Extent]:
        """Returns the objects in which an access may stay: two only if the origin fits both. `offset` is that of the instruction. `address` is the
        accessed address, None for an expression. In the function that has computed the address, the compiler may have left a part of the address to
        the offset. Then the object is the one that begins at the sum, or that the run itself reaches. If another object begins at the address
        without the offset, the access may stay in either of them (`note_variable`)."""
        is_computed_here = origin.call == self.call  # by the present call
        without_offset, with_offset = self.objects_without_and_with(origin, offset, is_computed_here)
        if is_computed_here and (origin.how in (How.UPPER, How.STACK) or address == origin.base + offset & M32):
            return [with_offset] if with_offset is not None else []
        if without_offset is None or with_offset is None:
            only_object = without_offset or with_offset
            return [only_object] if only_object is not None else []
        if without_offset.bounds == with_offset.bounds or origin.how not in (How.SYMBOL, How.FRAME):
            return [without_offset]
        reached_objects = self.search.reached_objects
        if self.is_base and address is not None and without_offset.has(address, 1) != with_offset.has(address, 1):
            reached = without_offset if without_offset.has(address, 1) else with_offset
            reached_objects.add((self.pc, reached.bounds))
        for extent in (with_offset, without_offset):
            if (self.pc, extent.bounds) in reached_objects:
                return [extent]
        beginning_there = [extent for extent in (with_offset, without_offset) if extent.is_start]
        if not beginning_there:
            return [without_offset, with_offset]
        return beginning_there if origin.how is How.SYMBOL else beginning_there[:1]

    def objects_without_and_with(self, origin: Origin, offset: int, is_computed_here: bool) -> Tuple[Optional[Extent], Optional[Extent]]:
        """Returns the object at the base of an origin, and the object at the base plus the offset of the instruction. Both are the same unless the
        present call has computed the address (`is_computed_here`). If the address is sp plus an index, a constant in the index may also be a part of
        the address of the object."""
        extents = self.search.extents
        without_offset = extents.object_at(self, origin.base, origin)
        with_offset = extents.object_at(self, origin.base + offset & M32, origin) if is_computed_here and offset else without_offset
        if origin.how is How.STACK and is_computed_here and origin.index_constant:
            without_offset = extents.object_at(self, origin.base + origin.index_constant + offset & M32, origin)
            if with_offset is None or (without_offset is not None and without_offset.is_start and not with_offset.is_start):
                with_offset = without_offset
        return without_offset, with_offset

    # ---- addresses that are numbers

    def access(self, address: int, width: int, tag: Tag, offset: int, kind: str) -> None:
        """Checks an access of `width` bytes at an address that is a number: reports the access if it leaves the object of its origin. `tag` is the
        origin of the register with the address, `offset` is the immediate of the instruction, and `kind` is "load" or "store"."""
        last_tag, last_low, last_high = self.last_objects.get(self.pc, NO_LAST_OBJECT)
        if last_tag == tag and last_low <= address and address + width <= last_high:
            return  # the last access of this instruction was checked for the same origin and object
        search = self.search
        low, high = search.world.window
        if low <= address and address + width <= high and (tag is None or tag.how is How.NONE or low <= tag.base < high):
            return  # the window is one object, to which a pointer without an origin may lead
        if tag is None or tag.how in (How.NONE, How.MIXED):
            search.doubt_access(kind, self, UNKNOWN_ORIGIN)
            return
        if self.is_gone(tag):
            search.report(kind, self, FRAME_HAS_RETURNED, self.model)
            return
        objects = self.objects_of(tag, offset, address)
        object_ = next((extent for extent in objects if extent.has(address, width)), None)
        if object_ is None:
            self.report_leaving(address, width, tag, objects, kind)
        elif len(objects) > 1 and address != tag.base + offset & M32 and not objects[0].is_start:
            search.doubt_access(kind, self, MAY_BE_FOLDED)
        else:
            search.reached_objects.add((self.pc, object_.bounds))
            self.last_objects[self.pc] = tag, object_.low, object_.high
            self.note_variable(tag, object_, kind)
            member_leaves(self, address, width, Place(tag, offset, object_), kind)

    def note_variable(self, tag: Origin, extent: Extent, kind: str) -> None:
        """Records the variable that an access reaches from the base address of its origin. If the instruction has reached another variable from the
        same base address on any path, the access is not decided: one of the two variables may be the wrong one."""
        search = self.search
        if tag.how is not How.SYMBOL or max(tag.base, extent.low) >= search.world.objects.stack:  # only variables below the stacks
            return
        first_bounds = search.reached_variables.setdefault((self.pc, tag.base), extent.bounds)
        if first_bounds != extent.bounds:
            search.doubt_access(kind, self, MAY_BE_FOLDED)

    def report_leaving(self, address: int, width: int, tag: Origin, objects: List[Extent], kind: str) -> None:
        """Reports an access that leaves all objects in which it may stay (`objects`). If the compiler may have computed the address from another
        object, the access is not decided."""
        search = self.search
        target = search.extents.object_at(self, address)
        if not objects:
            search.doubt_access(kind, self, UNKNOWN_ORIGIN)
        elif not any(self.is_sure(tag, extent) for extent in objects) or self.is_end(tag, address, width):
            search.doubt_access(kind, self, MAY_BE_FOLDED)
        else:
            text = "moves from %s into %s" % (objects[0].name, target.name if target else "memory that is no object")
            search.report(kind, self, text, self.model)
            if not self.is_base:
                raise PathEnded(FINDING_REPORTED)

    def is_sure(self, tag: Origin, extent: Extent) -> bool:
        """Returns whether an address was certainly computed from this object, so that an access outside the object is an error."""
        return tag.how is How.FRAME or extent.is_start or (self.pc, extent.bounds) in self.search.reached_objects

    def is_end(self, tag: Origin, address: int, width: int) -> bool:
        """Returns whether the base of an origin is the end of the object that an access reaches. A compiler may address the elements of an array
        backwards from its end."""
        if tag.how is not How.SYMBOL:
            return False
        extent = self.search.extents.object_at(self, address)
        return extent is not None and extent.high == tag.base and extent.has(address, width)

    def stack_access(self, address: int, kind: str) -> None:
        """Checks an access at sp plus a constant: reports an address below the stack."""
        if address < self.stack_bottom:
            self.overflow(address, kind)

    def overflow(self, address: int, kind: str) -> None:
        """Reports that the stack has grown to an address below it, and ends the path unless the run itself does so. `kind` is "load" or "store"."""
        extent = self.search.extents.object_at(self, address)
        self.search.report(kind, self, "the stack runs into %s" % (extent.name if extent else "%08x" % address), self.model)
        if not self.is_base:
            raise PathEnded(FINDING_REPORTED)

    # ---- addresses that are expressions

    def place_at(self, address: Node, width: int, tag: Tag, offset: int, kind: str) -> Optional[Extent]:
        """Asks whether an access at an address that is an expression can leave its objects. The path goes on inside one object, which is returned.
        Returns None if the caller has to follow the address value by value. `tag` is the origin of the register with the address, and `offset` is
        the immediate of the instruction."""
        if address.taint & SECRET:
            self.differs("address", address)
        search = self.search
        if self.is_gone(tag):
            search.report(kind, self, FRAME_HAS_RETURNED, self.model)
            return None
        objects, is_sure = self.places(address, tag, offset, width)
        if not objects:
            return self.allowed_place(address, width, kind) if search.doubt_access(kind, self, UNKNOWN_ORIGIN) else None
        candidates = [Candidate(within(address, extent.low, extent.high - width), extent) for extent in objects]
        is_inside = any(candidate.inside is True for candidate in candidates)  # for all inputs
        if not is_inside and self.ask_outside(address, candidates, is_sure, kind) is None:
            return self.allowed_place(address, width, kind) if search.world.allowed.has(self.pc) else None
        if self.is_base and not any(self.holds(candidate.inside) for candidate in candidates):
            return None  # the run itself is outside
        chosen = self.choose_object(candidates)
        if tag is not None and chosen.low != search.world.window[0]:
            self.note_variable(tag, chosen, kind)
            return ask_member(self, address, width, Place(tag, offset, chosen), kind)
        return chosen

    def places(self, address: Node, tag: Tag, offset: int, width: int) -> Tuple[List[Extent], bool]:
        """Returns the objects in which an access at an expression may stay, and whether it is certainly an error if the access leaves them. The
        object of a pointer of the host is the window. There are no objects if the origin of a pointer of the enclave is not known."""
        search = self.search
        world = search.world
        if tag is MIXED:
            return [], True
        if tag is None or tag.how is How.NONE:
            constant = evaluate(address, model={})  # the address if all inputs are 0: a pointer of the enclave plus an offset is in the region then
            is_host_pointer = bool(address.taint & INPUT) and not world.region[0] <= constant < world.region[1]
            return ([Extent(*world.window, name="the window", is_start=True)] if is_host_pointer else []), True
        objects = self.objects_of(tag, offset)
        if tag.how is How.FRAME and len(objects) == 1:
            return objects, True
        is_sure = all(self.is_sure(tag, extent) for extent in objects)
        if len(objects) == 1 and not is_sure:
            only_object = objects[0]
            is_inside = within(address, only_object.low, only_object.high - width)
            answer, _ = search.solver.satisfiable(self.conditions, is_inside, self.model)
            is_sure = answer is True  # an address that is never inside was computed from another object
        return objects, is_sure

    def ask_outside(self, address: Node, candidates: List[Candidate], is_sure: bool, kind: str) -> Optional[bool]:
        """Asks whether an address can be outside all candidates. If so, reports the access if that is certainly an error (`is_sure`). Returns False
        if the address cannot be outside, and None if the caller has to follow it value by value. Otherwise returns True: the caller then assumes
        that the access is inside."""
        search = self.search
        outside = all_of(*(not_(candidate.inside) for candidate in candidates))
        if (kind, self.pc) in search.findings:
            search.assumed_inside[self.pc] += 1
            return True
        answer, model = search.solver.satisfiable(self.conditions, outside, self.model)
        if answer is False:
            return False
        if answer is None:
            search.undecided[kind, self.pc] += 1
        elif not is_sure:
            search.doubt_access(kind, self, MAY_BE_FOLDED)
            return None
        else:
            outside_address = evaluate(address, model)
            target = search.extents.object_at(self, outside_address)
            reached = "%s, %08x" % (target.name, outside_address) if target else "%08x" % outside_address
            names = " or ".join(candidate.extent.name for candidate in candidates)
            search.report(kind, self, "the host can move it from %s to %s" % (names, reached), model)
        search.assumed_inside[self.pc] += 1
        return True

    def allowed_place(self, address: Node, width: int, kind: str) -> Optional[Extent]:
        """Asks whether an access at an expression can leave region and window, for an instruction that --allow names. Returns the object in which the
        access stays. Returns None if it may reach several objects: then the caller follows the address value by value."""
        search = self.search
        world = search.world
        inside = any_of(*(within(address, low, high - width) for low, high in (world.region, world.window)))
        answer, model = search.solver.satisfiable(self.conditions, not_(inside), self.model)
        if answer is None:
            search.undecided[kind, self.pc] += 1
        elif answer:
            search.report(kind, self, "the host can move it out of region and window, to %08x" % evaluate(address, model), model)
            search.assumed_inside[self.pc] += 1
            if self.is_base and not self.holds(inside):
                return None
            self.move_to(inside)
        extent = search.extents.object_at(self, self.value(address))
        if extent is None:
            return None
        outside = not_(within(address, extent.low, extent.high - width))
        return extent if search.solver.satisfiable(self.conditions, outside, self.model)[0] is False else None

    def choose_object(self, candidates: List[Candidate]) -> Extent:
        """Chooses the object in which this path goes on, and returns it. If the access reaches a candidate in the model of the path, it stays there,
        and paths are added for the other candidates. If the access reaches none, it stays in the first candidate."""
        search = self.search
        chosen = next((candidate for candidate in candidates if self.holds(candidate.inside)), None)
        if chosen is None:
            chosen = candidates[0]
            self.move_to(chosen.inside)
            return chosen.extent
        for inside, extent in candidates:
            if extent is chosen.extent:
                continue
            answer, model = search.solver.satisfiable(self.conditions, inside, self.model)
            if answer is None:
                search.undecided["value", self.pc] += 1
            elif answer:
                tried_count = self.values_tried()
                if tried_count >= MAX_FOLLOWED_VALUES:
                    search.words_with_many_values[self.pc] += 1
                elif inside is not True:
                    self.add_path_again(inside, model, tried_count + 1, extent.low)
        self.assume(chosen.inside)
        return chosen.extent
