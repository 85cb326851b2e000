"""Members of structures: an access that moves within a variable stays in the array in which it begins. Without types this question is not decided.

A *member* is a part of a variable as DWARF describes it: a number, a pointer, or an array of these. The name of a member of an array of structures
contains `[]`."""
from __future__ import annotations

from typing import Dict, List, NamedTuple, Optional, Tuple, TYPE_CHECKING

from rvlook.symbolic.conditions import ult, within
from rvlook.symbolic.nodes import M32, Node, Word
from rvlook.symbolic.origins import How, Origin
from rvlook.symbolic.words import may_of, not_, operation

if TYPE_CHECKING:
    from rvlook.image.variables import Member
    from rvlook.symbolic.accesses import AccessState
    from rvlook.symbolic.extents import Extent

# Reasons why an access is not decided.
INDEX_INTO_ROWS = "an index into an array of arrays"
UNION_MEMBER = "a member of a union"
MOVED_FROM_MEMBER = "a member that is moved from by numbers"
Terms = Dict[Node, int]  # a sum without its constant: nodes, each with the number by which it is multiplied


class Place(NamedTuple):
    """The place of an access in a variable."""
    tag: Origin  # the origin of the address
    offset: int  # the offset of the instruction
    whole: Extent  # the variable in which the access stays

    @property
    def base(self) -> int:
        """Returns the address of the access without an index: the base of its origin plus the offset of the instruction."""
        return self.tag.base + self.offset & M32


def terms_of(word: Word) -> Tuple[Terms, int]:
    """Returns a word as a sum of terms and a constant, modulo 2 ** 32."""
    factors: Terms = {}
    constant = 0
    stack: List[Tuple[Word, int]] = [(word, 1)]  # words that are to be added, each with a factor
    while stack:
        term, factor = stack.pop()
        if type(term) is int:
            constant += term * factor
        elif term.op == "add" or (term.op == "or" and not may_of(term.args[0]) & may_of(term.args[1])):
            stack += [(term.args[0], factor), (term.args[1], factor)]
        elif term.op == "sub":
            stack += [(term.args[0], factor), (term.args[1], -factor)]
        elif term.op == "sll" and type(term.args[1]) is int:
            stack.append((term.args[0], factor << term.args[1]))
        elif term.op == "mul" and type(term.args[1]) is int:
            stack.append((term.args[0], factor * term.args[1]))
        else:
            factors[term] = factors.get(term, 0) + factor
    return {node: factor & M32 for node, factor in factors.items() if factor & M32}, constant & M32


def stride_of(state: AccessState, member: Member) -> int:
    """Returns the size in bytes of the elements of the array of structures to which a member belongs: the distance between two members of its name.
    Returns 0 if there is no such array."""
    if "[]" not in member.name:
        return 0
    members = state.search.extents.static_members
    starts = sorted(other.at for other in members if other.name == member.name)
    return min((following - start for start, following in zip(starts, starts[1:])), default=0)


def member_of(state: AccessState, place: Place) -> Optional[Member]:
    """Returns the member in which the base address of an access is. Returns None for a local variable, and for an image without types."""
    search = state.search
    if place.tag.how not in (How.SYMBOL, How.UPPER, How.MEMORY):
        return None
    return search.extents.member_at(place.base) if search.world.region[0] <= place.base < search.world.objects.stack else None


def is_shifted(state: AccessState, address: Word, width: int, place: Place, kind: str) -> bool:
    """Returns whether the offset of the instruction leads out of the variable of an access, as in `-4(v + 4 * i)` for `v[i - 1]`. The offset then
    belongs to the index, and the caller knows that the access stays in the variable. If the variable is not one array, the access must also stay in
    a member that the run itself reaches by the instruction. Else the access is not decided. `kind` is "load" or "store"."""
    search = state.search
    start = place.tag.base
    whole = place.whole
    if place.tag.how not in (How.SYMBOL, How.MEMORY) or not whole.has(start, 1) or whole.has(place.base, 1):
        return False
    member = search.extents.member_at(start) if search.world.region[0] <= start < search.world.objects.stack else None
    if member is not None and not is_one_array(member, whole) and not stays_usual(state, address, width):
        search.doubt_access(kind, state, UNION_MEMBER if member.is_union else MOVED_FROM_MEMBER)
    return True


def stays_usual(state: AccessState, address: Word, width: int) -> bool:
    """Returns whether an access stays in one member for all inputs, and the run itself reaches this member by the same instruction."""
    search = state.search
    member = search.extents.member_at(state.value(address))
    if member is None or member.is_union:
        return False
    usual_member = state.context, state.pc, member.at
    is_inside = within(address, member.at, member.at + member.size - width)
    if state.is_base:
        search.usual_members.add(usual_member)
    if usual_member not in search.usual_members or is_inside is False:
        return False
    if is_inside is True:
        return True
    can_leave, _ = search.solver.satisfiable(state.conditions, not_(is_inside), state.model)
    return can_leave is False


def is_one_array(member: Member, whole: Extent) -> bool:
    """Returns whether a member is a whole variable, and this variable is an array of numbers."""
    is_whole = (member.at, member.size) == (whole.low, whole.high - whole.low)
    is_array = member.element > 0 and not member.row and not member.is_union
    return is_whole and is_array and "[]" not in member.name


def member_leaves(state: AccessState, at: int, width: int, place: Place, kind: str) -> None:
    """Checks an access at the address `at`, a number, inside its variable. If the access has moved out of the member in which its base address is,
    it is not decided. The reason is that the pointer may be one to the whole structure, and not to its first member. If the run itself leaves the
    member at this instruction, other paths may leave it too."""
    search = state.search
    if is_shifted(state, at, width, place, kind):
        start = search.extents.member_at(place.tag.base)
        if start is not None and not is_one_array(start, place.whole):
            del state.last_objects[state.pc]
        return
    member = member_of(state, place)
    if member is None:
        return
    del state.last_objects[state.pc]
    stride = stride_of(state, member)
    distance = at - member.at
    if stride:
        distance %= stride
    is_inside = 0 <= distance and distance + width <= reach_of(state, member) and not member.is_union
    if at == place.base or is_inside:
        if not member.is_union:  # the next access of the instruction needs no check if it stays in the member
            state.last_objects[state.pc] = place.tag, member.at, member.at + member.size
    elif state.is_base:
        search.usual_moves.add((state.context, state.pc))
    elif (state.context, state.pc) not in search.usual_moves:
        search.doubt_access(kind, state, UNION_MEMBER if member.is_union else MOVED_FROM_MEMBER)


def reach_of(state: AccessState, member: Member) -> int:
    """Returns the size in bytes of the largest object that begins with a member. A pointer to a number may be one to the variable, the structure or
    the element that begins with this number."""
    sizes = state.search.extents.reaches
    if member not in sizes:
        sizes[member] = member.size if member.element or member.is_union else size_begun(state, member)
    return sizes[member]


def size_begun(state: AccessState, member: Member) -> int:
    """Returns the size of the largest structure or element of an array that begins with a member, or the size of the member itself. `member` is a
    number or a pointer."""
    variable = state.search.extents.variable_at(member.at)
    members = [other for other in state.search.extents.static_members if variable.low <= other.at < variable.high]  # of the same variable
    names = member.name.split(".")
    for n in range(1, len(names)):  # the structures around the member, the outermost first
        prefix = ".".join(names[:n])
        group = [other for other in members if other.name.startswith(prefix + ".")]  # the members of the structure, or of all elements
        stride = stride_of(state, member) if prefix.endswith("[]") else 0
        distance = member.at - group[0].at
        if stride:
            distance %= stride
        if distance:
            continue  # the structure does not begin with the member
        if stride:
            return stride
        end = max(other.at + other.size for other in group)
        next_start = min((other.at for other in members if other.at >= end), default=variable.high)
        return next_start - member.at
    return member.size


def ask_member(state: AccessState, address: Node, width: int, place: Place, kind: str) -> Extent:
    """Asks whether an access at an expression can leave the member, or the row of an array of arrays, in which its base address is. The caller knows
    that the access stays in its variable. Returns the array in which the access certainly stays, else the variable."""
    search = state.search
    member = None if is_shifted(state, address, width, place, kind) else member_of(state, place)
    if member is None or (kind, state.pc) in search.findings or (state.context, state.pc) in search.usual_moves:
        return place.whole
    if member.is_union:
        search.doubt_access(kind, state, UNION_MEMBER)
        return place.whole
    variable = search.extents.variable_at(member.at)
    is_variable = member.at == variable.low and reach_of(state, member) == variable.high - variable.low
    if is_variable and not member.row:
        return place.whole  # the variable is the array, or begins with the number
    terms, constant = terms_of(operation("sub", address, member.at))
    if member.row and not any(factor % member.row == 0 for factor in terms.values()):
        ask_flat(state, address, width, member, kind)
    is_inside = False
    for size, stride in sizes_of(state, member, terms):
        start = constant % stride if stride else constant
        if can_wrap(state, terms, stride, variable):
            first = (member.at - variable.low) % stride
            offset = operation("remu", operation("sub", address, variable.low), stride)  # the offset in the element of the array around the member
            inside = within(offset, first, first + size - width)
        else:
            allowed_bytes = size if member.element else reach_of(state, member)
            inside = within(without_multiples(terms, start, stride), 0, allowed_bytes - width)
        answer, model = search.solver.satisfiable(state.conditions, not_(inside), state.model)
        if answer is None:
            search.undecided[kind, state.pc] += 1
        elif answer:
            if start >= size if member.element else not stride:  # the constant may be a part of the address of another member
                search.doubt_access(kind, state, MOVED_FROM_MEMBER)
            else:
                search.report(kind, state, "the host can move it out of %s" % member.name, model)
                search.assumed_inside[state.pc] += 1
            return place.whole
        elif member.element > 0 and not stride:
            is_inside = True
    return place.whole._replace(low=member.at, high=member.at + member.size, name=member.name) if is_inside else place.whole


def without_multiples(terms: Terms, constant: int, stride: int) -> Word:
    """Returns a sum of terms and a constant without the terms that are multiples of a stride. With stride 0, this is the whole sum."""
    total: Word = constant
    for node, factor in terms.items():
        if not stride or factor % stride:
            total = operation("add", total, operation("mul", node, factor))
    return total


def can_wrap(state: AccessState, terms: Terms, stride: int, variable: Extent) -> bool:
    """Returns whether a term that is a multiple of a stride may be larger than a variable. Such a term may wrap around at 2 ** 32, and is then no
    multiple any more. Multiples of a power of two, and of the stride 0, always stay multiples."""
    is_power_of_two = not stride & stride - 1
    if is_power_of_two:
        return False
    size = variable.high - variable.low
    limits = [(node, size // factor) for node, factor in terms.items() if factor % stride == 0]
    return any(state.search.solver.satisfiable(state.conditions, ult(limit, node), state.model)[0] is not False for node, limit in limits)


def ask_flat(state: AccessState, address: Node, width: int, member: Member, kind: str) -> None:
    """Asks about an access at an expression to an array of arrays, if no term of the expression is a multiple of the size of a row. The access is
    decided only if it always stays in the first row."""
    inside = within(address, member.at, member.at + member.row - width)
    answer, _ = state.search.solver.satisfiable(state.conditions, not_(inside), state.model)
    if answer is not False:
        state.search.doubt_access(kind, state, INDEX_INTO_ROWS)


def sizes_of(state: AccessState, member: Member, terms: Terms) -> List[Tuple[int, int]]:
    """Returns the sizes in bytes of the arrays in which an access must stay, each with the stride of the array around it. The stride is 0 if there is
    none. `terms` are those of the address."""
    sizes = []
    if member.element != member.size or "[]" in member.name:
        sizes.append((member.size, stride_of(state, member)))
    if member.row and any(factor % member.row == 0 for factor in terms.values()):
        sizes.append((member.row, member.row))
    return sizes
