"""The origin of an address: the symbol, the frame or the pointer in memory from which an enclave computed it.

A register and a word of memory have an origin beside their value. It stays when an offset is added, so that an access can be compared with the object
from which its address was computed. A value without an origin is no pointer, as far as is known."""
from __future__ import annotations

from enum import Enum
from typing import NamedTuple, Optional

from rvlook.symbolic.nodes import M32


class How(Enum):
    """How the base address of an origin was computed."""
    UPPER = "upper"  # by lui or auipc: a later instruction adds the lower bits
    SYMBOL = "symbol"  # as a constant address
    STACK = "stack"  # as sp: a later instruction may add the offset of a variable
    FRAME = "frame"  # as sp plus an offset
    MEMORY = "memory"  # a pointer that the image has in its data
    NONE = "none"  # a word in memory that is no pointer, although its value looks like one
    MIXED = "mixed"  # a word that has another origin on another of the paths that were joined


class Origin(NamedTuple):
    """The origin of a pointer: the address from which the enclave has computed it, and where."""
    how: How
    base: int  # this address: a pointer is the base plus offsets and indices
    call: int = 0  # the number of the call that has computed it
    pc: int = 0  # the instruction that has computed it
    index_constant: int = 0  # a constant in the index that was added to sp, which the compiler may have taken from the offset


NO_ORIGIN = Origin(How.NONE, 0)  # the origin of a word in memory that is no pointer, although its value looks like one
MIXED = Origin(How.MIXED, 0)  # the origin of a word that has another origin on another of the paths that were joined
LOST = Origin(How.NONE, 1)  # the origin of a word that has an origin on some of the paths that were merged, and another or none on others
Tag = Optional[Origin]  # None for a word that is no pointer, as far as is known


def register_tag(tag: Tag) -> Tag:
    """Returns the tag of a register for the tag of a word of memory: None for NO_ORIGIN, which only words of memory have."""
    return None if tag is NO_ORIGIN else tag


def moved_by_constant(tag: Tag, offset: int, pc: int) -> Tag:
    """Returns the origin of a pointer to which the instruction at `pc` adds a constant. If the base was not complete (UPPER or STACK), the constant
    completes it."""
    if tag is None or offset == 0:
        return tag
    if tag.how is How.UPPER:
        return Origin(How.SYMBOL, tag.base + offset & M32, tag.call)
    if tag.how is How.STACK:
        return Origin(How.FRAME, tag.base + offset & M32, tag.call, pc)
    return tag


def added(one: Tag, two: Tag) -> Tag:
    """Returns the origin of the sum of two words: that of the only pointer. Returns None for the sum of two pointers. If the origin of one word is
    LOST, the origin of the other word counts."""
    if one is LOST or two is LOST:
        other = two if one is LOST else one
        return other if other is not None else LOST
    if two is None:
        return one
    return two if one is None else None


def subtracted(one: Tag, two: Tag) -> Tag:
    """Returns the origin of a difference: that of the pointer `one` from which an offset is subtracted. Returns None for the difference of two
    pointers."""
    return one if two is None or two is LOST else None


def masked(one: Tag, two: Tag) -> Tag:
    """Returns the origin of the bitwise and, or the bitwise or, of two words: that of the only pointer, which is aligned or selected in this way."""
    return added(one, two)
