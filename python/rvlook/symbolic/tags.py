"""The origins of the words of merged states. The origin of a word is lost if it differs between two paths.

A *tag* is an origin, or None for a word that is no pointer. The place of a word is its address, or the name of a register: "x10" for x10, "c105" for
the control and status register 0x105."""
from __future__ import annotations

from typing import Dict, Tuple, TYPE_CHECKING, Union

from rvlook.symbolic.origins import LOST, NO_ORIGIN, Tag

if TYPE_CHECKING:
    from rvlook.symbolic.state import State

Place = Union[int, str]  # the place of a word; in `cells`, of a byte


def tags_of(state: State, zeros: Tuple[int, ...]) -> Dict[Place, Tag]:
    """Returns the origins of registers and words of a state by their places. In these origins, calls are numbered by their depth, since all paths
    that are merged have the same depth. The registers `zeros` are 0 in the merged state, and are left out."""
    depths = {call: depth for depth, call in enumerate(state.call_numbers(), 1)}
    tags: Dict[Place, Tag] = {"x%d" % n: renumbered(tag, depths) for n, tag in enumerate(state.tags) if n not in zeros}
    tags.update({"c%x" % number: renumbered(tag, depths) for number, tag in state.csr_tags.items()})
    tags.update({at: renumbered(tag, depths) for at, tag in state.mem_tags.items()})
    return tags


def renumbered(tag: Tag, numbers: Dict[int, int]) -> Tag:
    """Returns an origin with another number for its call. `numbers` has the new number for each old one. A call that has returned has none, and gets
    the number -1."""
    if tag is None or tag is NO_ORIGIN or not tag.call:
        return tag
    return tag._replace(call=numbers.get(tag.call, -1))


def join_tags(old: Dict[Place, Tag], new: Dict[Place, Tag]) -> bool:
    """Adds the origins of a path (`new`) to those of a merged state (`old`), which are changed. Returns whether they changed."""
    is_changed = False
    for at in [*old, *(at for at in new if at not in old)]:
        if at in old and old[at] is LOST:
            continue
        is_in_one = at not in old or at not in new
        if (is_in_one and type(at) is int) or old.get(at) != new.get(at):
            joined = joined_tag(at, old.get(at), new.get(at))
            if old.get(at) is not joined or at not in old:
                is_changed = True
            old[at] = joined
    return is_changed


def joined_tag(at: Place, one: Tag, two: Tag) -> Tag:
    """Returns the origin in a merged state of a word with the two different origins `one` and `two`: LOST if one of them is a pointer."""
    has_origin = any(tag is not None and tag is not NO_ORIGIN for tag in (one, two))
    if has_origin:
        return LOST
    return NO_ORIGIN if type(at) is int else None


def set_tags(state: State, tags: Dict[Place, Tag]) -> None:
    """Sets the origins of a state to those of a merged state, with the numbers of the calls of the state."""
    numbers = dict(enumerate(state.call_numbers(), 1))
    state.tags = [None] * 32
    state.csr_tags = {}
    state.mem_tags = {}
    for at, tag in tags.items():
        tag_in_state = renumbered(tag, numbers)
        if isinstance(at, int):
            state.mem_tags[at] = tag_in_state
        elif at.startswith("x"):
            state.tags[int(at[1:])] = tag_in_state
        else:
            state.csr_tags[int(at[1:], 16)] = tag_in_state
