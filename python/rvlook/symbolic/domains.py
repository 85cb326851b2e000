"""Decides conditions on one byte alone: tries all 256 values of the byte. The answer is exact, so no solver is needed."""
from __future__ import annotations

from typing import Any, Dict, List, Optional, Sequence, Tuple

from rvlook.symbolic.evaluation import value_of
from rvlook.symbolic.nodes import M32, Node, mask_of, operands

BYTE_VALUES = 256  # the number of values of a byte
MAX_NEW_OPERATIONS = 400  # a condition is not tried if it has more operations whose values are not known yet


class Domains:
    """The values of bytes for which conditions hold. A set of values is a number: bit n is set if the value n is in the set."""

    def __init__(self) -> None:
        self.value_lists: Dict[Node, List[Any]] = {}  # the values of a node, one for each value of its byte
        self.sets: Dict[Node, int] = {}  # the values for which a condition holds

    def set_of(self, condition: Node) -> Optional[int]:
        """Returns the set of the values of its byte for which a condition holds. Returns None if the condition is not about exactly one byte, or is
        too long to be tried."""
        set_of_values = self.sets.get(condition)
        if set_of_values is None:
            mask = mask_of(condition)
            if not mask or mask & mask - 1 or not self.is_short(condition):
                return None
            set_of_values = 0
            for value, holds in enumerate(self.values(condition)):
                if holds:
                    set_of_values |= 1 << value
            self.sets[condition] = set_of_values
        return set_of_values

    def is_short(self, condition: Node) -> bool:
        """Returns whether few operations of a condition have no values yet. An operation counts once, however often its result is used."""
        new = {condition}  # the operations without values
        stack = [condition]
        while stack and len(new) <= MAX_NEW_OPERATIONS:
            more = [operand for operand in operands(stack.pop()) if operand not in self.value_lists and operand not in new]
            new.update(more)
            stack += more
        return len(new) <= MAX_NEW_OPERATIONS

    def values(self, node: Node) -> List[Any]:
        """Returns the values of a node that depends on one byte: a list with the value of the node for each value of the byte."""
        lists = self.value_lists
        stack = [node]  # nodes that need values, after their operands
        while stack:
            top = stack[-1]
            missing = [operand for operand in operands(top) if operand not in lists]
            if top.op == "var":
                lists[top] = list(range(BYTE_VALUES))
            elif missing:
                stack += missing
                continue
            elif top not in lists:
                lists[top] = self.look_up(top) if top.op == "table" else self.compute(top)
            stack.pop()
        return lists[node]

    def compute(self, node: Node) -> List[Any]:
        """Returns the list of values of an operation, for whose operands `value_lists` has the values."""
        rows = [self.value_lists[operand] if type(operand) is Node else [operand] * BYTE_VALUES for operand in node.args]
        return [value_of(node.op, row) for row in zip(*rows)]

    def look_up(self, node: Node) -> List[int]:
        """Returns the list of values of a table node: the byte at its address, 0 outside the table."""
        at, low, table = node.args
        values = []
        for n, place in enumerate(self.value_lists[at] if type(at) is Node else [at] * BYTE_VALUES):
            index = place - low & M32
            content_byte = table.content[index] if index < len(table.content) else 0
            values.append(self.value_lists[content_byte][n] if type(content_byte) is Node else content_byte)
        return values

    def answer(self, conditions: Sequence[Node]) -> Tuple[Optional[bool], Dict[Node, int]]:
        """Returns True if all conditions are about one byte each and can hold. The sets of values are those for which all conditions about a byte
        hold, each with one of these conditions. Returns False if the conditions about some byte contradict each other, and otherwise None."""
        sets: Dict[int, Tuple[Node, int]] = {}  # a condition and the values of a byte, by the mask of its variable
        is_whole = True
        for part in parts_of(conditions):
            allowed = self.set_of(part)
            if allowed is None:
                is_whole = False
                continue
            mask = mask_of(part)
            if mask in sets:
                _, allowed_before = sets[mask]
                allowed &= allowed_before
            if not allowed:
                return False, {}
            sets[mask] = part, allowed
        return (True if is_whole else None), dict(sets.values())


def parts_of(conditions: Sequence[Node]) -> List[Node]:
    """Returns conditions with each conjunction replaced by its terms."""
    parts: List[Node] = []
    for condition in conditions:
        if condition.op == "and1":
            parts += parts_of([operand for operand in condition.args if type(operand) is Node])
        else:
            parts.append(condition)
    return parts


def member_of(values: int, preferred: int) -> int:
    """Returns a value of a set that is not empty: the preferred value if it is in the set, else the least value."""
    if values >> preferred & 1:
        return preferred
    least_bit = values & -values
    return least_bit.bit_length() - 1
