"""Conditions with bytes of tables and choices taken as any bytes. If they cannot hold then, they cannot hold at all."""
from __future__ import annotations

from typing import Any, Callable, Dict, List, Optional, Sequence, Tuple

from rvlook.symbolic.nodes import Node, operands
from rvlook.symbolic.translate import Translator

FEW_BYTES = 8  # a table is large if more than this number of its bytes are expressions


def is_lookup_or_choice(node: Node) -> bool:
    """Returns whether a node is a byte of a table or a choice of bytes."""
    return node.op in ("table", "ite8")


def is_large_lookup(node: Node) -> bool:
    """Returns whether a node is a byte of a large table: one with more than FEW_BYTES expressions."""
    return node.op == "table" and sum(type(byte) is Node for byte in node.args[2].content) > FEW_BYTES


def is_none(_: Node) -> bool:
    """Returns False: no node is taken as a variable."""
    return False


class Opaque(Translator):
    """Makes expressions of z3 in which some nodes are taken as variables."""

    def __init__(self, is_opaque: Callable[[Node], bool] = is_lookup_or_choice) -> None:
        super().__init__()
        self.is_opaque = is_opaque  # returns whether a node is taken as a variable
        self.masks: Dict[Node, int] = {}  # the masks of nodes that were computed
        self.bits: Dict[Node, int] = {}  # the numbers of the bits in these masks: of nodes that are taken as variables, and of variables

    @staticmethod
    def name_of(node: Node) -> str:
        """Returns the name of the variable in place of a node."""
        return "o%d" % node.number

    def predefined(self, node: Node) -> Optional[Any]:
        """Returns the variable of a node that is taken as any byte, or None."""
        return self.z3.variable(self.name_of(node)) if self.is_opaque(node) else None

    def mask_of(self, node: Node) -> int:
        """Returns the mask of the variables of a node, and of the nodes in it that are taken as variables."""
        masks = self.masks
        stack = [node]
        while stack:
            top = stack[-1]
            if top in masks:
                stack.pop()
                continue
            inner = [] if self.is_opaque(top) else operands(top)
            missing = [operand for operand in inner if operand not in masks]
            if missing:
                stack += missing
                continue
            mask = 0 if inner else 1 << self.bits.setdefault(top, len(self.bits))
            for operand in inner:
                mask |= masks[operand]
            masks[top] = mask
        return masks[node]

    def relevant(self, conditions: Sequence[Node], question: Node) -> Optional[List[Node]]:
        """Returns the conditions that share variables with a question, and the question; None if there is nothing to leave out."""
        relevant, mask = self.relevant_conditions(conditions, self.mask_of(question))
        return [*relevant, question] if self.within(mask) or len(relevant) < len(conditions) else None

    def relevant_conditions(self, conditions: Sequence[Node], mask: int) -> Tuple[List[Node], int]:
        """Returns the conditions that share variables with a mask, directly or through other conditions, and the mask of all their variables."""
        left = list(conditions)
        relevant: List[Node] = []
        while True:
            more = [condition for condition in left if self.mask_of(condition) & mask]
            if not more:
                return relevant, mask
            relevant += more
            left = [condition for condition in left if not self.mask_of(condition) & mask]
            for condition in more:
                mask |= self.mask_of(condition)

    def within(self, mask: int) -> List[Node]:
        """Returns the nodes of a mask that are taken as variables."""
        return [node for node, bit in self.bits.items() if mask >> bit & 1 and self.is_opaque(node)]
