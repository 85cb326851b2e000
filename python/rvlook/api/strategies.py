"""Strategies of hypothesis for what a host gives an enclave, from the C types of a program."""
from __future__ import annotations

from typing import Any, Dict

from hypothesis import strategies

from rvlook.api.program import Program
from rvlook.image.types import Type


def structure(program: Program, name: str, **members: Any) -> strategies.SearchStrategy[Dict[str, Any]]:
    """Draws the members of a structure as a dictionary, which `View.assign` takes. `members` has a strategy or a fixed value for some of them.
    Raises SymbolError for an unknown structure or member."""
    kind = program.structure(name)
    value_strategies = {member: value_of(type_) for member, (_, type_) in kind.members.items()}
    for member, given in members.items():
        kind.member(member)
        value_strategies[member] = given if isinstance(given, strategies.SearchStrategy) else strategies.just(given)
    return strategies.fixed_dictionaries(value_strategies)


def value_of(kind: Type) -> strategies.SearchStrategy[Any]:
    """Draws a value of a type: bytes, a list, a dictionary for a structure, or a number. Numbers are often corner values."""
    if kind.members:
        return strategies.fixed_dictionaries({name: value_of(type_) for name, (_, type_) in kind.members.items()})
    if kind.is_bytes:
        return strategies.binary(min_size=kind.size, max_size=kind.size)
    if kind.element is not None:
        count = kind.size // kind.element.size
        return strategies.lists(value_of(kind.element), min_size=count, max_size=count)
    top = 1 << 8 * kind.size
    low, high = (-top // 2, top // 2 - 1) if kind.is_signed else (0, top - 1)
    return strategies.sampled_from([low, 0, 1, high // 2 + 1, high - 1, high]) | strategies.integers(low, high)
