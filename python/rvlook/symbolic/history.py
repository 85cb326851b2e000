"""The steps, loads, stores and answers of a path. If paths were joined, the values of the inputs decide which of them was executed."""
from __future__ import annotations

from dataclasses import dataclass, field
from typing import Any, Dict, List, Mapping, NamedTuple, Optional, TYPE_CHECKING

from rvlook.symbolic.evaluation import evaluate

if TYPE_CHECKING:
    from rvlook.symbolic.fields import AnyState, Answer, Load, Store
    from rvlook.symbolic.nodes import Node

# Kinds of events of a path.
ANSWERED = 0  # the enclave leaves with an answer
LOADED = 1  # the enclave loads inputs
STORED = 2  # the enclave stores to the window


class Part(NamedTuple):
    """The actions of a path after its last join. The numbers of steps, loads and stores count from there."""
    join: Optional[Join]  # the actions before; None if paths were never joined
    pcs: List[int]
    loads: List[Load]
    stores: List[Store]
    answers: List[Answer]


class Join(NamedTuple):
    """The actions of two paths before they were joined."""
    condition: Node  # holds if the first path was executed
    one: Part  # the actions of the first path
    two: Part  # the actions of the second path


@dataclass
class History:
    """The actions of a path for certain values of its inputs. The numbers of steps, loads and stores count from the beginning."""
    pcs: List[int] = field(default_factory=list)
    loads: List[Load] = field(default_factory=list)
    stores: List[Store] = field(default_factory=list)
    answers: List[Answer] = field(default_factory=list)


class Event(NamedTuple):
    """An action of a path that shows or changes bytes of the window."""
    step: int
    kind: int  # ANSWERED, LOADED or STORED
    values: Mapping[int, int]  # the bytes that are loaded or stored, by address


def part_of(state: AnyState) -> Part:
    """Returns the actions of a path after its last join."""
    return Part(state.join, state.all_pcs(), state.loads, state.stores, state.answers)


def history_of(state: AnyState, model: Mapping[str, int]) -> History:
    """Returns the actions of a path for the values of a model."""
    memo: Dict[Node, Any] = {}
    parts: List[Part] = [part_of(state)]  # the last part first
    while True:
        join = parts[-1].join
        if join is None:
            break
        parts.append(join.one if evaluate(join.condition, model, memo) else join.two)
    history = History()
    for part in reversed(parts):
        steps = len(history.pcs)
        loads = len(history.loads)
        stores = len(history.stores)
        history.pcs += part.pcs
        history.loads += [load._replace(step=load.step + steps) for load in part.loads]
        history.stores += [store._replace(step=store.step + steps) for store in part.stores]
        history.answers += [leaf._replace(step=leaf.step + steps, loads=leaf.loads + loads, stores=leaf.stores + stores) for leaf in part.answers]
    return history


def events_of(history: History, model: Mapping[str, int]) -> List[Event]:
    """Returns the answers, loads and stores of a path in the order of its steps."""
    memo: Dict[Node, Any] = {}
    events = [Event(answer.step, ANSWERED, {}) for answer in history.answers]
    for load in history.loads:
        first = evaluate(load.at, model, memo)
        events.append(Event(load.step, LOADED, {first + n: model[name] for n, name in load.names}))
    for store in history.stores:
        first = evaluate(store.at, model, memo)
        value = evaluate(store.value, model, memo)
        events.append(Event(store.step, STORED, {first + n: value >> 8 * n & 255 for n in range(store.width)}))
    return sorted(events, key=lambda event: event.step)


def is_calm(history: History, model: Mapping[str, int]) -> bool:
    """Returns whether the host changes no byte of the window during an activation: each load of a byte gives what the activation has loaded or stored
    there last."""
    window: Dict[int, int] = {}  # the bytes of the window that the present activation has loaded or stored
    for event in events_of(history, model):
        if event.kind == ANSWERED:
            window = {}
            continue
        if event.kind == LOADED and any(window.get(at, value) != value for at, value in event.values.items()):
            return False
        window.update(event.values)
    return True
