"""The values that distinguish final states of `races`, and conditions on them: bytes, registers and the states of enclaves."""
from __future__ import annotations

import operator
import re
from typing import Any, Iterable, NamedTuple, Sequence, TYPE_CHECKING, Tuple, Union

from rvlook.errors import RvlookError
from rvlook.finders.races.machine import CachedState, Look, RaceMachine, operands
from rvlook.image.variables import Member, variables_of
from rvlook.protocol import names
from rvlook.protocol.commands import no_symbol
from rvlook.protocol.nearest import nearest
from rvlook.protocol.replies import enclave_of
from rvlook.protocol.run import Run
from rvlook.protocol.symbols import Symbols

if TYPE_CHECKING:
    from rvlook.finders.races.final_states import FinalState

OPERATORS = {"==": operator.eq, "!=": operator.ne, "<=": operator.le, ">=": operator.ge, "<": operator.lt, ">": operator.gt}
CONDITION = re.compile(r"\s*([^\s=!<>]+)\s*(==|!=|<=|>=|<|>)\s*([^\s=!<>]+)\s*\Z")
HOW = {"halts": "halts", "waits": "waits", "livelock": "runs on", "unfinished": "unfinished"}  # how a hart ends, by its name in --forbid
ALIASES = {"stays": "halts", "unended": "unfinished"}  # other names that --forbid accepts, and those in HOW
WORD_BYTES = 4  # the size of a symbol without a size


class Bytes(NamedTuple):
    """Bytes in memory."""
    name: str  # as the user wrote it, or the name of a symbol
    at: int  # the address of the first byte
    count: int  # type: ignore[assignment]  # the number of bytes; a tuple has a method of that name


class Register(NamedTuple):
    """A register of a hart."""
    name: str  # as the user wrote it
    hart: int  # the number of the hart
    number: int  # the number of the register, 0 to 31


class Slot(NamedTuple):
    """The state of the enclave in a slot."""
    name: str  # as the user wrote it
    slot: int  # the number of the slot


class EnclaveStates(NamedTuple):
    """The states of all enclaves."""
    name: str = "enclaves"  # the same for all


Observed = Union[Bytes, Register, Slot, EnclaveStates]
Value = Union[bytes, int, str, Tuple[Tuple[int, str], ...]]  # the value of Bytes, Register, Slot, or EnclaveStates (slots and states)


class Watched(NamedTuple):
    """The parts of an outcome that the steps of a hart can change."""
    addresses: frozenset[int] = frozenset()  # the addresses of bytes
    registers: frozenset[tuple[int, int]] = frozenset()  # hart and number of each register

    def may_change(self, hart: int, look: Look) -> bool:
        """Returns whether a step of a hart may change a part of the outcome."""
        if look.kind in ("call", "timer"):
            return True
        if look.kind == "w":
            return not self.addresses.isdisjoint(range(look.address, look.address + look.width))
        word = look.key[2]  # the instruction; None outside RAM
        return word is not None and (hart, operands(word).writes) in self.registers


def watched_of(outcome: Iterable[Observed]) -> Watched:
    """Returns the bytes and registers of an outcome."""
    return Watched(frozenset(at for item in outcome if isinstance(item, Bytes) for at in range(item.at, item.at + item.count)),
                   frozenset((item.hart, item.number) for item in outcome if isinstance(item, Register)))


class Forbidden(NamedTuple):
    """A condition of --forbid: comparisons that hold together, or how a hart ends."""
    text: str  # as the user wrote it
    parts: tuple[tuple[str, str, Union[int, str]], ...]  # name, operator and value of each comparison
    how: str = ""  # one of the values of HOW; empty for comparisons

    def holds(self, end: FinalState, names_of: Sequence[str]) -> bool:
        """Returns whether a final state meets the condition. `names_of` has the names of its values, in their order."""
        if self.how:
            return any(how == self.how for how, _ in end.harts)
        values = dict(zip(names_of, end.values))  # empty if the values are not known
        return bool(values) and all(OPERATORS[compared](number_of(values[name]), value) for name, compared, value in self.parts)


def value_in(observed: Observed, machine: RaceMachine, state: CachedState) -> Value:
    """Returns the value of a part of an outcome: bytes, the value of a register, or the state of a slot's enclave (`none` without an enclave). For
    all enclaves returns the slots and their states."""
    if isinstance(observed, Bytes):
        return bytes(machine.bytes_at(machine.memories[state.memory], observed.at, observed.count) or ())
    if isinstance(observed, Register):
        return machine.harts[state.harts[observed.hart]][2][observed.number]
    states = {enclave.slot: enclave.state for enclave in map(enclave_of, machine.tables[state.table][0])}
    return states.get(observed.slot, "none") if isinstance(observed, Slot) else tuple(sorted(states.items()))


def number_of(value: Value) -> Any:
    """Returns a value as it is compared: bytes are a little-endian number."""
    return int.from_bytes(value, "little") if isinstance(value, bytes) else value


def value_text(value: Value) -> str:
    """Returns a value as text: a small number in decimal, a larger one in hexadecimal digits."""
    if isinstance(value, tuple):
        return " ".join("e%d %s" % item for item in value) or "none"
    if isinstance(value, str):
        return value
    size = len(value) if isinstance(value, bytes) else WORD_BYTES
    if isinstance(value, bytes) and size not in (1, 2, WORD_BYTES):
        return value.hex()
    number = number_of(value)
    return "%d" % number if number < 65536 else "%0*x" % (2 * size, number)


def outcome_of(text: str, symbols: Symbols, harts: int, members: Sequence[Member] = ()) -> Observed:
    """Parses --outcome: PLACE or PLACE:BYTES, VARIABLE.MEMBER, HART.REGISTER, a slot, or `enclaves`. `members` has the variables at fixed
    addresses, down to their members. Raises RvlookError if the text is none of these forms, or if a symbol is unknown."""
    hart, dot, register = text.partition(".")
    if text == "enclaves":
        return EnclaveStates()
    if re.fullmatch(r"e([0-9]|1[0-2])", text) and text not in symbols.by_name:
        return Slot(text, int(text[1:]))
    if dot and hart in map(str, range(harts)) and register in names.NUMBER_OF:
        return Register(text, int(hart), names.NUMBER_OF[register])
    member = next((member for member in members if dot and member.name == text), None)
    if member:
        return Bytes(text, member.at, member.size)
    name, _, count = text.partition(":")
    at, symbol = symbols.address(name), symbols.by_name.get(name)
    if at is None:
        near = nearest(text, [member.name for member in members if member.name.startswith(hart + ".")]) if dot else None
        problem = "no member '%s'; did you mean '%s'?" % (text, near) if near else no_symbol(name, symbols)
        raise RvlookError("invalid --outcome: %s (expected PLACE[:BYTES], VARIABLE.MEMBER, HART.REGISTER, enclaves, or e0 to e12)" % problem)
    if count and not re.fullmatch("[0-9]{1,8}", count):
        raise RvlookError("invalid --outcome: the number of bytes must have 1 to 8 decimal digits, not '%s'" % count)
    return Bytes(text, at, int(count or (symbol and symbol.size) or WORD_BYTES))


def condition_of(text: str, symbols: Symbols) -> Forbidden:
    """Parses --forbid: comparisons joined by `and`, or one of HOW and ALIASES. Raises RvlookError if the text is neither."""
    name = ALIASES.get(text.strip(), text.strip())
    if name in HOW:
        return Forbidden(text, (), HOW[name])
    texts = re.split(r"\band\b", text)
    parts = [match for match in map(CONDITION.match, texts) if match]
    if len(parts) < len(texts):
        raise RvlookError("invalid --forbid '%s' (expected NAME OPERATOR VALUE, joined by 'and', or one of %s)" % (text, ", ".join(HOW)))
    return Forbidden(text, tuple((part[1], part[2], compared_with(part[1], part[3], symbols)) for part in parts))


def compared_with(name: str, value: str, symbols: Symbols) -> int | str:
    """Parses the value of a comparison: a number, a symbol's address, or the state of an enclave. Raises RvlookError for other texts."""
    if re.fullmatch(r"e\d+", name) and name not in symbols.by_name:
        return value
    try:
        return int(value, 0)
    except ValueError:
        at = symbols.address(value) if value in symbols.by_name else None
        if at is None:
            raise RvlookError("invalid value '%s' in --forbid (expected a decimal number, a number after 0x, or a symbol)" % value) from None
        return at


def outcomes_of(texts: Iterable[str] | None, conditions: Sequence[Forbidden], run: Run, path: str | None) -> list[Observed]:
    """Returns what --outcome (`texts`) and --forbid name, to distinguish final states; empty for all shared memory. `path` is that of --symbols."""
    all_names = list(texts or ()) + [name for condition in conditions for name, _, _ in condition.parts]
    members = variables_of(path, run.setup.image).fixed if any("." in name for name in all_names) else ()
    return [outcome_of(name, run.setup.symbols, run.setup.harts, members) for name in dict.fromkeys(all_names)]


def ranges_of(addresses: Iterable[int], symbols: Symbols) -> list[Bytes]:
    """Joins adjacent addresses to ranges. Each range is in one symbol, and has its name."""
    ranges: list[Bytes] = []
    for at in sorted(addresses):
        if ranges and ranges[-1].at + ranges[-1].count == at and symbols.function(at) == symbols.function(ranges[-1].at):
            ranges[-1] = ranges[-1]._replace(count=ranges[-1].count + 1)
        else:
            ranges.append(Bytes(symbols.name(at) or "%08x" % at, at, 1))
    return ranges
