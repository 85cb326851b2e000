"""Reads a file of ranges, which declares who owns which memory of a monitor with its host and enclaves."""
from __future__ import annotations

import re
from operator import eq, ge, lt, ne
from typing import Callable

from rvlook.errors import RvlookError
from rvlook.image.files import read_file
from rvlook.monitors.ownership import ALL, HANDS, HOST, MONITOR, ONCE, SECRET, SHARED, WordCondition, OwnedRange, Ownership, RangesTable
from rvlook.protocol.names import NUMBER_OF
from rvlook.protocol.symbols import Symbols

FORMS = "expected 'OWNER [RIGHTS] FIRST-LAST', 'shared', 'table', 'hands', 'once' or 'secret', as 'rvlook guard --help' says"
WHILE, TABLE, CALLS, REGION, WINDOW = "while", "table", "calls", "region", "window"  # words in a line
RANGE = re.compile(r"([0-9a-fA-F]{1,8})-([0-9a-fA-F]{1,8})\Z")
LETTERS = re.compile(r"[r-][w-][x-]\Z")
CONDITION = re.compile(r"([^=!<>]+)(=|!=|<|>=)([0-9a-fA-F]{1,8})\Z")
COMPARISONS: dict[str, Callable[[int, int], bool]] = {"=": eq, "!=": ne, "<": lt, ">=": ge}
MOST_ELEMENTS = 1024  # the most elements of a table
MALFORMED = (ValueError, KeyError, IndexError)  # the exceptions that the readers of a malformed line raise


def ownership_of(path: str, symbols: Symbols) -> Ownership:
    """Reads a file of ranges. Raises RvlookError if a line is malformed, or if a needed range is missing."""
    ownership = Ownership()
    for number, text in enumerate(read_file(path).decode("latin-1").splitlines(), 1):
        words = text.split("#")[0].split()
        try:
            if words:
                add_line(ownership, words, symbols)
        except MALFORMED:
            raise RvlookError("%s:%d: %s" % (path, number, FORMS)) from None
    owners = {range_.owner for range_ in ownership.ranges} - {SHARED} | {table.name for table in ownership.tables}
    missing = sorted({MONITOR, HOST} - owners, reverse=True) or [  # or names after `once` that are neither an owner nor in a table
        name for name in sorted(ownership.once) if not any(name == owner or re.fullmatch(re.escape(owner) + r"\d+", name) for owner in owners)]
    if missing:
        raise RvlookError("'%s' has no range of %s" % (path, missing[0]))
    return ownership


def add_line(ownership: Ownership, words: list[str], symbols: Symbols) -> None:
    """Adds what a line of these words declares. Raises one of MALFORMED if the line is malformed."""
    end_of_words = words.index(WHILE) if WHILE in words else len(words)
    is_timed, words, conditions = WHILE in words, words[:end_of_words], words[end_of_words + 1:]
    if is_timed != bool(conditions) or not words:
        raise ValueError
    if words[0] == TABLE:
        ownership.tables.append(table_of(words, conditions, symbols))
    elif words[0] in (HANDS, ONCE, SECRET) and (conditions or words[0] == ONCE and len(words) == 1):
        raise ValueError
    elif words[0] == HANDS:
        ownership.hands = {NUMBER_OF[word] for word in words[1:]}
    elif words[0] == ONCE:
        ownership.once.update(words[1:])
    elif words[0] == SECRET:
        ownership.secrets.append(secret_of(words, symbols))
    else:
        ownership.ranges.append(range_of(words, tuple(condition_of(condition, symbols) for condition in conditions)))


def condition_of(text: str, symbols: Symbols | None) -> WordCondition:
    """Reads a condition. Without symbols its place is an offset in the element of a table. Raises ValueError if the text is malformed."""
    match = CONDITION.match(text)
    if not match:
        raise ValueError
    if match[1] == CALLS:
        return WordCondition(at=None, compare=COMPARISONS[match[2]], value=int(match[3]))
    return WordCondition(int(match[1], 16) if symbols is None else address_of(match[1], symbols), COMPARISONS[match[2]], int(match[3], 16))


def address_of(text: str, symbols: Symbols) -> int:
    """Returns the address of a PLACE: a symbol, SYMBOL+OFFSET, or hexadecimal digits. Raises ValueError if there is no such symbol."""
    address = symbols.address(text)
    if address is None:
        raise ValueError
    return address


def range_of(words: list[str], when: tuple[WordCondition, ...]) -> OwnedRange:
    """Returns the range of a line. Raises ValueError if the line is malformed."""
    match = RANGE.match(words[-1])
    owner, *sharers = words[:-1] or [""]
    may = sharers.pop() if sharers and LETTERS.match(sharers[-1]) else ALL
    if not match or not owner or bool(sharers) != (owner == SHARED) or int(match[1], 16) > int(match[2], 16):
        raise ValueError
    return OwnedRange(int(match[1], 16), int(match[2], 16) + 1, owner, may, tuple(sharers), is_timed=bool(when), when=when)


def secret_of(words: list[str], symbols: Symbols) -> OwnedRange:
    """Returns the bytes of the monitor that a line names. Raises ValueError if the line is malformed."""
    _, place, size = words
    first = address_of(place, symbols)
    if int(size, 16) <= 0:
        raise ValueError
    return OwnedRange(first, first + int(size, 16), MONITOR)


def table_of(words: list[str], conditions: list[str], symbols: Symbols) -> RangesTable:
    """Returns the table of a line. Raises ValueError or IndexError."""
    _, name, count, place, stride, region, base, size, *window = words
    if region != REGION or window and (len(window) != 3 or window[0] != WINDOW) or not 0 < int(count) <= MOST_ELEMENTS:
        raise ValueError
    return RangesTable(name, int(count), address_of(place, symbols), int(stride, 16), (int(base, 16), int(size, 16)),
                       (int(window[1], 16), int(window[2], 16)) if window else None, tuple(condition_of(condition, None) for condition in conditions))
