"""Packs a run for the page: repeated values are numbers in a table, and numbers are columns of bytes. The result is the length of a JSON object in
four bytes, little-endian, then the object, then the columns, whose offsets the object names. It is compressed by zlib, in base 64."""
from __future__ import annotations

import base64
import json
import os
import re
import struct
import sys
import zlib
from array import array
from operator import itemgetter
from typing import Any, Dict, Hashable, Mapping

from rvlook.output.printer import Json
from rvlook.protocol import names
from rvlook.protocol.run import Run
from rvlook.protocol.symbols import Symbols
from rvlook.trace.text import ObjectTrace
from rvlook.trace.tracer import Touch, TracedStep

GRANULE = 16  # bytes; accessed memory is noted in units of this size, which bounds the memory for the notes
KINDS = {"r": 0, "w": 1}  # the numbers of load and store
ARRAY_TYPES = "BHI"  # type codes of arrays of unsigned numbers, in ascending order of their width
COMMON = ("stdin", "image", "program.elf")  # names that do not identify a run
MAP = ("enclaves", "columns", "rows")  # the members of an event that equal maps share
REFUSED, NO_VALUE = 2, 4  # added to the kind of an access that trapped, and to that of an access without a value
LEVEL = 4  # the level of zlib; level 6 takes twice the time, for 2 % fewer bytes
BRANCH = re.compile(r"b|jal ")  # the text of an instruction whose last operand is an offset from pc
TOUCH = ("step", "address", "width", "kind", "name", "value")  # the columns for loads and stores; `name` is a number in the list of names
SITE = ("word", "abi", "symbol", "function", "source", "caller")  # the fields of a site, after its pc


class NumberedValues(Dict[Any, int]):
    """The number of each value, in the order in which they came. A value gets its number when it is first looked up."""

    def __missing__(self, value: Hashable) -> int:
        self[value] = number = len(self)
        return number

    def rows(self, *names: str) -> list[dict[str, Any]]:
        """Returns the values as objects with these members."""
        return [dict(zip(names, value)) for value in self]


class NumberColumns:
    """Arrays of numbers as bytes, each aligned to four bytes."""

    def __init__(self) -> None:
        self.bytes = bytearray()  # the bytes of all arrays so far

    def add(self, numbers: array[int]) -> dict[str, int]:
        """Appends an array, in little-endian numbers of the least width that is enough; returns its location."""
        largest = max(numbers, default=0)
        narrow = array(next(code for code in ARRAY_TYPES if largest < 256 ** array(code).itemsize), numbers)
        if sys.byteorder == "big":
            narrow.byteswap()
        location = {"width": narrow.itemsize, "at": len(self.bytes), "count": len(narrow)}
        self.bytes += narrow.tobytes() + bytes(-len(narrow) * narrow.itemsize % 4)
        return location


def compressed(data: Mapping[str, Any], columns: NumberColumns) -> str:
    """Returns the data of a page and its columns as text: compressed by zlib, in base 64."""
    header = json.dumps(data, separators=(",", ":")).encode("utf-8")
    header += b" " * (-len(header) % 4)
    return base64.b64encode(zlib.compress(struct.pack("<I", len(header)) + header + bytes(columns.bytes), LEVEL)).decode("ascii")


def refusal(step: TracedStep) -> str | None:
    """Returns the status with which the monitor refused a call, or None. It is in a0 if no other world continues."""
    assert step.call
    status = int(step.changed[10], 16) if 10 in step.changed else next(iter(step.call.arguments.values()))  # else a0 is unchanged
    return names.STATUSES.get(status) if step.next.world == step.at.world else None


class Collector:
    """Collects what the page shows of a run: its steps, and the other objects that a printer would print."""

    def __init__(self, run: Run, symbols: Symbols) -> None:
        self.objects, self.symbols = ObjectTrace(run, symbols, self), symbols  # makes the objects of steps, and calls `object` of this collector
        self.path = ""  # the path of the image
        self.run: dict[str, Any] = {}  # the object `run`
        self.sites = NumberedValues()  # a pc with the values of SITE, and the text that is shown
        self.places = NumberedValues()  # a hart, a world and a mode
        self.traps = NumberedValues()  # the cause, the value and the name of a trap
        self.names = NumberedValues()  # the names of accessed addresses
        self.kinds: dict[tuple[object, ...], tuple[int, int, int]] = {}  # the numbers of site, place and trap of equal steps
        self.name_numbers: dict[tuple[int, int], int] = {}  # the numbers that `names` gives, by address and width of an access
        self.site, self.place, self.trap = array("I"), array("B"), array("I")  # the numbers for each step; a trap counts from 1, 0 is none
        self.changes = array("B")  # how many registers each step changed
        self.registers, self.values = array("B"), array("I")  # the changed ones of all steps, and their new values
        self.touches: list[tuple[int, ...]] = []  # the columns of TOUCH for each load or store
        self.calls: list[dict[str, Any]] = []  # objects `call`, in the order of steps
        self.events: list[dict[str, Any]] = []  # changes of access rights, in the order of steps
        self.others: dict[str, list[dict[str, Any]]] = {"end": [], "command": [], "console": []}  # objects of other kinds
        self.granules: set[int] = set()  # the granules of memory that the run accesses, by address / GRANULE
        self.labels: dict[str, int] = {}  # the lowest accessed address in each symbol
        self.maps = NumberedValues()  # the members MAP of events, as JSON
        self.boundaries: set[str] = set()  # the first addresses of the ranges of all maps
        self.drawn_points = self.rows = 0  # how many instructions and accesses the chart has as points, and how many rows all maps have

    @property
    def title(self) -> str:
        """Returns the name of the image, or of its folder if the image has a common name."""
        path = os.path.abspath(self.path)
        name = os.path.basename(path)
        if name in COMMON:
            return os.path.basename(os.path.dirname(path))
        return os.path.splitext(name)[0] if name.endswith(".elf") else name

    def object(self, __kind: str, **members: Json) -> None:
        """Adds an object of a kind. A page may be sent to others, so it has the name of the image and no path."""
        record: dict[str, Any] = members
        if __kind == "event":
            self.add_event(record)
        elif __kind == "run":
            self.path, self.run = record["image"], {**record, "image": os.path.basename(record["image"])}
        else:
            self.others[__kind].append(record)

    def add_event(self, record: dict[str, Any]) -> None:
        """Adds an event. Equal maps are stored once."""
        self.rows += len(record["rows"])
        self.boundaries.update(row["first"] for row in record["rows"])
        map_text = json.dumps({name: record[name] for name in MAP})
        other_members = {name: value for name, value in record.items() if name not in MAP}
        self.events.append({**other_members, "map": self.maps[map_text]})

    def step(self, step: TracedStep) -> None:
        """Adds a step: its numbers in the tables, its changed registers, its call of the monitor and its access."""
        trap, changed = step.trap, step.changed
        kind = step.hart, step.at, step.instruction, trap
        numbers = self.kinds.get(kind)
        if numbers is None:
            trap_number = self.traps[trap.cause, trap.value, names.cause_name(trap.cause)] + 1 if trap else 0
            numbers = self.kinds[kind] = self.site_of(step), self.places[step.hart, step.at.world, step.at.mode], trap_number
        site, place, trap_number = numbers
        self.site.append(site)
        self.place.append(place)
        self.trap.append(trap_number)
        self.changes.append(len(changed))
        for register, value in changed.items():
            self.registers.append(register)
            self.values.append(int(value, 16))
        if step.call:
            call = self.objects.call(step.call) or {}
            self.calls.append({"step": step.number, **call, "to": step.next.world, "refused": refusal(step)})
        if not (trap and step.is_interrupt):
            self.drawn_points += 1
        if step.touch:
            self.add_access(step.number, step.touch)

    def site_of(self, step: TracedStep) -> int:
        """Returns the number of the site of a step: its pc and instruction. A site is drawn, unless an interrupt came in its place."""
        site, target = self.objects.site(step), step.target
        text = site["abi"]
        if text and target is not None and BRANCH.match(text):
            symbol = self.symbols.name(target)
            text = "%s%08x%s" % (text[:text.rindex(" ") + 1], target, " <%s>" % symbol if symbol else "")
        if not step.is_interrupt:
            self.note_accessed(int(step.at.pc, 16), 4, site["symbol"])
        return self.sites[(step.at.pc, *(site[name] for name in SITE), text)]

    def add_access(self, step: int, touch: Touch) -> None:
        """Adds the load or store of a step."""
        self.drawn_points += 1
        accessed = touch.address, touch.width
        if accessed not in self.name_numbers:
            name = self.symbols.name(touch.address)
            self.name_numbers[accessed] = self.names[name]  # a new name gets the next number
            self.note_accessed(*accessed, name)
        kind = KINDS[touch.kind] + (0 if touch.done else REFUSED) + (NO_VALUE if touch.value is None else 0)
        self.touches.append((step, *accessed, kind, self.name_numbers[accessed], int(touch.value or "0", 16)))

    def note_accessed(self, address: int, width: int, symbol: str | None) -> None:
        """Notes accessed bytes and their symbol, for the memory and the labels that the page shows."""
        self.granules.update((address // GRANULE, (address + width - 1) // GRANULE))
        name = symbol and symbol.split("+")[0]
        if name and address < self.labels.get(name, 1 << 32):
            self.labels[name] = address

    def executed(self) -> list[int]:
        """Returns the addresses of the steps, in ascending order."""
        return sorted({int(site[0], 16) for site in self.sites})

    def source_names(self) -> set[str]:
        """Returns the names of the files with executed lines."""
        sources = [source for site in self.sites for source in site[5:7] if source]
        return {source.rsplit(":", 1)[0] for source in sources}

    def data(self, columns: NumberColumns) -> dict[str, Any]:
        """Returns all data of the page as one object. Appends the arrays of numbers to `columns`; the object has their locations."""
        return {"title": self.title, "run": self.run, "end": self.others["end"][-1], "steps": len(self.site), "points": self.drawn_points,
                "rows": self.rows, "maps": [json.loads(text) for text in self.maps], "sites": self.sites.rows("pc", *SITE, "shown"),
                "places": self.places.rows("hart", "world", "mode"), "traps": self.traps.rows("cause", "value", "name"),
                "names": list(self.names), "site": columns.add(self.site), "place": columns.add(self.place),
                "trap": columns.add(self.trap), "changes": columns.add(self.changes), "registers": columns.add(self.registers),
                "values": columns.add(self.values),
                "touch": {name: columns.add(array("I", map(itemgetter(n), self.touches))) for n, name in enumerate(TOUCH)},
                "calls": self.calls, "commands": self.others["command"], "consoles": self.others["console"], "events": self.events}
