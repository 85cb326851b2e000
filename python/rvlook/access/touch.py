"""The subcommand `touch`: what each world fetched, read and wrote, and what it was permitted to. With --lcov, the lines and functions that it
executed, for genhtml."""
from __future__ import annotations

import re
from bisect import bisect_left, bisect_right
from collections import Counter, defaultdict
from dataclasses import dataclass
from typing import Iterable, Iterator, NamedTuple, Optional, Sequence

from rvlook.access.failures import INTERRUPT_DIGIT
from rvlook.access.map import Event, events
from rvlook.access.ranges import NOTHING, Range
from rvlook.access.returns import Return, returns_of
from rvlook.errors import RvlookError
from rvlook.escapes import visible
from rvlook.image.symbols import files_of
from rvlook.output.printer import Json, Printer, Style, end_object, end_text, hex8, run_object
from rvlook.protocol import names
from rvlook.protocol.instructions import MemoryOperand, instruction_of
from rvlook.protocol.reader import Need, Reader, Reads
from rvlook.protocol.replies import NO_TRAP
from rvlook.protocol.run import End, Run
from rvlook.protocol.stretch import Stretch
from rvlook.protocol.symbols import Symbol, Symbols

KINDS = {"r": "read", "w": "wrote", "x": "executed"}
LEAST_SIZE = 4096  # bytes of the smallest region that the monitor accepts
LOWER_MODE = re.compile(rb"mode=[SU]")  # in the reply to a step after which the hart is in S or U


class Access(NamedTuple):
    """The key of equal accesses, which are counted together."""
    world: str  # the world; on the bare bench it may be a mode
    kind: str  # r, w or x
    address: int  # the address of the first byte
    width: int  # bytes
    done: bool  # false if the accesses were refused


def accesses(run: Run, by_mode: bool = False) -> tuple[Counter[Access], End]:
    """Counts the accesses of a run by kind, address and width; returns the counts and the end of the run. With `by_mode` each mode is a world."""
    counter, end = AccessCounter(by_mode), None
    with Reader(run, base_of) as reader:
        for item in run.stretches():
            if isinstance(item, Stretch):
                counter.add(item, reader.read(item))
            elif isinstance(item, End):
                end = item
    assert end is not None
    return counter.counts(), end


def base_of(line: bytes) -> Need[MemoryOperand] | None:
    """Returns the access of the instruction in a reply of `dis`, and its base register; None if it has no access."""
    instruction = instruction_of(line)
    return (instruction.memory, (instruction.memory.base,), False) if instruction and instruction.memory else None


class AccessCounter:
    """Counts steps by pc, world and trap, and loads and stores by address and width. With `by_mode` each mode is a world."""
    def __init__(self, by_mode: bool) -> None:
        self.by_mode = by_mode  # whether each mode is a world
        self.steps: Counter[tuple[bytes, bytes, bytes]] = Counter()  # the number of steps by pc, world and trap
        self.touched: Counter[tuple[bytes, str, int, int, bool]] = Counter()  # the number of accesses by world, kind, address, width and `done`

    def add(self, stretch: Stretch, reads: Reads[MemoryOperand]) -> None:
        """Counts the accesses of the steps of a stretch. `reads` has the memory operands of its loads and stores, and the values of their bases."""
        columns = stretch.columns
        worlds, traps = columns.modes if self.by_mode else columns.worlds, columns.traps
        self.steps.update(zip(columns.pcs, worlds, traps))
        bases = map(reads.values.__getitem__, reads.starts)
        counts = Counter(zip(map(worlds.__getitem__, reads.indices), reads.items, bases, map(traps.__getitem__, reads.indices)))
        for (world, memory, base, trap), count in counts.items():
            if trap == NO_TRAP or trap[:8].decode() in names.ACCESS_FAULTS:
                self.touched[world, memory.kind, base + memory.offset & 0xFFFFFFFF, memory.width, trap == NO_TRAP] += count

    def counts(self) -> Counter[Access]:
        """Returns how often each access occurred. Each step fetches the word at pc, except if an interrupt replaces the step."""
        counts = Counter({Access(key[0].decode(), *key[1:]): count for key, count in self.touched.items()})
        for (pc, world, trap), count in self.steps.items():
            cause, _, value = trap.decode().partition(":")
            is_refused = cause in names.FETCH_FAULTS and value == pc.decode()
            if not cause.startswith(INTERRUPT_DIGIT):
                counts[Access(world.decode(), "x", int(pc, 16), 4, not is_refused)] += count
        return counts


class AccessKind(NamedTuple):
    """The key of a group of accesses: one world, one kind, all permitted or all refused."""
    world: str  # the world; on the bare bench it may be a mode
    kind: str  # r, w or x
    done: bool  # false if the accesses were refused


@dataclass(frozen=True)
class Touched:
    """Accessed bytes within one symbol."""
    range: Range  # the bytes
    symbol: Optional[str]  # None if there is none
    count: int  # number of accesses


class Permitted(NamedTuple):
    """A range that a world may access, and which part it accessed."""
    what: str  # the meaning of the range
    range: Range
    kinds: str  # the kinds of permitted accesses, such as `rw-`
    touched: dict[str, int]  # number of accessed bytes by kind
    lowest: Optional[int]  # the lowest accessed address; None without an access
    highest: Optional[int]  # the highest accessed address; None without an access

    @property
    def enough(self) -> int:
        """Returns the least valid size of a region, in bytes, that begins with the range and contains all accesses."""
        size = LEAST_SIZE
        while self.lowest is not None and self.highest is not None and self.range.first + size <= self.highest:
            size *= 2
        return size


class Touches:
    """The accesses of a run, counted by first byte and width."""
    def __init__(self, run: Run) -> None:
        self.counts: dict[AccessKind, Counter[tuple[int, int]]] = defaultdict(Counter)  # the number of accesses by address and width
        self.permitted: dict[str, list[tuple[Range, str, set[str]]]] = defaultdict(list)  # range, meaning and kinds, by world
        # each mode of a bare run is a world, if it enters S or U
        has_modes = not run.setup.monitor and any(isinstance(stretch, Stretch) and LOWER_MODE.search(stretch.data) for stretch in run.stretches())
        counts_by_access, self.end = accesses(run, has_modes)  # the accesses and the end of the run
        for key, count in counts_by_access.items():
            self.counts[AccessKind(key.world, key.kind, key.done)][key.address, key.width] += count
        changes = [event for event in events(run) if isinstance(event, Event)]
        for event in changes:
            (self.allow_mode(event, "M") if has_modes else self.allow(event))
        for item in returns_of(run, changes) if has_modes else ():
            if isinstance(item, Return):
                self.allow_mode(item.event, "S")
                self.allow_mode(item.event, "U")

    def allow(self, event: Event) -> None:
        """Adds the access rights that an event gives to each world that runs."""
        for column in (column for column in event.columns if not column.derived):
            for row in event.rows:
                letters = set("".join(row.may[column.name].values()))  # of the rights in all modes
                self.permitted[column.world].append((row.range, row.what, letters - {"-"}))

    def allow_mode(self, event: Event, mode: str) -> None:
        """Adds the access rights of a mode in the state that an event begins."""
        self.permitted[mode] += [(row.range, row.what, set(next(iter(row.may.values()))[mode]) - {"-"}) for row in event.rows]

    def worlds(self) -> list[str]:
        """Returns the worlds that accessed memory, the host first."""
        return sorted({kind.world for kind in self.counts}, key=lambda it: (it != "host", it))

    def ranges(self, kind: AccessKind, symbols: Symbols) -> list[Touched]:
        """Returns the bytes that were accessed, in ranges within one symbol."""
        ranges: list[Touched] = []
        for (address, width), count in sorted(self.counts[kind].items()):
            name = symbols.function(address)
            last = ranges[-1] if ranges else None
            if last and last.symbol == name and address <= last.range.end:
                ranges[-1] = Touched(Range(last.range.first, max(last.range.end, address + width)), name, last.count + count)
            else:
                ranges.append(Touched(Range(address, address + width), name, count))
        return ranges

    def bytes_of(self, world: str, kind: str) -> list[int]:
        """Returns the addresses that a world accessed, in ascending order."""
        return sorted({address + n for address, width in self.counts[AccessKind(world, kind, done=True)] for n in range(width)})

    def permitted_rows(self, world: str) -> Iterator[Permitted]:
        """Yields each range that a world was ever permitted to access, with its accesses there."""
        touched = {kind: self.bytes_of(world, kind) for kind in KINDS}
        for range_, what, kinds in joined(self.permitted[world]):
            by_kind = {kind: within(addresses, range_) for kind, addresses in touched.items()}
            all_addresses = [address for addresses in by_kind.values() for address in addresses]
            counts = {kind: len(addresses) for kind, addresses in by_kind.items()}
            yield Permitted(what, range_, kinds, counts, lowest=min(all_addresses, default=None), highest=max(all_addresses, default=None))

    def executed(self, world: str) -> dict[int, int]:
        """Returns how often a world executed each instruction, by address."""
        return {address: count for (address, _), count in self.counts[AccessKind(world, "x", done=True)].items()}


def joined(rows: Iterable[tuple[Range, str, set[str]]]) -> list[tuple[Range, str, str]]:
    """Splits overlapping ranges into disjoint ones, each with the meanings and kinds of all ranges that cover it. Omits ranges without a kind."""
    ends = sorted({address for range_, _, _ in rows for address in (range_.first, range_.end)})
    joined_rows: list[tuple[Range, str, str]] = []
    for first, end in zip(ends, ends[1:]):
        covering = [(what, kinds) for range_, what, kinds in rows if range_.first <= first < range_.end]
        what = ", ".join(sorted({what for what, _ in covering} - {""}))
        kinds = "".join(kind if any(kind in letters for _, letters in covering) else "-" for kind in KINDS)
        if joined_rows and joined_rows[-1][1:] == (what, kinds) and joined_rows[-1][0].end == first:
            joined_rows[-1] = (Range(joined_rows[-1][0].first, end), what, kinds)
        elif kinds != NOTHING:
            joined_rows.append((Range(first, end), what, kinds))
    return joined_rows


def within(addresses: list[int], range_: Range) -> list[int]:
    """Returns the addresses in a range. The given addresses are ascending."""
    return addresses[bisect_right(addresses, range_.first - 1):bisect_right(addresses, range_.end - 1)]


def covered_functions(touches: Touches, world: str, symbols: Symbols) -> Iterator[tuple[Symbol, int, int]]:
    """Yields each symbol that a world executed at least in part, with its size and the executed bytes."""
    executed = Counter(symbol for symbol in map(symbols.at, touches.executed(world)) if symbol)
    for symbol in sorted(executed, key=lambda it: it.address):
        yield symbol, symbols.size_of(symbol), 4 * executed[symbol]


def covered_lines(touches: Touches, world: str, symbols: Symbols) -> list[tuple[str, int]]:
    """Returns each source line of the functions that a world executed, and how often the most executed instruction of the line was executed."""
    executed = touches.executed(world)
    counts: dict[str, int] = {}
    addresses = sorted(executed)
    for symbol, size, _ in covered_functions(touches, world, symbols):
        first, end = symbol.address, symbol.address + size
        counts.update((source, counts.get(source, 0)) for source in symbols.sources_in(first, end) if source)
        for address in addresses[bisect_left(addresses, first):bisect_left(addresses, end)]:
            source = symbols.source(address)
            if source and (address - first) % 4 == 0:  # an aligned instruction of the function
                counts[source] = max(executed[address], counts.get(source, 0))
    return sorted(counts.items(), key=lambda it: place_of(it[0]))


def place_of(source: str) -> tuple[str, int]:
    """Returns the file and the line number of a source line. The name of the file may contain a colon."""
    name, number = source.rsplit(":", 1)
    return name, int(number)


def by_file(lines: Iterable[tuple[str, int]]) -> dict[str, list[tuple[int, int]]]:
    """Returns for each file the numbers of its lines, each with its count."""
    files = defaultdict(list)
    for source, count in lines:
        name, number = place_of(source)
        files[name].append((number, count))
    return files


def show_touch(run: Run, symbols: Symbols, printer: Printer) -> None:
    """Prints the accesses of each world, and what it was permitted to access."""
    touches = Touches(run)
    if printer.as_json:
        run_object(printer, run, symbols)
    for world in touches.worlds():
        (world_objects if printer.as_json else world_text)(touches, world, symbols, printer)
    (end_object(printer, touches.end) if printer.as_json else end_text(printer, touches.end, symbols))


def all_touched(touches: Touches, world: str, symbols: Symbols) -> list[tuple[AccessKind, Touched]]:
    """Returns all ranges that a world accessed, each with the kind of access."""
    kinds = [AccessKind(world, kind, done) for kind in KINDS for done in (True, False)]
    return [(kind, range_) for kind in kinds for range_ in touches.ranges(kind, symbols)]


def world_objects(touches: Touches, world: str, symbols: Symbols, printer: Printer) -> None:
    """Writes the accesses, permissions and coverage of a world as objects."""
    rows: list[tuple[str, dict[str, Json]]] = [
        ("touched", dict(kind=kind.kind, first=hex8(part.range.first), last=hex8(part.range.end - 1), symbol=part.symbol, count=part.count,
                         done=kind.done)) for kind, part in all_touched(touches, world, symbols)]
    rows += [("permitted", dict(what=row.what, first=hex8(row.range.first), last=hex8(row.range.end - 1), kinds=row.kinds,
                                size=row.range.end - row.range.first, touched=row.touched, lowest=hex8(row.lowest), highest=hex8(row.highest),
                                enough=row.enough)) for row in touches.permitted_rows(world)]
    rows += [("function", dict(name=symbol.name, first=hex8(symbol.address), size=size, executed=executed))
             for symbol, size, executed in covered_functions(touches, world, symbols)]
    rows += [("line", dict(source=source, count=count)) for source, count in covered_lines(touches, world, symbols)]
    for name, members in rows:
        printer.object(name, world=world, **members)


def world_text(touches: Touches, world: str, symbols: Symbols, printer: Printer) -> None:
    """Prints the accesses, permissions and coverage of a world."""
    printer.line(printer.styled(world, Style.heading))
    lines = ["  %-16s %08x-%08x %7d  %s" % (KINDS[kind.kind] + ("" if kind.done else ", refused"), part.range.first, part.range.end - 1, part.count,
                                            part.symbol or "") for kind, part in all_touched(touches, world, symbols)]
    lines += ["  %-16s %s" % ("permitted", permitted_text(row)) for row in touches.permitted_rows(world)]
    lines += ["  %-16s %8d of %6d bytes  %s" % ("covered", executed, size, symbol.name)
              for symbol, size, executed in covered_functions(touches, world, symbols)]
    for name, lines_and_counts in by_file(covered_lines(touches, world, symbols)).items():
        missed = [str(number) for number, count in lines_and_counts if not count]
        lines.append("  %-16s %8d of %6d lines  %s%s" % ("covered", len(lines_and_counts) - len(missed), len(lines_and_counts), name,
                                                         ", not executed: " + " ".join(missed) if missed else ""))
    for line in lines + [""]:
        printer.line(line)


def permitted_text(permitted: Permitted) -> str:
    """Returns a permitted range as a line, with how much of it was used."""
    size = permitted.range.end - permitted.range.first
    counts = ["%s %d" % (kind, permitted.touched[kind]) for kind in permitted.kinds if kind != "-"]
    used = "  ".join(counts) if permitted.lowest is not None else "not accessed"
    text = "%08x-%08x %7s  %s  %s" % (permitted.range.first, permitted.range.end - 1, names.size_text(size), permitted.kinds, used)
    if permitted.what and permitted.lowest is not None and permitted.enough < size:
        return "%s  %s, of which %s would be enough" % (text, permitted.what, names.size_text(permitted.enough))
    return text + ("  " + permitted.what if permitted.what else "")


def show_lcov(run: Run, symbols: Symbols, printer: Printer, paths: Sequence[str]) -> None:
    """Prints an lcov record for each world and each source file; the world is its test name. Raises RvlookError if there are no source lines."""
    if not symbols.has_lines():
        raise RvlookError("no source lines; use an ELF file built with -g")
    touches = Touches(run)
    source_paths: dict[str, str] = {}
    for path in paths:
        source_paths.update((name, visible(file)) for name, file in files_of(path).items())
    for world in touches.worlds():
        functions = functions_by_file(touches, world, symbols)
        for name, lines in by_file(covered_lines(touches, world, symbols)).items():
            write_lcov(printer, world, source_paths.get(name, name), functions.get(name, []), lines)


def functions_by_file(touches: Touches, world: str, symbols: Symbols) -> dict[str, list[tuple[int, str, int]]]:
    """Returns for each file the functions that a world executed: line, name, and the count of the first instruction."""
    executed = touches.executed(world)
    functions: dict[str, list[tuple[int, str, int]]] = {}
    for symbol, _, _ in covered_functions(touches, world, symbols):
        source = symbols.source(symbol.address)
        if source:
            name, line = place_of(source)
            functions.setdefault(name, []).append((line, symbol.name, executed.get(symbol.address, 0)))
    return functions


def write_lcov(printer: Printer, world: str, path: str, functions: Sequence[tuple[int, str, int]], lines: Sequence[tuple[int, int]]) -> None:
    """Prints the record of a source file in the format of lcov."""
    rows = ["TN:" + world, "SF:" + path, *("FN:%d,%s" % (line, name) for line, name, _ in functions),
            *("FNDA:%d,%s" % (count, name) for _, name, count in functions), "FNF:%d" % len(functions),
            "FNH:%d" % sum(count > 0 for _, _, count in functions), *("DA:%d,%d" % line for line in lines), "LF:%d" % len(lines),
            "LH:%d" % sum(count > 0 for _, count in lines), "end_of_record"]
    for row in rows:
        printer.line(row)
