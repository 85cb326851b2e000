"""Reads symbols, source lines and the paths of source files from an ELF file with pyelftools, or symbols from the output of nm."""
from __future__ import annotations

import io
import os
import re
import zlib
from collections import Counter, defaultdict
from functools import lru_cache, partial
from struct import Struct
from typing import Any, Callable, Iterable, Iterator, NamedTuple, TypeVar

from rvlook.errors import RvlookError, package_missing, reason_of, warn
from rvlook.escapes import name_of, text_of, visible
from rvlook.image.budget import UNIT, UNIT_RANGE, Budget, BudgetExceeded, budget_of, spend
from rvlook.image.files import read_file
from rvlook.protocol.bench_line import lines_of
from rvlook.protocol.inputs import ELF_MAGIC, Image
from rvlook.protocol.symbols import ALL, Inlined, Row, Symbol, Symbols, Unit

NM_LINE = re.compile(r"([0-9a-fA-F]{8})\s+(?:[A-Za-z]\s+)?([A-Za-z_.$][\w.$]*)\s*\Z")
LABEL, OBJECT, FUNCTION = 0, 1, 2  # types of a symbol (ELF, Symbol Table)
PREFERRED = (FUNCTION, OBJECT)
GLOBAL, ABSOLUTE = 1, 0xFFF1  # a binding, and the section of a symbol that is in none
LEAST_HEADER = 40  # the least bytes of a section header: those of a 32-bit file
MOST_SECTIONS = 65536
MOST_NAMED = 1 << 24  # characters of all names of symbols, which may share the bytes of one string
MOST_INFLATED = 1 << 24  # bytes of all compressed sections after decompression


T = TypeVar("T")


class SymbolEntry(NamedTuple):
    """An entry of the symbol table of an ELF file (ELF, Symbol Table)."""
    name: int  # offset in the string table
    value: int  # the address
    size: int  # bytes; 0 if unknown
    info: int  # type and binding
    other: int  # visibility
    section: int  # index of its section


def symbols_of(path: str, data: bytes | None) -> Symbols:
    """Returns the symbols of an ELF file or of a listing by nm; `path` is for error messages."""
    if data is None:
        return Symbols()
    if data.startswith(ELF_MAGIC):
        return elf_symbols(path, data)
    matches = [NM_LINE.match(line) for line in lines_of(text_of(data))]
    return Symbols([Symbol(int(match[1], 16), 0, visible(match[2]), is_function=False) for match in matches if match])


def symbols_from(path: str | None, image: Image) -> Symbols:
    """Returns the symbols of the file `path`, or without a path the symbols of an image that is an ELF file. Raises RvlookError if the file has no
    symbols or cannot be read."""
    if path:
        symbols = symbols_of(path, read_file(path))
        if not symbols:
            raise RvlookError("no symbols in '%s'" % path)
        return symbols
    return symbols_of(image.name, image.data if image.is_elf else None)


def elf_symbols(path: str, data: bytes) -> Symbols:
    """Returns the symbols and source lines of an ELF file. Reports what cannot be read."""
    try:
        import elftools  # noqa: F401
    except ImportError:
        warn_once(package_missing("pyelftools", "python3-pyelftools", "symbols are not available"))
        return Symbols()
    budget, file = budget_of(data), read_elf(path, data, "no symbols", lambda it: it)
    if file is None:
        return Symbols()
    return Symbols(readable(path, "no symbols", lambda: list(named(file)), budget) or (),
                   readable(path, "no source lines", lambda: list(units_of(path, file, budget)), budget) or ())


def read_elf(path: str, data: bytes, without: str, read: Callable[[Any], T]) -> T | None:
    """Calls `read` with an ELF file, within the budget of the file. Returns None for other bytes, and without pyelftools. Also returns None, and
    reports why, if the file is damaged or takes too much."""
    if not data.startswith(ELF_MAGIC):
        return None
    try:
        from elftools.elf.elffile import ELFFile
    except ImportError:
        return None
    know_all_forms()
    return readable(path, without, lambda: read(checked(ELFFile(io.BytesIO(data)), data)), budget_of(data))


def readable(path: str, without: str, read: Callable[[], T], budget: Budget) -> T | None:
    """Calls `read` within a budget; returns None, and reports why, if the file is damaged or takes too much."""
    try:
        with budget.limits():
            return read()
    except BudgetExceeded as error:
        warn_once("%s from '%s': %s" % (without, path, error))
        return None
    except Exception as error:  # pyelftools has no common class for what it cannot read, and lets errors of Python through
        warn_once("%s from '%s': pyelftools cannot read it (%s)" % (without, path, reason_of(error)))
        return None


def checked(file: Any, data: bytes) -> Any:
    """Returns an ELF file whose table of sections is in the file, and whose compressed sections are not too large: pyelftools believes both."""
    size, count = file["e_shentsize"], file.num_sections()
    if count > MOST_SECTIONS or count and (size < LEAST_HEADER or file["e_shoff"] + count * size > len(data)):
        raise ValueError("the section table is damaged")
    inflated = 0
    for section in file.iter_sections():
        if section.compressed or section.name.startswith(".zdebug"):
            inflated += inflated_size(data[section["sh_offset"]:section["sh_offset"] + section["sh_size"]])
        if inflated > MOST_INFLATED:
            raise BudgetExceeded
    return file


def inflated_size(data: bytes) -> int:
    """Returns the size of the zlib stream of a compressed section after decompression, at most MOST_INFLATED + 1; the stream follows a header."""
    for header in (12, 24):  # bytes of the header before the stream: in a 32-bit ELF file or a .zdebug section, and in a 64-bit ELF file
        try:
            return len(zlib.decompressobj().decompress(data[header:], MOST_INFLATED + 1))
        except zlib.error:
            continue
    return 0


@lru_cache(maxsize=None)
def warn_once(line: str) -> None:
    """Prints a warning, once for each text."""
    warn(line)


@lru_cache(maxsize=None)
def know_all_forms() -> None:
    """Adds DW_FORM_data16 to pyelftools before 0.30: clang uses it for the MD5 of a source file."""
    from elftools.construct import Array
    from elftools.dwarf.structs import DWARFStructs
    create = DWARFStructs._create_dw_form

    def create_more(structs: Any) -> None:
        create(structs)
        structs.Dwarf_dw_form.setdefault("DW_FORM_data16", Array(16, structs.Dwarf_uint8("")))

    DWARFStructs._create_dw_form = create_more


def named(file: Any) -> Iterator[Symbol]:
    """Yields the symbols of functions, objects and labels."""
    sections = {number for number, section in enumerate(file.iter_sections()) if section["sh_flags"] & 2}
    length = 0
    for name, entry in symbol_entries(file):
        spend()
        length += len(name)
        if length > MOST_NAMED:
            raise BudgetExceeded
        kind, is_global = entry.info % 16, entry.info // 16 == GLOBAL  # the low four bits are the type, the others the binding
        if not name.startswith(("$", ".L")) and entry.section in sections and kind in (*PREFERRED, LABEL):
            rank = 0 if kind in PREFERRED else 1 if is_global else 2  # of several symbols at an address, the lowest rank names it
            yield Symbol(entry.value, entry.size, visible(name), kind == FUNCTION, rank)
        elif entry.section == ABSOLUTE and kind == LABEL:
            yield Symbol(entry.value, 0, visible(name), is_function=False, rank=3)


def symbol_entries(file: Any) -> Iterator[tuple[str, SymbolEntry]]:
    """Yields each entry of the symbol table that has a name. pyelftools takes 60 microseconds for an entry, and an assembler may leave thousands
    without a name."""
    table = file.get_section_by_name(".symtab")
    if not table:
        return
    is_32 = file.elfclass == 32
    layout = Struct(("<" if file.little_endian else ">") + ("IIIBBH" if is_32 else "IBBHQQ"))
    if table["sh_entsize"] != layout.size:
        raise ValueError("an entry of the symbol table has %d bytes" % table["sh_entsize"])
    strings = table.stringtable.data()
    for fields in layout.iter_unpack(table.data()):
        entry = SymbolEntry(*(fields if is_32 else (fields[0], *fields[4:], *fields[1:4])))
        name = strings[entry.name:max(entry.name, strings.find(b"\0", entry.name))] if entry.name else b""
        if name:
            yield name.decode("utf-8", "replace"), entry


def units_of(path: str, file: Any, budget: Budget) -> Iterator[Unit]:
    """Yields the compilation units. A line table that several units share belongs to the first of them, whose ranges are then unknown."""
    entries = [(dwarf, unit, unit.get_top_DIE()) for dwarf, unit in compilation_units(file)]
    tables = Counter(value_of(top, "DW_AT_stmt_list") for _, _, top in entries)
    seen_tables: set[int | None] = {None}
    for dwarf, unit, top in entries:
        table = value_of(top, "DW_AT_stmt_list")
        ranges = list(ranges_of(dwarf, unit, top)) if tables[table] == 1 else []
        spend(UNIT_RANGE * len(ranges))
        read_rows = reader(path, "no source lines", partial(source_lines, dwarf, unit), budget) if table not in seen_tables else lambda: ()
        yield Unit(ranges or ALL, read_rows, reader(path, "no inlined calls", partial(inlined_calls, dwarf, unit), budget))
        seen_tables.add(table)


def compilation_units(file: Any) -> Iterator[tuple[Any, Any]]:
    """Yields the DWARF information of an ELF file with each of its compilation units; nothing without such information."""
    dwarf = file.get_dwarf_info() if file.has_dwarf_info() else None
    for unit in dwarf.iter_CUs() if dwarf else ():
        spend(UNIT)
        yield dwarf, unit


def value_of(entry: Any, name: str) -> Any:
    """Returns the value of an attribute of an entry, or None."""
    attribute = entry.attributes.get(name)
    return attribute.value if attribute else None


def reader(path: str, without: str, read: Callable[[], Iterable[T]], budget: Budget) -> Callable[[], Iterable[T]]:
    """Returns a function that reads a table of a unit; it returns nothing, and reports why, if the table is damaged or takes too much."""
    return lambda: readable(path, without, lambda: list(read()), budget) or ()


def source_lines(dwarf: Any, unit: Any) -> Iterator[Row]:
    """Yields the rows of the line table of a unit: an address with its file and line, or with None at the end of a sequence."""
    program = dwarf.line_program_for_CU(unit)
    names = file_names(program)
    states = line_states(program)
    yield from ((row.address, None if row.end_sequence or not row.line else "%s:%d" % (names.get(row.file, "?"), row.line)) for row in states)


def line_states(program: Any) -> list[Any]:
    """Returns the rows of a line table. pyelftools decodes the whole program at once, at most a row for each byte, and keeps it; it is dropped."""
    spend(max(0, program.program_end_offset - program.program_start_offset))
    states = [entry.state for entry in program.get_entries() if entry.state]
    program._decoded_entries = None
    return states


def line_programs(file: Any) -> Iterator[tuple[Any, Any]]:
    """Yields each unit with its line table. A shared table comes once."""
    seen_offsets = set()
    for dwarf, unit in compilation_units(file):
        program = dwarf.line_program_for_CU(unit)
        if program and program.program_start_offset not in seen_offsets:
            seen_offsets.add(program.program_start_offset)
            yield unit, program


def file_names(program: Any) -> dict[int, str]:
    """Returns the file names of a line table by number: from 1 up to DWARF 4, from 0 in DWARF 5."""
    first = 0 if program["version"] >= 5 else 1
    spend(len(program["file_entry"]))
    return {first + number: name_of(entry.name.split(b"/")[-1]) for number, entry in enumerate(program["file_entry"])}


def inlined_calls(dwarf: Any, unit: Any) -> Iterator[Inlined]:
    """Yields for each outermost inlined call of a unit its first and last address, and the file and line of the call."""
    program = dwarf.line_program_for_CU(unit)
    names = file_names(program) if program else {}
    for entry in outermost(dwarf, unit):
        call = entry.attributes
        if "DW_AT_call_file" in call and "DW_AT_call_line" in call:
            source = "%s:%d" % (names.get(call["DW_AT_call_file"].value, "?"), call["DW_AT_call_line"].value)
            yield from ((first, end - 1, source) for first, end in ranges_of(dwarf, unit, entry) if first < end)


def outermost(dwarf: Any, unit: Any) -> Iterator[Any]:
    """Yields the inlined calls of a unit that are in no other inlined call."""
    is_inside_of_open = [True]  # for each entry that is open, whether it is the unit, or a function or block in such
    for entry in entries_of(dwarf, unit):
        if entry.is_null():
            is_inside_of_open.pop()
            if len(is_inside_of_open) <= 1:
                return
            continue
        is_candidate = is_inside_of_open[-1]
        if is_candidate and entry.tag == "DW_TAG_inlined_subroutine":
            yield entry
        if entry.has_children:
            is_inside_of_open.append(is_candidate and (len(is_inside_of_open) == 1 or entry.tag in ("DW_TAG_subprogram", "DW_TAG_lexical_block")))


def entries_of(dwarf: Any, unit: Any) -> Iterator[Any]:
    """Yields the entries of a unit in the order of the file. pyelftools follows sibling references, and does not end if one is circular."""
    from elftools.dwarf.die import DIE
    unit.get_top_DIE()  # other units need it to read indirect values
    offset, end = unit.cu_die_offset, unit.cu_offset + unit.size
    while offset < end:
        entry = DIE(unit, dwarf.debug_info_sec.stream, offset)
        spend(cost_of(entry))
        offset += entry.size
        yield entry


def cost_of(entry: Any) -> int:
    """Returns what an entry costs: one, and more if it has many attributes, or attributes of many bytes."""
    sizes = (len(attribute.value) for attribute in entry.attributes.values() if isinstance(attribute.value, (bytes, list)))
    return 1 + (len(entry.attributes) >> 4) + (sum(sizes) >> 8)


def ranges_of(dwarf: Any, unit: Any, entry: Any) -> Iterator[tuple[int, int]]:
    """Yields the address ranges of an entry, each without its end."""
    attributes = entry.attributes
    if "DW_AT_low_pc" in attributes and "DW_AT_high_pc" in attributes:
        first, end = attributes["DW_AT_low_pc"].value, attributes["DW_AT_high_pc"]
        yield first, end.value if end.form == "DW_FORM_addr" else first + end.value
    elif "DW_AT_ranges" in attributes and dwarf.range_lists():
        items = dwarf.range_lists().get_range_list_at_offset(attributes["DW_AT_ranges"].value, unit)
        yield from ((first, end) for first, end, _ in placed(unit, items))


def placed(unit: Any, items: Iterable[Any]) -> Iterator[tuple[int, int, Any]]:
    """Yields the items of a range list or a location list of a unit, each with its first address and its end."""
    base = value_of(unit.get_top_DIE(), "DW_AT_low_pc") or 0
    for item in items:
        spend()
        if hasattr(item, "base_address"):
            base = item.base_address
        elif hasattr(item, "begin_offset"):
            start = 0 if getattr(item, "is_absolute", False) else base
            yield start + item.begin_offset, start + item.end_offset, item


def files_of(path: str) -> dict[str, str]:
    """Returns the path of each file that the line tables of an ELF file name, by its last part. If several files have the same last part, it is
    the one with the most rows."""
    return read_elf(path, read_file(path), "no source files", files_of_tables) or {}


def files_of_tables(file: Any) -> dict[str, str]:
    """Returns the same for an ELF file that was read. Decodes only the line tables that name one of several files with the same last part."""
    tables = [(program, paths_in(program, folder_of(unit))) for unit, program in line_programs(file)]
    counts_by_name: dict[str, Counter[bytes]] = defaultdict(Counter)
    for _, paths in tables:
        for path in paths.values():
            counts_by_name[name_of(os.path.basename(path))][path] += 0
    ambiguous = {path for paths in counts_by_name.values() if len(paths) > 1 for path in paths}
    for program, paths in tables:
        for row in line_states(program) if not ambiguous.isdisjoint(paths.values()) else ():
            if not row.end_sequence and row.file in paths:
                counts_by_name[name_of(os.path.basename(paths[row.file]))][paths[row.file]] += 1
    return {name: os.fsdecode(max(paths, key=lambda it: paths[it])) for name, paths in counts_by_name.items()}


def folder_of(unit: Any) -> bytes:
    """Returns the folder in which a unit was compiled; empty if it is not known."""
    folder = value_of(unit.get_top_DIE(), "DW_AT_comp_dir")
    return folder if isinstance(folder, bytes) else b""


def paths_in(program: Any, built_in: bytes) -> dict[int, bytes]:
    """Returns the path of each file by its number. Folders and files count from 1 up to DWARF 4, from 0 in DWARF 5."""
    first = 0 if program["version"] >= 5 else 1
    folders = [b""] * first + list(program["include_directory"])
    paths = {}
    spend(len(program["file_entry"]))
    for number, entry in enumerate(program["file_entry"], first):
        folder = folders[entry.dir_index] if entry.dir_index < len(folders) else b""
        paths[number] = os.path.normpath(os.path.join(built_in, folder, entry.name))
    return paths
