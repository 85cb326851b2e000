"""A counterexample: the inputs of a finding as a table with the names of fields, and the commands that show the finding."""
from __future__ import annotations

import shlex
from typing import Any, Dict, Iterator, List, NamedTuple, TYPE_CHECKING

from rvlook.output.printer import hex8
from rvlook.protocol.run import Setup
from rvlook.protocol.inputs import ELF_MAGIC
from rvlook.symbolic.evaluation import evaluate
from rvlook.symbolic.nodes import by_name, mask_of

if TYPE_CHECKING:
    from rvlook.output.printer import Json
    from rvlook.symbolic.record import Counterexample
    from rvlook.symbolic.search import Search

MAX_INPUT_ROWS = 24  # the most rows of the table of inputs that are printed
MAX_ROW_BYTES = 4  # the most bytes of a row that is put together from loads of single bytes
HINT = "To run a finding, give --scripts DIR. It writes DIR/finding_N, which ./rvlook page and ./rvlook gdb show."


class InputRow(NamedTuple):
    """Bytes that the enclave loads from the host in a counterexample: their values in the counterexample and in the run itself."""
    activation: int  # counted from 1
    at: int  # the address of the first byte
    values: bytes
    old: bytes  # the values in the run itself


def rows_of(search: Search, example: Counterexample) -> Iterator[InputRow]:
    """Yields the inputs of the loads on which the conditions or the address of a finding depend. A row has adjacent bytes of one load."""
    memo: Dict[Any, Any] = {}
    mask = mask_of(example.address)
    for condition in example.conditions:
        mask |= mask_of(condition)
    leaving_steps = [answer.step for answer in example.answers]
    for step, at, names in example.loads:
        is_relevant = any(name in by_name and (by_name[name].mask or 0) & mask for _, name in names)
        if not is_relevant:
            continue
        activation = sum(end < step for end in leaving_steps)  # how often the enclave has left before the load
        first = evaluate(at, example.one, memo)
        rows: List[InputRow] = []
        for n, name in names:
            own = own_byte(search, activation, first + n)
            row = InputRow(activation + 1, first + n, bytes([example.one[name]]), bytes([own]))
            if rows and rows[-1].at + len(rows[-1].values) == row.at:
                rows[-1] = joined(rows[-1], row)
            else:
                rows.append(row)
        yield from rows


def own_byte(search: Search, activation: int, at: int) -> int:
    """Returns the byte at an address of the window or of the region in the run itself. `activation` is the number of the activation, from 0."""
    world = search.world
    if world.window[0] <= at < world.window[1]:
        return world.windows[min(activation, len(world.windows) - 1)][at - world.window[0]]
    return world.memory[at - world.region[0]]


def joined(one: InputRow, two: InputRow) -> InputRow:
    """Returns two rows of adjacent bytes as one."""
    return one._replace(values=one.values + two.values, old=one.old + two.old)


def table(search: Search, example: Counterexample) -> List[InputRow]:
    """Returns the inputs of a finding. Bytes that are loaded one by one are put together to aligned words of one field."""
    rows: List[InputRow] = []
    for row in rows_of(search, example):
        if rows and is_continued(search, rows[-1], row):
            rows[-1] = joined(rows[-1], row)
        else:
            rows.append(row)
    return rows


def is_continued(search: Search, last: InputRow, row: InputRow) -> bool:
    """Returns whether a row is a single byte that belongs to the same word and field as the row before it."""
    fields = search.world.fields
    size = len(last.values)
    is_at_end_of_word = last.at % MAX_ROW_BYTES + size >= MAX_ROW_BYTES
    if len(row.values) != 1 or size >= MAX_ROW_BYTES or is_at_end_of_word or last.at % 2:
        return False
    is_next = (row.activation, row.at) == (last.activation, last.at + size)
    return is_next and fields.member(row.at) == fields.member(last.at)


def input_lines(search: Search, example: Counterexample) -> List[str]:
    """Returns the inputs that differ from those of the run itself, as lines."""
    lines = [line_of(search, row) for row in table(search, example) if row.values != row.old]
    if not lines:
        return ["  input  none: the run itself"]
    if len(lines) > MAX_INPUT_ROWS:
        return [*lines[:MAX_INPUT_ROWS], "  input  ... and %d more" % (len(lines) - MAX_INPUT_ROWS)]
    return lines


def line_of(search: Search, row: InputRow) -> str:
    """Returns the line that is printed for a row of the table of inputs."""
    value = int.from_bytes(row.values, "little")
    old = int.from_bytes(row.old, "little")
    count = "1 byte" if len(row.values) == 1 else "%d bytes" % len(row.values)
    name = search.world.fields.name(row.at) or hex8(row.at)
    return "  input  activation %d: %s = 0x%x instead of 0x%x (%08x, %s)" % (row.activation, name, value, old, row.at, count)


def input_objects(search: Search, example: Counterexample) -> List[Json]:
    """Returns the inputs of a finding as JSON objects, one for each byte."""
    fields = search.world.fields
    objects: List[Json] = []
    for row in rows_of(search, example):
        for n, value in enumerate(row.values):
            objects.append({"activation": row.activation, "address": hex8(row.at + n), "name": fields.name(row.at + n), "value": value,
                            "instead_of": row.old[n]})
    return objects


def is_elf_file(path: str) -> bool:
    """Returns whether a file is an ELF file, which a debugger can read. Returns False if the file cannot be read."""
    try:
        with open(path, "rb") as file:
            return file.read(len(ELF_MAGIC)) == ELF_MAGIC
    except OSError:
        return False


def commands(search: Search, number: int) -> List[str]:
    """Returns lines with the path of the file that --scripts writes for a finding, and with the commands that show the finding. `number` is that of
    the finding. Returns an empty list without --scripts."""
    if not search.options.scripts:
        return []
    setup = search.world.run.setup
    path = "%s/finding_%d" % (search.options.scripts, number)
    words = ["--monitor", path]
    if search.options.symbols:
        words += ["--symbols", search.options.symbols]
    if setup.harts > 1:
        words += ["--harts", str(setup.harts)]
    if setup.ram != Setup.ram:
        words += ["--ram", str(setup.ram)]
    text = " ".join(map(shlex.quote, words))
    debugger = ["gdb-multiarch", "-ex", "target remote | ./rvlook gdb %s" % text]
    program = next((file for file in (search.options.symbols, setup.image.name) if file and is_elf_file(file)), None)
    if program:
        debugger.insert(1, program)
    return ["  script %s" % path, "  page   ./rvlook page %s --steps 0 > %s" % (text, shlex.quote(path + ".html")),
            "  debug  %s" % " ".join(map(shlex.quote, debugger))]
