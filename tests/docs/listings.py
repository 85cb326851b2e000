#!/usr/bin/env python3
"""python3 -m docs.listings --check: compares the lists of registers, instructions and monitor calls in the definitions with other lists.
These are in the tests, rvlook, the examples and the documentation, and no proof checks them. Also checks the numbers of instructions in the
documentation.
"""
import os
import re
import sys

ROOT = os.path.dirname(os.path.dirname(os.path.dirname(os.path.abspath(__file__))))
from models import instruction_words
from models import monitor_model
from models import privileged_hart
from rvlook.protocol import names

WORLDS = {"Host": "the host", "(Enclave slot)": "an enclave"}
NUMBERS = "no one two three four five six seven eight nine ten eleven twelve".split()
CALL_TESTS = ("generators/monitor_call_cases", "generators/harts_race_cases", "generators/twin_call_cases", "fuzz/inputs", "fuzz/monitor_play")

# Registers without a name in rvlook and the assembler: the event counters and their selectors.
COUNTED = re.compile(r"mhpm")


def text_of(name):
    with open(os.path.join(ROOT, name), encoding="utf-8") as file:
        return file.read()


def registers():
    """Returns the name of each control and status register, by number."""
    table, found = text_of("crates/rv_state/specs/CsrTable.antt"), {}
    for number, name in re.findall(r'\bcsr 0x(\w+) \(codes "(\w+)"\)', table):
        found[int(number, 16)] = name
    for first, last, before, count, after in re.findall(
            r'\bcsr_range 0x(\w+) 0x(\w+) \(codes "(\w+)"\) (\d+) (?:\[\]|\(codes "(\w+)"\))', table):
        for at, number in enumerate(range(int(first, 16), int(last, 16) + 1)):
            found[number] = f"{before}{int(count) + at}{after}"
    return found


def instructions():
    """Returns the names of the instructions."""
    return set(re.findall(r'\blisted \(codes "([\w.]+)"\)', text_of("crates/rv_encoding/specs/Listing.antt")))


def calls():
    """Returns the number of each monitor call, the worlds that may make it, and the status of each refusal."""
    text = text_of("crates/rv_enclaves/specs/Calls.antt")
    numbers = {name: int(number) for name, number in re.findall(r"^call_number (\w+) = (\d+)$", text, re.M)}
    rows = re.findall(r"^is_offered (Host|\(Enclave slot\)) (\w+) = (true|false)$", text, re.M)
    worlds = {name.lower(): {WORLDS[it] for it in WORLDS if next(is_of for world, of, is_of in rows if (world, of) in ((it, name), (it, "_"))) == "true"}
              for name in numbers}
    statuses = {name: int(number, 16) for name, number in re.findall(r"^status_of (\w+) = 0x(\w+)$", text, re.M)}
    return {name.lower(): number for name, number in numbers.items()}, worlds, statuses


def refusals():
    """Returns the refusals of each call in order, and the files of their rows."""
    folder, rows, files = "crates/rv_enclaves/specs/", {}, {}
    for name in sorted(os.listdir(os.path.join(ROOT, folder))):
        for table, body in re.findall(r"^(\w+_refusals) [^:=\n]*=((?:.*\n)(?:    .*\n)*)", text_of(folder + name), re.M):
            rows[table], files[table] = re.findall(r", (\w+)\)", body), folder + name
    tables = re.findall(r"^call_refusals hart_state shared (\w+) = (\w+|\[\])", text_of("crates/rv_monitor/specs/CallRefusals.antt"), re.M)
    return {call.lower(): rows.get(table, []) for call, table in tables}, {files[table][len("crates/"):] for _, table in tables if table in files}


def numbers_of_row(cell):
    """Returns the numbers in a row of the table of registers."""
    for part in cell.split(", "):
        ends = [int(end, 16) for end in part.split(" to ")]
        yield from range(ends[0], ends[-1] + 1)


def register_lists():
    """Returns the numbers in each list of registers."""
    asm = text_of("crates/rv_asm/specs/CsrNames.antt").split("named_csrs =", 1)[1].split("\n\n", 1)[0]
    rows = re.findall(r"^\| ([0-9A-F]{3}(?:(?: to |, )[0-9A-F]{3})*) \| ", text_of("docs/ISA.md"), re.M)
    return {
        "named_csrs of crates/rv_asm/specs/CsrNames.antt": {int(it, 16) for it in re.findall(r"0x(\w+)", asm)},
        "CSRS of python/rvlook/protocol/names.py": set(names.CSR_NAMES),
        "TABLE of tests/models/privileged_hart.py": set(privileged_hart.KEPT),
        "the table of docs/ISA.md": {it for row in rows for it in numbers_of_row(row)},
    }


def of_registers():
    """Yields the missing and the extra entries of the lists of registers."""
    known = registers()
    for place, has in register_lists().items():
        lacks_counted = place.startswith(("named", "CSRS"))
        for number, name in known.items():
            if number not in has and not (lacks_counted and COUNTED.match(name)):
                yield f"{place} lacks {name}, {number:x}"
        yield from (f"{place} has {number:x}, which is no register" for number in sorted(has - set(known)))
    for name, number in names.CSRS.items():
        if known.get(number, name) != name:
            yield f"CSRS of python/rvlook/protocol/names.py has {name} for {known[number]}"


def operations():
    """Returns the number of fast operations of rv_fast_path."""
    variants = text_of("crates/rv_fast_path/src/decoded.rt").split("enum Operation {\n", 1)[1].split("\n}", 1)[0]
    return len(set(re.findall(r"^    (\w+),$", variants, re.M)) - {"Invalid", "Other"})


def of_instructions():
    """Yields the missing and the extra entries of the lists of instructions, and wrong numbers of them."""
    known = instructions()
    model = {it.split()[0] for it in [*instruction_words.ROWS, *instruction_words.WHOLE]} - {".word", "fence.tso"}
    page = set(re.findall(r"`([a-z][\w.]*)\b[^`]*`", text_of("docs/ISA.md").split("## Instructions", 1)[1].split("\n\n", 2)[1]))
    assembler = text_of("docs/ASSEMBLER.md")
    yield from (f"tests/models/instruction_words.py lacks {it}" for it in sorted(known - model))
    yield from (f"tests/models/instruction_words.py has {it}, which is no instruction" for it in sorted(model - known))
    yield from (f"the table of docs/ISA.md lacks {it}" for it in sorted(known - page))
    yield from (f"docs/ASSEMBLER.md lacks {it}" for it in sorted(known) if not re.search(rf"`{re.escape(it)}\b", assembler))
    for name, begins in (("tests/cli/refused_texts", r"^\d+ \d+ "), ("crates/rv_bench_tests/src/disassembler_tests.rt", '"')):
        text = text_of(name)
        yield from (f"{name} lacks {it}" for it in sorted(known) if not re.search(rf'{begins}{re.escape(it)}(?:[ "]|$)', text, re.M))
    for name, form, what, count in (
            ("crates/rv_encoding/specs/Listing.antt", r"^-- The (\d+) instructions", "instructions", len(known)),
            ("docs/ASSEMBLER.md", r"the (\d+) instructions", "instructions", len(known)),
            ("docs/PROMISES.md", r"the (\d+) rows", "rows", len(known)),
            ("docs/ARCHITECTURE.md", r"\b(?:one of|(?:one|none) of the) (\d+)\b", "operations", operations())):
        if set(re.findall(form, text_of(name), re.M)) != {str(count)}:
            yield f"{name} counts other than {count} {what}"


def constant(name):
    """Returns the name of the constant for a refusal in C and in the models."""
    return re.sub(r"(?<!^)(?=[A-Z])", "_", name).upper()


def of_calls():
    """Yields the missing and the different entries of the lists of monitor calls."""
    numbers, worlds, _ = calls()
    header, page = text_of("examples/shared/calls.h"), text_of("docs/MONITOR.md")
    if {it.name: it.value for it in names.Call} != numbers or {it.name for it in names.ARGUMENTS} != set(numbers):
        yield "Call or ARGUMENTS of python/rvlook/protocol/names.py has other calls"
    senders = {"the host": monitor_model.OF_HOST, "an enclave": monitor_model.OF_ENCLAVE}
    for name, number in numbers.items():
        if {world for world, of_world in senders.items() if number in of_world} != worlds[name] or getattr(monitor_model, name.upper(), 0) != number:
            yield f"tests/models/monitor_model.py lacks {name}, or has it of another world"
        if f"MONITOR_{name.upper()} = {number}" not in header or header.count(f"MONITOR_{name.upper()}") == 1:
            yield f"examples/shared/calls.h lacks {name}, or its function"
        of = worlds[name].pop() if len(worlds[name]) == 1 else "both"
        if not re.search(rf"^\| {number} \| {name} \| {of} \| ", page, re.M) or not re.search(rf"^### .*\b{name}\b", page, re.M):
            yield f"docs/MONITOR.md lacks {name} of {of}, or a part of its own"
        yield from (f"tests/{it}.py lacks {name}" for it in CALL_TESTS
                    if not re.search(rf"^(?!from |  +[A-Z_, ]+\)$).*(?:\b{name.upper()}\b|\.{name}\()", text_of(f"tests/{it}.py"), re.M))
    if f"{NUMBERS[len(numbers)]} calls with numbers" not in text_of("docs/AUTHORS.md"):
        yield f"docs/AUTHORS.md counts other than {NUMBERS[len(numbers)]} calls"


def of_refusals():
    """Yields the missing and the different entries of the lists of refusals and their statuses."""
    statuses, (of_call, files) = calls()[2], refusals()
    header, page, laws = text_of("examples/shared/calls.h"), text_of("docs/MONITOR.md"), text_of("docs/CALLS.md")
    if {name: number for number, name in names.STATUSES.items()} != statuses:
        yield "STATUSES of python/rvlook/protocol/names.py has other statuses"
    for name, number in statuses.items():
        if f"{constant(name)} = {number - 2 ** 32}" not in header:
            yield f"examples/shared/calls.h lacks {constant(name)}"
        if getattr(monitor_model, constant(name), 0) != number:
            yield f"tests/models/monitor_model.py lacks {constant(name)}"
        of = ", ".join(call for call in of_call if name in of_call[call]) or "all"
        if f"| {number:x} | {name} | {of} | " not in page:
            yield f"the table of refusals in docs/MONITOR.md lacks {name} of {of}"
    yield from (f"docs/CALLS.md lacks {it}, which has the refusals of a call" for it in sorted(files) if it not in laws)


def main(_arguments):
    found = [*of_registers(), *of_instructions(), *of_calls(), *of_refusals()]
    print("\n".join(found))
    return 1 if found else 0


if __name__ == "__main__":
    sys.exit(main(sys.argv[1:]))
