"""The text of failed tests: what differs, who may access a place, where the machine was, and how to repeat its run."""
from __future__ import annotations

import os
import re
from typing import Any, List, Mapping, Optional

from rvlook.api.find import Findings
from rvlook.api.machine import Machine
from rvlook.api.values import AccessMap, CallResult, Rights
from rvlook.api.views import View
from rvlook.output.printer import counted
from rvlook.protocol.bench_line import lines_of

SHOWN = 8  # bytes that are shown of a member that differs, from the first different one on
CONSOLE_LINES = 3  # the last lines of the console that are shown
COMMANDS = ("# rvbench ", "# ./rvbench ")  # the beginning of the line of a script with its command


def compared(op: str, left: Any, right: Any) -> Optional[List[str]]:
    """Explains an assertion that compares two values, in lines; None for other values."""
    if isinstance(left, Rights):
        return ["rights %s %s %s" % (left, op, right), left.reason]
    if op != "==":
        return None
    if isinstance(left, CallResult) and isinstance(right, CallResult):
        return ["%s == %s" % (left, right)]
    if isinstance(left, AccessMap) and isinstance(right, AccessMap):
        return ["access map == the expected one; these rights differ, expected -> actual:", *(left - right)]
    if isinstance(left, View) and isinstance(right, (View, Mapping)):
        wanted = right.values() if isinstance(right, View) else right
        rows = [row for name, value in wanted.items() for row in difference(left, name, value)]
        return ["%s == the expected members; these differ:" % left._type.name, *rows]
    return None


def difference(view: View, name: str, wanted: Any) -> List[str]:
    """Explains a member that differs: its first bytes that do, and what last stored the first of them. Empty for an equal member."""
    actual, address = getattr(view, name), view[name]
    if actual == wanted:
        return []
    rows = ["  %s: %r; expected: %r" % (name, actual, wanted)]
    if isinstance(actual, bytes) and isinstance(wanted, bytes):
        first = next((n for n, pair in enumerate(zip(actual, wanted)) if pair[0] != pair[1]), min(len(actual), len(wanted)))
        rows = ["  %s, from byte %d on: %s; expected: %s" % (name, first, hex_digits(actual, first), hex_digits(wanted, first))]
        address += first
    writer = view._memory.writer_of(address) if isinstance(view._memory, Machine) else None
    return rows + (["    last stored by " + writer] if writer else [])


def hex_digits(data: bytes, first: int) -> str:
    """Returns at most SHOWN bytes of some data, from index `first` on, in hexadecimal digits."""
    return data[first:first + SHOWN].hex() + ("..." if len(data) > first + SHOWN else "")


def findings_text(findings: Findings, folder: str, name: str) -> str:
    """Returns the text of a search that found something, and writes the script of each finding."""
    rows = ["%s, in %s" % (counted(len(findings), "finding"), counted(len(findings.checks), "check"))]
    for number, finding in enumerate(findings, 1):
        rows.append(str(finding))
        if finding.script:
            rows.append("repeat:        " + command_for(finding.script, write_script(folder, "%s_%d" % (name, number), finding.script)))
    return "\n".join(rows + (["search again:  " + findings.command] if findings.command else []))


def write_script(folder: str, name: str, script: str) -> str:
    """Writes an input of rvbench to a file named after a test, and returns its path. Raises OSError if the file cannot be written."""
    os.makedirs(folder, exist_ok=True)
    path = os.path.join(folder, re.sub(r"\W+", "_", name).strip("_") + ".input")
    with open(path, "w", encoding="latin-1", newline="") as file:
        file.write(script)
    return path


def command_for(script: str, path: str) -> str:
    """Returns the command that runs an input of rvbench: its first comment has it."""
    line = next((line for line in lines_of(script) if line.startswith(COMMANDS)), "# rvbench run < this file")
    return line[2:].replace("this file", path)


def machine_rows(machine: Machine, folder: str, name: str) -> List[str]:
    """Returns where a machine is, in lines, and writes the input that repeats its run."""
    setup, script = machine.setup, machine.script()
    path = write_script(folder, name, script)
    rows = ["after step %d: %s in %s at %s" % (machine.steps, machine.world, machine.mode, machine.where)]
    rows += ["last trap:     %s" % machine.trap] if machine.trap else []
    rows += ["e%d:            %s" % (enclave.slot, enclave.state) for enclave in machine.enclaves]
    rows += ["console:       " + line for line in machine.console.split("\n")[-CONSOLE_LINES:] if line]
    options = "--monitor" if setup.monitor else "--no-monitor"
    harts = " --harts %d" % setup.harts if setup.harts > 1 else ""
    return rows + ["repeat:        " + command_for(script, path),
                   "look:          rvlook trace %s%s %s --symbols %s --steps 0" % (path, harts, options, setup.image.name)]
