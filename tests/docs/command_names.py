#!/usr/bin/env python3
"""Checks that all lists of script commands agree: those of rv_script, docs/COMMANDS.md, the help of `run`, the model in tests/models, rvlook,
and the script of the twin cases. Reports each command that a list lacks.

    python3 -m docs.command_names --check
"""
import os
import re
import sys

ROOT = os.path.dirname(os.path.dirname(os.path.dirname(os.path.abspath(__file__))))
from rvlook.protocol.commands import COMMANDS
from models.monitor_bench import FORMS
from generators.twin_command_cases import EVERY

READ = "crates/rv_script/src/keyword.rt"
PAGE = "docs/COMMANDS.md"
HELP = "crates/rv_command_line/src/subcommands.rt"
OF_HARTS = {"hart", "sched"}  # in the twin cases of two harts


def text(path):
    with open(os.path.join(ROOT, path), encoding="utf-8") as it:
        return it.read()


def of_page(part):
    """Returns the commands in backquotes of a part of the page."""
    return {it.split()[0]: it.split()[1:] for it in re.findall(r"`([^`]+)`", part)}


def faults():
    """Returns for each list the missing and the extra commands."""
    read = set(re.findall(r'\("(\w+)", Keyword::', text(READ)))
    rows = re.search(r"^\| command \| operands \| effect and reply \|\n\|[-|]+\n((?:\|.*\n)+)", text(PAGE), re.M)[1]
    page = of_page("".join(row.split("|")[1] for row in rows.splitlines()))
    meant = of_page(re.search(r"^\| acts on the selected hart \|.*\n\|[-|]+\n(.*)", text(PAGE), re.M)[1])
    listed = re.search(r'const FIRST_SCRIPT: &str =.*?Commands of a script(.*?)";', text(HELP), re.S)[1]
    helped = {word for line in listed.splitlines()[1:] for word in re.findall(r"(?:^|, )([a-z]+)", re.split(" {2}", line.strip())[0])}
    has = {PAGE: set(page), PAGE + ": the selected hart": set(meant) | {"hart"}, HELP: helped,
           "tests/models/monitor_bench.py": set(FORMS), "python/rvlook/protocol/commands.py": set(COMMANDS),
           "tests/generators/twin_command_cases.py": {it.split()[0] for it in EVERY} | OF_HARTS}
    for place, names in has.items():
        if names != read:
            yield "%s: missing %s, extra %s" % (place, sorted(read - names), sorted(names - read))
    for name in read & set(COMMANDS) & set(FORMS):
        if len(COMMANDS[name].forms) != len(FORMS[name]):
            yield "%s: %d operands in python/rvlook/protocol/commands.py, %d in the model" % (name, len(COMMANDS[name].forms), len(FORMS[name]))


def main(_arguments):
    """Prints the differences; returns the exit status."""
    found = list(faults())
    print("\n".join(found) or "all lists of commands agree")
    return 1 if found else 0


if __name__ == "__main__":
    sys.exit(main(sys.argv[1:]))
