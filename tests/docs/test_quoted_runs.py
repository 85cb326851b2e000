"""Quoted runs: the text below a command after `$` is the output of that command.

`./rvbench` is replaced by the built program. The output of ./rvlook may be quoted in parts, with a line `...` between them.
test_doc_commands.py tests the commands on an enclave that a page has built before.
"""
import os
import re
import subprocess
from pathlib import Path

import pytest

from support.clock import processor_clock as clock
from support.limits import HANG

ROOT = Path(__file__).resolve().parents[2]
PAGES = [ROOT / "README.md", *sorted(ROOT.glob("docs/**/*.md"))]
BUILT = ("../my_enclave", "../pin_enclave", "../tested_enclave")  # by a page


def runs_of(text):
    """Yields each command with the lines below it, without their indentation."""
    lines, at = text.split("\n"), 0
    while at < len(lines):
        match = re.match(r"( +)\$ (.*)", lines[at])
        at += 1
        if not match:
            continue
        end = at
        while end < len(lines) and (not lines[end].strip() or lines[end].startswith(match[1]) and lines[end][len(match[1])] != "$"):
            end += 1
        yield match[2], "\n".join(line[len(match[1]):] for line in lines[at:end]).rstrip("\n").split("\n")


def is_quoted(program, command, wanted):
    """Returns whether a command prints these lines."""
    words = command.replace("./rvbench", '"$RVBENCH"')
    ran = subprocess.run(["bash", "-c", words], cwd=ROOT, capture_output=True, text=True, timeout=HANG, check=False,
                         env={**os.environ, **clock.ENVIRONMENT, "RVBENCH": program, "TERM": "dumb"})
    lines = ran.stdout.rstrip("\n").split("\n")
    if not command.startswith("./rvlook"):
        return lines == wanted
    parts, place = "\n".join(wanted).split("\n...\n"), 0
    whole = "\n" + "\n".join(lines) + "\n"
    for part in parts:
        text = "\n" + part.removeprefix("...\n").removesuffix("\n...") + "\n"
        place = whole.find(text, place)
        if place < 0:
            return False
    return True


QUOTED = [(page, command, wanted) for page in PAGES for command, wanted in runs_of(page.read_text(encoding="utf-8"))
          if not any(it in command for it in BUILT)]


@pytest.mark.parametrize("page, command, wanted", QUOTED, ids=["%s:%d" % (page.name, at) for at, (page, _, _) in enumerate(QUOTED)])
def test_a_quoted_run_is_what_the_command_prints(bench, page, command, wanted):
    assert is_quoted(bench, command, wanted), "%s: %s" % (page.name, command)
