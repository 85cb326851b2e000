"""Quoted runs of ./rvlook in the documentation: a command after `$` prints the lines below it, where `...` matches any lines."""
import os
import re
import subprocess

import pytest

from conftest import ROOT

PAGES = ("docs/LOOK.md", "docs/VERIFY.md", "README.md", "docs/ASK.md", "examples/enclaves/store/README.md", "examples/enclaves/host_inputs/README.md")
PART = re.compile(r"^    \$ (.*\./rvlook.*)\n((?:    (?!\$ ).*\n|\n(?=    (?!\$ )|\n))*)", re.M)


def parts_of(text):
    """Yields each command with the lines below it."""
    for command, below in PART.findall(text):
        yield command, "".join(line[4:] if line.strip() else "\n" for line in below.splitlines(True)).rstrip("\n").split("\n")


PARTS = [(page, *part) for page in PAGES for part in parts_of((ROOT / page).read_text(encoding="utf-8"))]


def test_page_of_rvlook_has_examples():
    assert sum(page == PAGES[0] for page, _, _ in PARTS) > 6


@pytest.mark.parametrize("page, command, lines", PARTS, ids=["%s:%d" % (page.replace("/", "-"), at) for at, (page, _, _) in enumerate(PARTS)])
def test_command_prints_the_lines_below_it(bench, page, command, lines):
    done = subprocess.run(["bash", "-c", command], cwd=ROOT, capture_output=True, text=True, check=False,
                          env={**os.environ, "RVBENCH": bench, "TERM": "dumb"})
    wanted = "".join("(?:.*\n)*?" if line == "..." else re.escape(line) + "\n" for line in lines)
    assert re.fullmatch(wanted, done.stdout.rstrip("\n") + "\n"), "%s: %s prints\n%s%s" % (page, command, done.stdout, done.stderr)
