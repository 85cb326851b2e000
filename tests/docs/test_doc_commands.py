"""The commands of README.md, of the tutorial, of OWN_MONITOR.md and of TESTS.md work in a fresh clone, in order.

bash runs each block of indented lines in the clone. Each command exits with status 0, or 1 if it is a subcommand of rvlook that reports
findings. The text below a line with `$` is its output; a line `...` matches any lines. The tests skip ./check,
./prove, installations and debugger sessions. The tests of gdb run the sessions.
"""
import os
import re
import shutil
import subprocess

import pytest

from conftest import ROOT
from support.clock import processor_clock as clock
from support.limits import HANG

PAGES = ("README.md", "docs/TUTORIAL.md", "docs/OWN_MONITOR.md", "docs/TESTS.md")
FINDS = re.compile(r"^\./rvlook (?:leak|races|timer|window|inputs|verify|conform|guard) .*$", re.M)  # status 1 is a finding
LEFT_OUT = ("./check", "./prove", "apt-get")
BLOCK = re.compile(r"(?:^    .*\n|^\n(?=    ))+", re.M)
SESSION = "(gdb) "


def blocks(text):
    """Yields the commands of each block with their expected output, None for a command without `$`."""
    for block in BLOCK.findall(text):
        lines = [line[4:] for line in block.rstrip("\n").split("\n")]
        plain = []
        while lines:
            line = lines.pop(0)
            if not line.startswith("$ "):
                plain.append(line)
                continue
            if any(plain):
                yield "\n".join(plain), None
            plain, output = [], []
            while lines and not lines[0].startswith("$ "):
                output.append(lines.pop(0))
            yield line[2:], "\n".join(output).rstrip("\n").split("\n")
        script = "\n".join(it for it in plain if not it.startswith(LEFT_OUT))
        if script.strip() and SESSION not in script:
            yield script, None


def matches(lines, wanted):
    """Returns whether lines are the expected ones, where `...` matches any lines."""
    pattern = "".join("(?:.*\n)*?" if it == "..." else re.escape(it.rstrip()) + "\n" for it in wanted)
    return re.fullmatch(pattern, "".join(it.rstrip() + "\n" for it in lines)) is not None


@pytest.fixture
def clone(tmp_path):
    """A fresh clone of the present tree, with its uncommitted changes."""
    folder = tmp_path / "rvbench"
    command = ["git", "ls-files", "-z", "--cached", "--others", "--exclude-standard"]
    listed = subprocess.run(command, cwd=ROOT, capture_output=True, check=True).stdout.decode()
    for name in filter(None, listed.split("\0")):
        if (ROOT / name).exists():
            (folder / name).parent.mkdir(parents=True, exist_ok=True)
            shutil.copy2(ROOT / name, folder / name)
    return folder


def check_page(clone, page):
    """Runs the blocks of a page in order."""
    environment = {name: value for name, value in {**os.environ, **clock.ENVIRONMENT}.items() if name != "RVBENCH"}
    count = 0
    for script, wanted in blocks((clone / page).read_text(encoding="utf-8")):
        count += 1
        script = FINDS.sub(r"{ \g<0>\n} || [ $? = 1 ]", script)
        done = subprocess.run(["bash", "-e", "-c", script], cwd=clone, capture_output=True, text=True, env=environment, timeout=HANG,
                              check=False)
        assert done.returncode == 0, (script, done.stderr[-400:])
        assert wanted is None or matches(done.stdout.rstrip("\n").split("\n"), wanted), (script, done.stdout)
    assert count > 3


pytestmark = pytest.mark.skipif(not shutil.which("clang") and not shutil.which("riscv64-unknown-elf-gcc"), reason="no compiler for RISC-V")


@pytest.mark.parametrize("page", PAGES)
def test_the_commands_of_a_page_work_with_the_proved_program(bench, clone, page):
    out = clone / "crates" / "rvbench" / "out"
    out.mkdir(parents=True)
    shutil.copy(bench, out / "rvbench")
    check_page(clone, page)


@pytest.mark.skipif(not shutil.which("rt"), reason="the command rt of the Rattle kit is not on the PATH")
def test_the_commands_of_the_readme_work_with_an_unproved_program(clone):
    check_page(clone, "README.md")
    out = clone / "crates" / "rvbench" / "out"
    assert (out / "unproved").exists() and not (out / "unproved.plain").exists(), "it is built with optimisation"
