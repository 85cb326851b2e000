"""Missing or broken programs and packages, and closed pipes: one line on standard error."""
import os
import re
import subprocess

import pytest

from conftest import EXAMPLES, ROOT, RVLOOK

TIMER = EXAMPLES / "enclaves" / "timer" / "image"
RAW = EXAMPLES / "programs" / "primes" / "stdin"  # no ELF file: no package is needed
NUMBERS = ("80020000", "1000", "0", "0", "80020000")


@pytest.fixture
def without_elftools(tmp_path):
    """An environment in which pyelftools cannot be imported."""
    (tmp_path / "elftools.py").write_text("raise ImportError\n")
    return {"PYTHONPATH": str(tmp_path)}


@pytest.mark.parametrize("program, status, message", [
    ("/none", 2, "RVBENCH: no program at '/none'"),
    ("/bin/true", 3, "%s: rvbench exited with status 0" % TIMER),
    (str(ROOT / "README.md"), 3, "cannot run '%s': Permission denied" % (ROOT / "README.md"))], ids=["none", "ends at once", "is no program"])
def test_program_that_is_no_bench_is_refused(rvlook, program, status, message):
    done = rvlook("map", TIMER, "--monitor", env={"RVBENCH": program})
    assert (done.returncode, done.stderr) == (status, "rvlook: error: %s\n" % message)


def test_program_that_ends_too_early_is_reported(rvlook, bench, tmp_path):
    short = tmp_path / "short"
    short.write_text('#!/bin/bash\nstdbuf -oL head -n 60 | "%s" "$@"\n' % bench)
    short.chmod(0o755)
    done = rvlook("trace", RAW, env={"RVBENCH": str(short)})
    assert done.returncode == 3 and re.fullmatch(r"rvlook: error: [^\n]*\n", done.stderr), done.stderr


def test_measure_of_an_elf_file_needs_pyelftools(rvlook, without_elftools, tmp_path):
    (tmp_path / "cut.elf").write_bytes(b"\x7fELF")
    done = rvlook("measure", tmp_path / "cut.elf", *NUMBERS, env=without_elftools)
    assert done.returncode == 3
    assert done.stderr.splitlines()[-1] == ("rvlook: error: pyelftools is not installed, so measure cannot read an ELF file; "
                                            "install it with 'apt-get install python3-pyelftools'")


def test_map_without_pyelftools_has_no_symbols(rvlook, without_elftools):
    done = rvlook("map", "--monitor", EXAMPLES / "enclaves" / "adds" / "image", env=without_elftools)
    assert (done.returncode, done.stderr) == (0, "rvlook: warning: pyelftools is not installed, so symbols are not available; "
                                              "install it with 'apt-get install python3-pyelftools'\n")


def test_reader_that_goes_away_ends_the_run(bench):
    shell = '"%s" trace %s | head -n 1' % (RVLOOK, RAW)
    done = subprocess.run(["bash", "-o", "pipefail", "-c", shell], cwd=ROOT, capture_output=True, text=True, check=False,
                          env={**os.environ, "RVBENCH": bench, "TERM": "dumb"})
    assert (done.returncode, done.stdout, done.stderr) == (141, "bare  M\n", "rvlook: error: broken pipe\n")
