"""Tests that an author writes: those of the examples pass, and each planted bug makes one of them fail. Some failures are golden files of
`author_failures`; `pytest --update-golden` rewrites them."""
import re
import subprocess
from importlib.util import find_spec
from pathlib import Path

import pytest
from support.authors import copied, run_tests
from support.planted_bugs import BUGS, HARTS, MONITOR, STORE

GOLDEN = Path(__file__).with_name("author_failures")
FOLDERS = {STORE: 18 + bool(find_spec("z3")), HARTS: 26, MONITOR: 34}  # with the number of tests
LEAST = 8  # planted bugs of each
SHOWN = {path.name for path in GOLDEN.iterdir()}
COMPILER = "clang version 14."


@pytest.fixture(autouse=True)
def compiler(built):
    """Skips the tests without a compiler, as `built` does."""


@pytest.mark.parametrize("folder, count", FOLDERS.items(), ids=[it.split("/")[1] for it in FOLDERS])
def test_the_tests_of_an_example_pass(bench, tmp_path, folder, count):
    done = run_tests(bench, copied(tmp_path) / folder / "tests")
    assert done.returncode == 0 and re.search(r"\b%d passed(, 1 skipped)? in " % count, done.stdout), done.stdout


@pytest.mark.parametrize("bug", BUGS, ids=lambda it: it.name)
def test_a_planted_bug_is_noticed(bench, request, tmp_path, bug):
    folder = copied(tmp_path) / bug.folder
    source = folder / bug.file
    text = source.read_text(encoding="utf-8")
    assert text.count(bug.old) == 1
    source.write_text(text.replace(bug.old, bug.new), encoding="utf-8")
    done = run_tests(bench, folder / "tests", "-x", "-k", bug.test + (" and not proved" if bug.folder == MONITOR else ""))
    assert done.returncode == 1 and re.search(r"^FAILED \S+::%s\b" % bug.test, done.stdout, re.M), done.stdout + done.stderr
    if bug.name in SHOWN and has_known_compiler():
        compare(request, bug.name, failure_of(done.stdout))


def has_known_compiler():
    """Returns whether the compiler is the one of the stored images; another one gives other addresses and source lines."""
    return COMPILER in subprocess.run(["clang", "--version"], capture_output=True, text=True, check=False).stdout


def failure_of(text):
    """Returns the failure in the output of pytest, without what differs from run to run."""
    failure = text.split("= FAILURES =")[1].split("\n", 1)[1].split("\n====")[0]
    return re.sub(r"/\S*/(?=[^/\s]+\.elf\b)|/\S*/(?=rvlook/)", "", failure) + "\n"


def compare(request, name, text):
    """Compares a failure with its golden file."""
    path = GOLDEN / name
    if request.config.getoption("--update-golden"):
        path.write_text(text, encoding="utf-8")
    assert text == path.read_text(encoding="utf-8")


def test_each_example_has_bugs():
    for folder in FOLDERS:
        assert sum(it.folder == folder for it in BUGS) >= LEAST
    assert SHOWN <= {it.name for it in BUGS} and len(SHOWN) > 4
