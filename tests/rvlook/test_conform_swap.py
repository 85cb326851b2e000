"""`conform` over a second monitor of another design: no false alarm, also at another base and with more memory, and bugs beyond small scripts."""
import shutil

import pytest

from support.monitors import OWN, build, setup_of, skip_without_compiler
from support.swap_bugs import BUGS, IN_THE_GATE

HERE = OWN.parents[2] / "tests" / "rvlook" / "monitors" / "swap"
ELSEWHERE = ("--memory", "80040000-8007ffff", "--ram", "524288")


@pytest.fixture(autouse=True)
def program(bench, monkeypatch):
    """Runs the built program in this process."""
    monkeypatch.setenv("RVBENCH", bench)


def pytest_generate_tests(metafunc):
    """Selects the bugs that are compared: all with --all-mutants."""
    if "bug" in metafunc.fixturenames:
        metafunc.parametrize("bug", BUGS if metafunc.config.getoption("--all-mutants") else IN_THE_GATE)


def made(folder, *edits, source=HERE):
    """Builds the second monitor, or another one, with changed texts; returns the ELF file."""
    skip_without_compiler()
    copy, elf = folder / "monitor", folder / "monitor.elf"
    shutil.copytree(OWN, copy, ignore=None if source is OWN else lambda _, names: [it for it in names if it not in ("measurement.c", "link.ld")])
    shutil.copytree(source, copy, dirs_exist_ok=True)
    for name, old, new in edits:
        text = (copy / name).read_text(encoding="ascii")
        assert text.count(old) == 1, old
        (copy / name).write_text(text.replace(old, new), encoding="ascii")
    build(folder, copy, elf)
    return elf


def larger(folder):
    """Builds own_monitor with 256 KiB of its own, linked in their middle."""
    return made(folder, ("monitor.h", "MONITOR_SIZE = 0x10000", "MONITOR_SIZE = 0x40000"),
                ("link.ld", "ORIGIN = 0x80000000, LENGTH = 64K", "ORIGIN = 0x80020000, LENGTH = 128K"), source=OWN)


def test_second_monitor_is_alike(rvlook, tmp_path):
    done = rvlook("conform", made(tmp_path), "--jobs", "2", "--tries", "10")
    assert done.returncode in (0, 3) and done.stdout.startswith("alike: "), done.stdout


def test_bug_is_found(bug, tmp_path):
    from rvlook.monitors.conform import ScriptPlan, compare
    file, old, new, script = BUGS[bug]
    outcome = compare(setup_of(made(tmp_path, (file, old, new))), ScriptPlan(0, 0, "1", script, is_deep=True))
    assert outcome.different and script in outcome.different.name, outcome.coverage.scripts


def test_sixty_bugs_beyond_small_scripts_are_planted():
    assert len(BUGS) >= 60 and set(IN_THE_GATE) <= BUGS.keys()
    assert len({it[:3] for it in BUGS.values()}) == len(BUGS)


def test_monitor_at_another_base_with_more_memory_is_alike(rvlook, tmp_path):
    done = rvlook("conform", larger(tmp_path), *ELSEWHERE, "--tries", "6", "--jobs", "2")
    assert done.returncode in (0, 3) and done.stdout.startswith("alike: "), done.stdout


def test_memory_of_a_larger_monitor_must_be_closed(rvlook, tmp_path):
    smaller = made(tmp_path, ("swap.c", "last = RAM_FIRST + (ram - 1);", "last = RAM_FIRST + (ram - 1);\n    ram = 0;"))
    done = rvlook("conform", smaller, *ELSEWHERE, "--only", "three creates")
    assert done.returncode == 1 and "access rights of S and U\n    own monitor        80000000-8000ffff ---, 80010000-" in done.stdout, done.stdout
    assert "create a0=80054000" in rvlook("conform", larger_with_a_bug(tmp_path / "other"), *ELSEWHERE, "--only", "three creates").stdout


def larger_with_a_bug(folder):
    """Builds the larger own_monitor, whose create reports the next slot."""
    return made(folder, ("monitor.h", "MONITOR_SIZE = 0x10000", "MONITOR_SIZE = 0x40000"),
                ("monitor.c", "    answer(DONE, slot);", "    answer(DONE, slot + 1);"), source=OWN)


@pytest.mark.parametrize("memory, message", [
    ("80040000", "invalid --memory '80040000' (expected FIRST-LAST, in hexadecimal digits)"),
    ("80040000-800fffff", "--memory 80040000-800fffff must be in the RAM from 80010000 to 8007ffff, and its ends at multiples of 10000"),
    ("80048000-8007ffff", "--memory 80048000-8007ffff must be in the RAM from 80010000 to 8007ffff, and its ends at multiples of 10000"),
    ("80060000-8007ffff", "--memory 80060000-8007ffff is too small; it must have 30000 bytes or more")])
def test_memory_is_checked(rvlook, memory, message):
    done = rvlook("conform", OWN / "image", "--ram", "524288", "--memory", memory)
    assert (done.returncode, done.stderr) == (2, "rvlook: error: %s\n" % message)
