"""Builds variants of the example monitor, and compares them with the monitor of rvbench in this process."""
import shutil
import subprocess

import pytest

from conftest import BUILD, EXAMPLES

MONITORS = EXAMPLES / "monitors"
OWN = MONITORS / "own_monitor"
RAM = 0x30000


def skip_without_compiler():
    """Skips a test if no compiler is installed."""
    if not (shutil.which("clang") and shutil.which("ld.lld")) and not shutil.which("riscv64-unknown-elf-gcc"):
        pytest.skip("no compiler for RISC-V is installed")


def build(folder, *words):
    """Builds a folder with these arguments before it and after it, or fails."""
    done = subprocess.run([str(BUILD), *map(str, words)], capture_output=True, text=True, check=False, cwd=folder)
    assert done.returncode == 0, done.stderr


def variant(folder, edits, host=None):
    """Builds the monitor with changed texts, alone or with a host; returns the ELF file. An edit is a file, an old and a new text."""
    skip_without_compiler()
    copy, elf = folder / "monitor", folder / "monitor.elf"
    shutil.copytree(OWN, copy)
    for name, old, new in edits:
        text = (copy / name).read_text(encoding="ascii")
        assert text.count(old) == 1, old
        (copy / name).write_text(text.replace(old, new), encoding="ascii")
    build(folder, *(("--with-monitor", copy, host) if host else (copy,)), elf)
    return elf


def setup_of(elf, **more):
    """Returns the configuration of a comparison."""
    from rvlook.image.files import image_of
    from rvlook.monitors.sides import MonitorSetup, return_addresses
    image = image_of(str(elf))
    return MonitorSetup(image, RAM, ("setreg 10 80010000", "setreg 11 %x" % RAM), return_addresses(image), **more)


def first_different(setup, only="", part=slice(None)):
    """Compares over a part of the directed scripts whose names contain a text; returns the first script with a difference, or None."""
    from rvlook.monitors.conform import ScriptPlan, all_played, tasks_of
    tasks = tasks_of(ScriptPlan(0, 0, "1", only), RAM)
    assert tasks, only
    return next((it for it in all_played(setup, tasks[part], 1) if it.differences), None)
