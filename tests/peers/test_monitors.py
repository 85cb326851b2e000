"""Examples of enclaves take the same steps under the monitor in C in QEMU and under the proved monitor; a wrong monitor is noticed."""
import shutil
import subprocess

import pytest

from conftest import BUILD, EXAMPLES
from peers.qemu.lockstep import Difference
from peers.qemu.monitors import compare_example

STEPS = 700
MONITOR = EXAMPLES / "monitors" / "own_monitor"


def combined(monitor, name, folder):
    """Builds the monitor with an example; returns the ELF file, and the image of the example. Skips the test if no compiler is installed."""
    if not (shutil.which("clang") and shutil.which("ld.lld")):
        pytest.skip("clang or lld is not installed")
    example = EXAMPLES / "enclaves" / name
    subprocess.run([BUILD, "--with-monitor", monitor, example, folder / "combined.elf"], check=True, capture_output=True)
    return folder / "combined.elf", (example / "image").read_text(encoding="ascii").split("--\n")[0]


@pytest.mark.parametrize("name", ["adds", "hello", "bug", "hmac"])
def test_example_takes_the_same_steps(bench, qemu_version, tmp_path, name):
    worlds = compare_example(bench, *combined(MONITOR, name, tmp_path), STEPS)
    assert sum(worlds.values()) == STEPS and worlds["host"] > 30 and worlds["e0"] > 30


def test_a_wrong_monitor_is_noticed(bench, qemu_version, tmp_path):
    monitor = shutil.copytree(MONITOR, tmp_path / "monitor")
    text = (monitor / "monitor.c").read_text(encoding="utf-8")
    wrong = text.replace("answer(0, 0); /* after resume */", "").replace("enclaves[slot].state = RUNNING;", "current.x[A3] = 0;")
    assert wrong != text
    (monitor / "monitor.c").write_text(wrong, encoding="utf-8")
    with pytest.raises(Difference):
        compare_example(bench, *combined(monitor, "adds", tmp_path), STEPS)
