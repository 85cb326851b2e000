"""Runs the tests of an author with pytest and the plugin of rvlook, in a copy of the examples."""
import os
import shutil
import subprocess
import sys

from conftest import EXAMPLES, ROOT
from support.clock.processor_clock import environment_with
from support.limits import HANG

# Variables of this run of pytest. CI and BUILD_NUMBER are among them, since pytest does not shorten comparisons with them.
OF_THIS_RUN = ("PYTEST_ADDOPTS", "PYTEST_XDIST_WORKER", "PYTEST_CURRENT_TEST", "PYTEST_XDIST_WORKER_COUNT", "PYTEST_XDIST_TESTRUNUID",
               "CI", "BUILD_NUMBER")
PYTEST = ("-q", "-p", "rvlook.api.plugin", "-p", "no:cacheprovider", "--tb=short", "--color=no")


def copied(folder):
    """Copies the examples to a folder; returns the copy."""
    target = folder / "examples"
    shutil.copytree(EXAMPLES, target, ignore=shutil.ignore_patterns("__pycache__", ".rvlook", ".hypothesis", "*.elf", "listing"))
    return target


def run_tests(bench, folder, *words):
    """Runs pytest in a folder, without the settings of this repository; returns its `CompletedProcess`, with text."""
    environment = {**os.environ, **environment_with(ROOT / "python"), "RVBENCH": bench, "PYTHONDONTWRITEBYTECODE": "1", "COLUMNS": "120"}
    for name in OF_THIS_RUN:
        environment.pop(name, None)
    ini = folder / "pytest.ini"
    if not ini.exists():
        ini.write_text("[pytest]\n")
    return subprocess.run([sys.executable, "-m", "pytest", *PYTEST, *words], cwd=folder, env=environment, capture_output=True, text=True,
                          timeout=HANG, check=False)
