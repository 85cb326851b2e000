"""Mutants of rvlook: each is one change of a copy of rvlook, and the test that must fail on the copy."""
import os
import shutil
import subprocess
import sys
from dataclasses import dataclass
from pathlib import Path

from support.limits import HANG

ROOT = Path(__file__).resolve().parents[2]
COPIED = ("python", "tests/rvlook", "tests/support")
LINKED = ("examples", "docs", "tools", "tests/models", "tests/rvlook/programs", "tests/rvlook/golden", "tests/rvlook/images")
SKIPPED = ("__pycache__", "programs", "golden", "images", "fuzz")


@dataclass(frozen=True)
class Mutant:
    """A mutant replaces the text `old`, which occurs once in `file`, by `new`; `test`, a module and a test in it, must fail."""
    name: str
    file: str
    old: str
    new: str
    test: str


def id_of(mutant):
    """Returns the name of a mutant without blanks, for pytest."""
    return mutant.name.replace(" ", "_")


def copy_with(mutant, folder):
    """Copies rvlook and its tests into a folder, with a mutant."""
    for name in COPIED:
        shutil.copytree(ROOT / name, folder / name, ignore=shutil.ignore_patterns(*SKIPPED))
    for name in ("rvlook", "pyproject.toml", "tests/conftest.py"):
        shutil.copy(ROOT / name, folder / name)
    for name in LINKED:
        (folder / name).symlink_to(ROOT / name)
    path = folder / "python" / "rvlook" / mutant.file
    text = path.read_text(encoding="utf-8")
    assert text.count(mutant.old) == 1, "the text that the mutant replaces is not there once"
    changed = text.replace(mutant.old, mutant.new)
    if path.suffix == ".py":
        compile(changed, str(path), "exec")  # a mutant that does not compile fails every test
    path.write_text(changed, encoding="utf-8")


def check_noticed(mutant, folder, bench):
    """Checks that the test of a mutant fails on a copy with it."""
    copy_with(mutant, folder)
    environment = {**os.environ, "RVBENCH": bench, "PYTHONDONTWRITEBYTECODE": "1"}
    environment.pop("RVLOOK", None)
    words = [sys.executable, "-m", "pytest", "-q", "-x", "-p", "no:xdist", "tests/rvlook/" + mutant.test]
    done = subprocess.run(words, cwd=folder, env=environment, capture_output=True, text=True, timeout=HANG, check=False)
    assert done.returncode == 1, "the test passes, or there is none: %s" % done.stdout[-800:]
    assert " failed" in done.stdout.splitlines()[-1], done.stdout[-800:]
