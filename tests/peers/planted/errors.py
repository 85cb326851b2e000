"""Planted errors: reads the file `errors`, and builds an unproved program with one of them from a copy of the crates."""
from __future__ import annotations

import shutil
import subprocess
from dataclasses import dataclass, field
from pathlib import Path
from typing import List, Tuple

from support.limits import HANG

HERE = Path(__file__).resolve().parent
ROOT = HERE.parents[2]
COPIED = ("crates", "tools", "crates.txt", "HANDLES", "README.md", "pyproject.toml")


class BadError(Exception):
    """A section of the file is malformed, an old text does not occur once, or the program cannot be built."""


def without_optimisation(text: str) -> str:
    """Returns the text of tools/optimised that builds in less time, and runs fewer steps of the slower program."""
    for old, new in (("word=-O1", "word=-O0"), ('50 * b"step 1000000', '2 * b"step 100000')):
        if old not in text:
            raise BadError("tools/optimised has no '%s'" % old)
        text = text.replace(old, new)
    return text


@dataclass
class PlantedError:
    """An error: its name, what it does, and its edits (file under crates/, old text, new text)."""

    name: str
    text: str = ""
    edits: List[Tuple[str, str, str]] = field(default_factory=list)


def read_errors(path: Path = HERE / "errors") -> List[PlantedError]:
    """Returns the errors of a file, in its order."""
    found: List[PlantedError] = []
    file, old = "", ""
    for line in path.read_text(encoding="utf-8").split("\n"):
        key, _, text = line.partition(" ")
        if key == "error":
            found.append(PlantedError(text))
        elif key == "text:":
            found[-1].text = text
        elif key == "file:":
            file = text
        elif key == "old:":
            old = text
        elif key == "new:":
            found[-1].edits.append((file, old.replace("\\n", "\n"), text.replace("\\n", "\n")))
        elif line and not line.startswith("#"):
            raise BadError("the line '%s' is out of place" % line)
    return found


def plant(error: PlantedError, folder: Path) -> None:
    """Edits the crates in a folder; raises `BadError` unless each old text occurs once."""
    for name, old, new in error.edits:
        path = folder / "crates" / name
        text = path.read_text(encoding="utf-8")
        if text.count(old) != 1:
            raise BadError("%s: '%s' occurs %d times in %s" % (error.name, old, text.count(old), name))
        path.write_text(text.replace(old, new), encoding="utf-8")


def build(error: PlantedError, folder: Path) -> Path:
    """Copies the crates to a new folder, plants the error, and builds the program; returns its path."""
    for name in COPIED:
        if (ROOT / name).is_dir():
            shutil.copytree(ROOT / name, folder / name, ignore=shutil.ignore_patterns("out", "__pycache__"))
        else:
            shutil.copy(ROOT / name, folder / name)
    plant(error, folder)
    builder = folder / "tools" / "optimised"
    builder.write_text(without_optimisation(builder.read_text(encoding="utf-8")), encoding="utf-8")
    done = subprocess.run([folder / "tools" / "program", "planted"], capture_output=True, text=True, timeout=HANG, check=False)
    program = Path(done.stdout.strip() or "none")
    if done.returncode or not program.is_file():
        raise BadError("%s cannot be built: %s" % (error.name, done.stderr[-2000:]))
    return program
