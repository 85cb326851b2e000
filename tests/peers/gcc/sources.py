"""The sources of GCC's execution tests: the tarball of Debian's gcc-12-source, or a folder that has them."""
from __future__ import annotations

import re
import tarfile
from dataclasses import dataclass
from pathlib import Path
from typing import List, Optional, Tuple

TARBALLS = "/usr/src/gcc-12"
INSIDE = "gcc/testsuite/gcc.c-torture/execute"
# Effective targets that this machine or this way to run lacks. GCC's own list is in gcc/testsuite/lib/target-supports.exp.
LACKING = {"trampolines": "trampolines need fence.i", "fileio": "needs files", "signal": "needs signals", "mmap": "needs mmap",
           "pthread": "needs threads", "int128": "needs 128-bit integers", "alloca": "", "label_values": "", "indirect_jumps": ""}
DIRECTIVE = re.compile(r'\{\s*(dg-[a-z-]+)\s+(?:\{\s*)?("[^"]*"|[\w.+-]+)(?:\s*\}(?=\s*\}))?((?:\s+\{[^}]*\})?)')


@dataclass(frozen=True)
class Source:
    """A test: its path, the options that it asks for, and why it is left out, or an empty text."""

    path: Path
    options: Tuple[str, ...]
    left_out: str

    @property
    def name(self) -> str:
        """Returns the name of the test, such as 20000112-1 or ieee/rbug."""
        return self.path.stem if self.path.parent.name == "execute" else "%s/%s" % (self.path.parent.name, self.path.stem)


def tarball() -> Optional[Path]:
    """Returns the tarball of the sources of Debian's package, if it is installed."""
    found = sorted(Path(TARBALLS).glob("gcc-*.tar.xz")) if Path(TARBALLS).is_dir() else []
    return found[0] if found else None


def unpack(archive: Path, folder: Path) -> Path:
    """Unpacks the tests to a folder, and returns the folder `execute`."""
    with tarfile.open(archive) as it:
        for member in it:
            if "/%s/" % INSIDE in "/" + member.name and member.isfile():
                it.extract(member, folder)
    return next(folder.glob("*/" + INSIDE))


def sources_in(execute: Path) -> List[Source]:
    """Returns the tests of the folder `execute` and of its folder `ieee`. Those of `builtins` replace functions of a C library."""
    return [source_of(path) for path in sorted([*execute.glob("*.c"), *execute.glob("ieee/*.c")])]


def source_of(path: Path) -> Source:
    """Returns a test, with the options of its directives."""
    text = path.read_text(encoding="latin-1")
    options: List[str] = []
    left_out = ""
    for name, value, selector in DIRECTIVE.findall(text):
        if name in ("dg-options", "dg-additional-options") and not selector.strip():
            options += value.strip('"').split()
        if name == "dg-require-effective-target":
            left_out = left_out or LACKING.get(value, "")
    return Source(path, tuple(options), left_out)
