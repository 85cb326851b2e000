"""Reads the source files that the line tables of an ELF file name. A line table can name any file of this machine, and pages are passed
on. Therefore only regular files below the folder of the ELF file, or below a folder of `--sources`, are read. Their names end as those of sources
do, and no part of their path below the folder is hidden. Each is reported on standard error."""
from __future__ import annotations

import os
import stat
from typing import Sequence

from rvlook.escapes import visible
from rvlook.errors import RvlookError, note
from rvlook.image.symbols import files_of

LARGEST = 200000  # bytes of a source that is shown
ENDINGS = (".c", ".h", ".s", ".S", ".asm", ".inc", ".cc", ".cpp", ".cxx", ".C", ".hh", ".hpp", ".hxx", ".rs", ".zig", ".go", ".ads", ".adb", ".d")


def roots_of(folders: Sequence[str]) -> list[str]:
    """Returns the paths of the folders of `--sources`, with symbolic links resolved. Raises RvlookError if one is no folder."""
    for folder in folders:
        if not os.path.isdir(folder):
            raise RvlookError("--sources: no directory '%s'" % folder)
    return [os.path.realpath(folder) for folder in folders]


def source_texts(paths: Sequence[str], wanted: set[str], roots: list[str]) -> dict[str, str]:
    """Returns for each name of a file its text: of the file that most rows of the line tables are of, if more than one has the name.
    `paths` are ELF files, `roots` the folders of `--sources`."""
    texts: dict[str, str] = {}
    for path in paths:
        own_folder = os.path.dirname(os.path.realpath(path))
        allowed = roots + ([own_folder] if own_folder != os.path.sep else [])
        files = files_of(path)
        for name in sorted(set(files) & wanted - set(texts)):
            text = text_of(files[name], allowed)
            if text is not None:
                texts[name] = text
    return texts


def is_shown_below(path: str, root: str) -> bool:
    """Returns whether a path is below a folder, with no hidden file or folder on the way."""
    names = os.path.relpath(path, root).split(os.path.sep)
    return os.path.commonpath([path, root]) == root and not any(name.startswith(".") for name in names)


def text_of(path: str, roots: Sequence[str]) -> str | None:
    """Returns the text of a source, or None if it may not be shown or is too long. It must be a regular file below one of the folders. Its name must
    end as that of a source, and no part of its path may be hidden. Symbolic links are resolved first."""
    path = os.path.realpath(path)
    if not path.endswith(ENDINGS) or not any(is_shown_below(path, root) for root in roots):
        return None
    try:
        with open(os.open(path, os.O_RDONLY | os.O_NONBLOCK | os.O_NOFOLLOW | os.O_CLOEXEC), "rb") as file:
            if not stat.S_ISREG(os.fstat(file.fileno()).st_mode):
                return None
            data = file.read(LARGEST + 1)
    except (OSError, ValueError):
        return None
    if len(data) > LARGEST:
        return None
    note("embedding source file '%s'" % visible(path))
    return data.decode("utf-8", "replace")
