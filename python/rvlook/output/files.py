"""Writes files that replace others: a new file in the same folder that is renamed, so that no link is followed and no half of a file is left."""
from __future__ import annotations

import os
from contextlib import contextmanager
from typing import Callable, Iterable, Iterator

from rvlook.errors import Unfinished

WRITTEN = os.O_WRONLY | os.O_CREAT | os.O_EXCL | os.O_NOFOLLOW | os.O_CLOEXEC  # opens only a file that does not exist yet
TRIES = 100  # random names that are tried for a temporary file


@contextmanager
def replacing(path: str) -> Iterator[tuple[str, int]]:
    """Gives the path and the descriptor of a new file, which replaces the one at `path` after the body. If `path` is a symbolic link, the link is
    replaced and its target stays as it is. If the body raises, the file at `path` stays as it is. Raises OSError if the new file cannot be made or
    renamed."""
    temporary, file = new_beside(path)
    try:
        yield temporary, file
        os.replace(temporary, path)
    except BaseException:
        os.unlink(temporary)
        raise


def replace_file(path: str, data: bytes) -> None:
    """Makes the file at `path` have these bytes, and the mode of a new file. Raises OSError if the file cannot be written."""
    with replacing(path) as (_, file), open(file, "wb") as stream:
        stream.write(data)


def write_files(folder: str, files: Iterable[tuple[str, bytes]]) -> None:
    """Makes a folder, and files in it, each with a name and bytes. Raises Unfinished if a file cannot be written."""
    try:
        os.makedirs(folder, exist_ok=True)
        for name, data in files:
            replace_file(os.path.join(folder, name), data)
    except OSError as error:
        raise Unfinished("cannot write to '%s': %s" % (folder, error.strerror)) from None


def replace_by(path: str, write: Callable[[str], object]) -> None:
    """Replaces the file at `path` by one that `write` writes, which gets the path of a new file. Raises OSError if the file cannot be written."""
    with replacing(path) as (temporary, file):
        os.close(file)
        write(temporary)


def new_beside(path: str) -> tuple[str, int]:
    """Makes a new file in the folder of `path`; returns its path and its descriptor. Raises OSError if the folder cannot be written."""
    folder = os.path.dirname(path) or "."
    for _ in range(TRIES):
        temporary = os.path.join(folder, ".rvlook." + os.urandom(6).hex())
        try:
            return temporary, os.open(temporary, WRITTEN, 0o666)
        except FileExistsError:
            continue
    raise FileExistsError(0, "no free name for a temporary file", folder)


def create_file(path: str, data: bytes) -> None:
    """Writes a file that does not exist yet. Raises OSError; FileExistsError if there is a file or a link at `path`."""
    with open(os.open(path, WRITTEN, 0o666), "wb") as stream:
        stream.write(data)
