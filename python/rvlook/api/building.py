"""Builds a folder of sources for a test, and leaves the folder as it is."""
from __future__ import annotations

import os
import shutil
import subprocess
import tempfile
from typing import Union

from rvlook.cli.new import examples
from rvlook.errors import RvlookError

PathLike = Union[str, "os.PathLike[str]"]
LEFT_OUT = shutil.ignore_patterns(".*", "__pycache__", "tests", "*.elf")  # the entries of a folder that are not copied


def build(folder: PathLike, target: PathLike, monitor: Union[PathLike, None] = None) -> str:
    """Builds a folder with examples/build (docs/AUTHORS.md, Build), and returns the path of the ELF file, `target`. `monitor` is the folder of a
    monitor of your own to build in. Sources may include files of sibling folders. Raises RvlookError with the messages of the compiler."""
    source = os.path.realpath(folder)
    with tempfile.TemporaryDirectory() as copies:
        options = ["--with-monitor", os.path.realpath(monitor)] if monitor is not None else []
        try:
            command = [os.path.join(examples(), "build"), *options, copy_of(source, copies), os.fspath(target)]
            process = subprocess.run(command, capture_output=True, text=True, errors="replace", check=False)
        except OSError as fault:
            raise RvlookError("cannot build '%s': %s" % (folder, fault)) from None
    if process.returncode:
        raise RvlookError("cannot build '%s': %s" % (folder, process.stderr.strip()))
    return os.fspath(target)


def copy_of(source: str, copies: str) -> str:
    """Copies a folder into another one, with a link to each of its siblings; returns the path of the copy. Raises OSError if a file cannot be
    copied."""
    parent, name = os.path.split(source)
    for entry in os.listdir(parent):
        if entry != name:
            os.symlink(os.path.join(parent, entry), os.path.join(copies, entry))
    copy = os.path.join(copies, name)
    shutil.copytree(source, copy, ignore=LEFT_OUT)
    return copy
