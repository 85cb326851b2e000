"""The subcommand `new`: makes a folder for an enclave of one's own, outside the clone."""
from __future__ import annotations

import os
import re
import shutil
import sys
from argparse import Namespace

from rvlook.errors import RvlookError, Unfinished
from rvlook.output.files import create_file
from rvlook.output.printer import Printer

PACKAGE = os.path.dirname(os.path.dirname(os.path.realpath(__file__)))
EXAMPLES = ("../../examples", "../../../../share/rvbench/examples")  # the folders of examples of a clone, and of an installation
TEMPLATES = {"Makefile": "Makefile", "ci": "ci", "pytest.ini": "pytest.ini", "tasks.json": os.path.join(".vscode", "tasks.json"),
             "test_enclave.py": os.path.join("tests", "test_enclave.py")}  # the path in a new folder of each template in examples/new
SPECIAL = re.compile(r"""["'`$\\#\x00-\x1f\x7f]""")  # characters that make or a shell reads in another way
START = os.path.join("enclaves", "hello")  # the example whose sources a new folder gets


def examples() -> str:
    """Returns the folder of the examples, with `build`. Raises Unfinished if the folder does not exist."""
    for example in EXAMPLES:
        folder = os.path.realpath(os.path.join(PACKAGE, example))
        if os.path.exists(os.path.join(folder, "build")):
            return folder
    raise Unfinished("cannot find the examples, with which a new folder begins; run rvlook from a clone, or install it with ./install")


def perform(arguments: Namespace) -> None:
    """Makes a folder: the sources of a first enclave, tests, a Makefile, tasks for an editor, and a script for a CI job.

    Writes no file that exists, and follows no link. Raises RvlookError or Unfinished; then nothing of the folder is left."""
    folder, source = arguments.folder, examples()
    commands = {"@BUILD@": quotable(os.path.join(source, "build")), "@RVLOOK@": quotable(rvlook()),
                "@PYTHON@": quotable(sys.executable), "@PACKAGE@": quotable(os.path.dirname(PACKAGE))}
    if not folder:
        raise RvlookError("the name of the folder is empty; name a new folder")
    if os.path.lexists(folder) and (not os.path.isdir(folder) or os.listdir(folder)):
        raise RvlookError("'%s' exists and is not empty; name a new folder" % folder)
    was_there, has_failed = os.path.isdir(folder), False
    try:
        for target, template in files_of(source).items():
            os.makedirs(os.path.join(folder, os.path.dirname(target)), exist_ok=True)
            fill(template, os.path.join(folder, target), commands)
    except (OSError, ValueError) as fault:  # ValueError: a NUL in the name
        has_failed = True
        raise Unfinished("cannot write '%s': %s" % (folder, getattr(fault, "strerror", None) or fault)) from None
    finally:
        if has_failed:
            remove(folder, keeps_folder=was_there)
    Printer().line("made %s; next: cd %s && make run" % (folder, folder))


def files_of(source: str) -> dict[str, str]:
    """Returns for each file of a new folder its template in the examples."""
    start = os.path.join(source, START)
    paths = {name: os.path.join(start, name) for name in sorted(os.listdir(start)) if name.endswith(".c")}
    return {**paths, **{target: os.path.join(source, "new", name) for name, target in TEMPLATES.items()}}


def fill(template: str, target: str, commands: dict[str, str]) -> None:
    """Writes a template with the paths of the tools to a new file, with the mode of the template."""
    with open(template, encoding="utf-8") as file:
        text = file.read()
    for name, command in commands.items():
        text = text.replace(name, command)
    create_file(target, os.fsencode(text))
    shutil.copymode(template, target)


def remove(folder: str, keeps_folder: bool) -> None:
    """Removes all that is in a folder, which was new or empty; removes the folder too unless `keeps_folder`."""
    for entry in os.listdir(folder) if os.path.isdir(folder) else ():
        path = os.path.join(folder, entry)
        if os.path.isdir(path) and not os.path.islink(path):
            shutil.rmtree(path, ignore_errors=True)
        else:
            os.unlink(path)
    if not keeps_folder and os.path.isdir(folder):
        os.rmdir(folder)


def quotable(path: str) -> str:
    """Returns a path that a Makefile, its shell and a script may have in quotes. Raises Unfinished for one with another meaning there."""
    special = SPECIAL.search(path)
    if special:
        raise Unfinished("cannot write the path '%s' in a Makefile, because of the character '%s'; move the clone or the installation"
                         % (path, special[0]))
    return path


def rvlook() -> str:
    """Returns the path of the command `rvlook`: that of the clone, of the installation, or the name."""
    paths = (os.path.realpath(os.path.join(PACKAGE, path)) for path in ("../../rvlook", "../../../../bin/rvlook"))
    return next((path for path in paths if os.path.isfile(path)), shutil.which("rvlook") or sys.argv[0])
