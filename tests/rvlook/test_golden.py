"""Golden files: each file of `golden` has a command line and its exact output.

The command runs in the root of the repository. A line `status N` has its exit status unless that is 0, and a line `joined FILE..` names files
that are its standard input. Then come the parts `input`, `stdout` and `stderr`, each after a line `--- NAME`. `pytest --update-golden` rewrites
the output; review the changes before you commit them.
"""
import re
from importlib.util import find_spec
from pathlib import Path

import pytest

from conftest import ROOT

GOLDEN = Path(__file__).with_name("golden")
PART = re.compile(r"^--- (input|stdout|stderr)\n", re.M)
FOR_ALL = re.compile("^for all secrets: .*\n", re.M)  # lines that need z3
NO_SYMBOLS = "rvlook: warning: pyelftools is not installed"


def read(path):
    """The command line of a golden file, its status, the files that are joined, and its parts."""
    head, *parts = PART.split(path.read_text(encoding="utf-8"))
    command, *rest = head.splitlines()
    options = dict(line.split(" ", 1) for line in rest)
    return command.split()[2:], int(options.get("status", 0)), options.get("joined", "").split(), dict(zip(parts[::2], parts[1::2]))


def text_of(words, status, joined, parts):
    """The text of a golden file."""
    lines = ["$ rvlook " + " ".join(words), *(["status %d" % status] if status else []), *(["joined " + " ".join(joined)] if joined else [])]
    return "\n".join([*lines, ""]) + "".join("--- %s\n%s" % (name, parts[name]) for name in ("input", "stdout", "stderr") if parts.get(name))


@pytest.mark.parametrize("path", sorted(GOLDEN.iterdir()), ids=lambda it: it.name)
def test_golden(rvlook, request, path):
    words, status, joined, parts = read(path)
    stdin = parts.get("input", "") + "".join((ROOT / it).read_text(encoding="utf-8") for it in joined)
    done = rvlook(*words, stdin=stdin)
    errors = "".join(line for line in done.stderr.splitlines(True) if not line.startswith(NO_SYMBOLS))
    if request.config.getoption("--update-golden"):
        found = {**parts, "stdout": done.stdout, "stderr": errors}
        path.write_text(text_of(words, done.returncode, joined, found), encoding="utf-8")
    expected = parts.get("stdout", "")
    assert done.stdout == (expected if find_spec("z3") else FOR_ALL.sub("", expected))
    assert errors == parts.get("stderr", "")
    assert done.returncode == status
