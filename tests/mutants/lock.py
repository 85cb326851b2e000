"""`mutants.lock`: the texts over which the prover last rejected the mutants.

It has a line for each crate: its name, the number of its mutants, and a digest. A line below it names each mutant that was rejected by its shape, which
shows nothing about its meaning (trial.py). The digest covers the sources, definitions and proofs of the
crate and of the crates below it, and their lines in crates.txt. It also covers the mutants, the scripts that judge them, and the kit. If the
digest is equal, these mutants were rejected over exactly these texts.
"""
import hashlib
import os
import re
import subprocess
from typing import NamedTuple

from mutants import read as read_mutants

HERE = os.path.dirname(os.path.realpath(__file__))
FILE = f"{HERE}/mutants.lock"
# The scripts that judge a mutant.
JUDGES = ("copies.py", "mutants.py", "prover.py", "trial.py")
# The gate tries one in PARTS mutants of the crates that did not change.
PARTS = 12
TITLE = "# crate, mutants, digest of all that the result depends on; mutants rejected by their shape. Written by tests/mutants/run --all\n"
BY_SHAPE = "  by shape: "


class Unreadable(Exception):
    """Why `mutants.lock` cannot be read."""


class Tried(NamedTuple):
    """The entry of a crate: the digest, and the names of the mutants that were rejected by their shape."""
    digest: str
    by_shape: tuple = ()


def kit_line():
    """Returns the identity of the Rattle kit."""
    return subprocess.run(["rt", "version"], capture_output=True, text=True, check=True).stdout.strip()


def digest(crate, kit):
    """Returns the digest of all that the result of the crate's mutants depends on."""
    of = hashlib.sha256(kit.encode())
    for it in [crate, *sorted(crate.below(), key=lambda it: it.name)]:
        libraries = sorted([*it.of_kit, *(dep.name for dep in it.deps)])
        of.update(f"\0{it.name}: {' '.join(libraries)}".encode())
        for part in ("src", "specs", "proofs"):
            add_files(of, f"{it.folder}/{part}")
    for mutant in sorted(read_mutants(crate.name)[0], key=lambda it: it.name):
        of.update(f"\0{mutant!r}".encode())
    for it in JUDGES:
        add_file(of, HERE, it)
    return of.hexdigest()


def add_files(of, folder):
    for at, folders, names in os.walk(folder):
        folders.sort()
        for name in sorted(names):
            add_file(of, folder, os.path.relpath(f"{at}/{name}", folder))


def add_file(of, folder, name):
    with open(f"{folder}/{name}", "rb") as it:
        text = it.read()
    of.update(f"\0{name}\0{len(text)}\0".encode())
    of.update(text)


def read():
    """Returns the entry of each crate that the lock file has."""
    found, crate = {}, None
    if not os.path.exists(FILE):
        return found
    with open(FILE, encoding="utf-8") as it:
        lines = [line for line in it.read().split("\n") if line and not line.startswith("#")]
    for line in lines:
        match = re.fullmatch(r"(\w+) (\d+) ([0-9a-f]{64})", line)
        if crate and re.fullmatch(rf"{BY_SHAPE}[\w-]+", line):
            found[crate] = Tried(found[crate].digest, (*found[crate].by_shape, line[len(BY_SHAPE):]))
        elif not match or match[1] in found:
            raise Unreadable(f"the line '{line}' is no crate with its count and digest, no mutant of one, or a second line of a crate")
        else:
            crate = match[1]
            found[crate] = Tried(match[3])
    return found


def write(found):
    """Writes the entry of each crate."""
    with open(FILE, "w", encoding="utf-8") as it:
        it.write(TITLE)
        for crate, tried in sorted(found.items()):
            it.write(f"{crate} {len(read_mutants(crate)[0])} {tried.digest}\n")
            it.writelines(f"{BY_SHAPE}{name}\n" for name in tried.by_shape)


def sample(mutants, commit):
    """Returns one in PARTS of these mutants: neighbours, so that few crates are proved for them. The hash of the commit chooses which."""
    part = int(commit, 16) % PARTS
    first, end = (len(mutants) * it // PARTS for it in (part, part + 1))
    return mutants[first:end]


def commit(root):
    """Returns the hash of the commit that is checked out."""
    ran = subprocess.run(["git", "rev-parse", "HEAD"], cwd=root, capture_output=True, text=True)
    return ran.stdout.strip() if ran.returncode == 0 else hashlib.sha1(b"no commit").hexdigest()
