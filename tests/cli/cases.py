"""The command-line cases. Handwritten topics are files in `tests/cases`. `tests/generators` writes the other topics, each with a line in
`tests/cases/digests`. Examples with an input and an output are cases too."""
import fcntl
import hashlib
import os
import re
import subprocess
import sys
from functools import lru_cache
from pathlib import Path

from models.case_format import Case, read
from models.example_arguments import arguments_of

TESTS = Path(__file__).resolve().parents[1]
CASES = TESTS / "cases"
EXAMPLES = TESTS.parent / "examples"
NAMES_A_HART = re.compile(rb"^[ \t]*(hart|sched)\b", re.M)


class Stale(Exception):
    """A generator wrote cases whose digest differs from the stored one."""


def written_by_hand():
    """Returns the names of the handwritten topics."""
    return {it.name[:-len(".cases")] for it in CASES.glob("*.cases")}


def generated():
    """Returns the SHA-256 and the generator of each generated topic."""
    lines = (CASES / "digests").read_text(encoding="ascii").splitlines()
    return {line.split()[0]: tuple(line.split()[2:]) for line in lines}


def generate(folder):
    """Writes the generated topics into the folder, once for all processes that share it."""
    folder.mkdir(parents=True, exist_ok=True)
    with open(folder / "lock", "w", encoding="ascii") as lock:
        fcntl.flock(lock, fcntl.LOCK_EX)
        missing = [it for it in sorted({script for _, script in generated().values()}) if not (folder / it).exists()]
        environment = {**os.environ, "PYTHONPATH": str(TESTS), "PYTHONDONTWRITEBYTECODE": "1"}
        running = [subprocess.Popen([sys.executable, "-m", "generators." + it[:-len(".py")], "--into", str(folder)], env=environment)
                   for it in missing]
        for script, status in zip(missing, [it.wait() for it in running]):
            if status:
                raise Stale("generators.%s ends with status %d" % (script, status))
            (folder / script).touch()


def text_of(topic):
    """Returns the text of a topic."""
    digest, script = generated().get(topic, (None, None))
    if digest is None:
        return (CASES / (topic + ".cases")).read_bytes().decode("ascii")
    folder = Path(os.environ["MADE_CASES"])
    generate(folder)
    text = (folder / (topic + ".cases")).read_bytes()
    if hashlib.sha256(text).hexdigest() != digest:
        raise Stale("%s of generators/%s has another digest than tests/cases/digests" % (topic, script))
    return text.decode("ascii")


@lru_cache(maxsize=None)
def cases_of(topic):
    """Returns the cases of a topic by name, TOPIC/CASE."""
    return {"%s/%s" % (topic, it.name): it for it in read(text_of(topic))}


def case(name):
    """Returns the case with the name TOPIC/CASE."""
    return cases_of(name.split("/")[0])[name]


def example_input(folder):
    """Returns the input of an example: `stdin`, or the image followed by the script."""
    stdin = folder / "stdin"
    return stdin.read_bytes() if stdin.exists() else (folder / "image").read_bytes() + (folder / "script").read_bytes()


def examples():
    """Returns the examples with an input and an output as cases."""
    found = {}
    for stdout in sorted(EXAMPLES.glob("**/stdout")):
        folder = stdout.parent
        words = [it.encode() for it in arguments_of(folder)]
        name = "examples/%s" % folder.relative_to(EXAMPLES)
        found[name] = Case(name, words, example_input(folder), stdout.read_bytes(), 0)
    return found


def all_cases():
    """Returns all cases by name."""
    found = examples()
    for topic in sorted(written_by_hand() | set(generated())):
        found.update(cases_of(topic))
    return found


def with_second_hart(cases):
    """Returns the monitored cases that name no hart, with a second hart that does nothing; no reply changes."""
    found = {}
    for name, it in cases.items():
        is_monitored = it.words[:1] == [b"twin"] or it.words[:1] == [b"run"] and b"--monitor" in it.words
        names_harts = any(word.startswith(b"--harts") for word in it.words) or NAMES_A_HART.search(it.stdin)
        if is_monitored and it.status < 2 and not names_harts:
            words = [it.words[0], b"--harts", b"2", *it.words[1:]]
            found[name] = Case(it.name, words, it.stdin, it.stdout, it.status)
    return found
