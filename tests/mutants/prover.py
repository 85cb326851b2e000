"""Checks of a mutated crate: what the prover reports, function by function.

A check runs `rattle check --only` with the arguments that `rt` uses, in a scratch copy of the crate. It covers some functions and those that
they call, and uses no kept result. A line of unknown form raises Unknown: the check then counts for nothing.
"""
import importlib.machinery
import importlib.util
import os
import re
import shutil
import subprocess
import sys
import tempfile
from enum import Enum

# How the prover reports that a function is proved, and that it is rejected.
PROVED = re.compile(r"proved( where its callers give what it asks)?(, .*)?")
REFUSED = re.compile(r"not proved(; .*)?|no proof: expected answers in \S+; `search` did not prove .*")
# The other reports, which say nothing about the meaning of a function.
OTHER = re.compile(r"could not tell.*|no proof.*|not stated.*|assumed.*|not assumed.*")
# An error in a proof file that names something which a mutant removed.
OF_NAMES = re.compile(r"is not in scope|has no field|has no `|was not admitted|is no name")


class Reason(Enum):
    """Why a function is rejected."""
    GOAL = "a goal"  # its proof files are in order, and a goal without an answer is not proved
    ANSWER = "an answer"  # a written answer does not fit its goal: this may be so for the meaning of the mutant, or only for its shape
    NAME = "a name"  # a proof file names something which the mutant removed
    NONE = "nothing of its own"


class Unknown(Exception):
    """A check that ended in an unknown way, so that it shows nothing."""


def load_rt():
    """Returns the kit's command `rt` as a module."""
    path = shutil.which("rt")
    if not path:
        raise SystemExit("mutants: the command rt of the Rattle kit is not on the PATH")
    sys.dont_write_bytecode = True
    loader = importlib.machinery.SourceFileLoader("rt", os.path.realpath(path))
    module = importlib.util.module_from_spec(importlib.util.spec_from_loader("rt", loader))
    sys.modules["rt"] = module
    loader.exec_module(module)
    return module


class Answer:
    """The report of a check: whether the crate is proved, the functions by their names, and all lines."""

    def __init__(self, status, text):
        self.lines = text.rstrip("\n").split("\n")
        last = self.lines[-1]
        asked = re.fullmatch(r"only=(\d+) proved=(\d+)", last)
        self.is_proved = status == 0 and bool(asked) and asked[1] == asked[2]
        self.is_refused = status == 1 and bool(asked)
        self.functions = dict(re.findall(r"^fn (\S+): (.*)$", text, re.M))
        if status == 0 and not self.is_proved or self.is_proved and not all(map(PROVED.fullmatch, self.functions.values())):
            raise Unknown(f"a check that succeeds has lines of unknown form: {last[:200]}")
        for name, said in self.functions.items():
            if not any(it.fullmatch(said) for it in (PROVED, REFUSED, OTHER)):
                raise Unknown(f"the report on {name} has no known form: {said[:200]}")
        refused = [it for it in self.lines if re.match(r"\w+ \S+: (?!proved)", it)] or self.errors()
        if self.is_refused and not refused:
            raise Unknown("the crate is not proved, and nothing in it is rejected")

    def errors(self):
        return [it for it in self.lines if re.search(r":\d+:\d+: error", it)]

    def first(self):
        """Returns the first error, or else the first thing that is not proved, or else the first line."""
        unproved = [it for it in self.lines if re.match(r"\w+ \S+: (?!proved)", it)]
        return (self.errors() or unproved or [it for it in self.lines if it] or ["no line"])[0][:300]

    def proves(self, name):
        return bool(PROVED.fullmatch(self.functions[name]))

    def refuses(self, name):
        """Returns whether the function, or a closure in it, is rejected, and not for a function that it calls."""
        within = "{}::fn::{}::".format(*name.rsplit("::", 1))
        return any(REFUSED.fullmatch(said) for it, said in self.functions.items() if it == name or it.startswith(within))

    def goals(self, place):
        """Returns the notes on unproved goals of a function, by the lines of its text; of the crate, if no place is given."""
        notes = re.findall(r"^note: (src/\S+?):(\d+):\d+: it is not proved.*", "\n".join(self.lines), re.M)
        return [it for it in notes if place is None or place.holds(it[0], int(it[1]))]

    def proof_errors(self, place):
        """Returns the errors in the proof files of a function, or all errors, if no place is given."""
        folder = rf"(?:\./)?{re.escape(place.proofs())}/" if place else ""
        return [it for it in self.errors() if re.match(folder, it)]

    def reason(self, place):
        """Returns why a function is rejected. An unproved goal counts only if no answer is in error, since an error takes all answers away."""
        errors = self.proof_errors(place)
        if errors:
            return Reason.NAME if any(OF_NAMES.search(it) for it in errors) else Reason.ANSWER
        is_unproved = self.goals(place) or "`search` did not prove" in self.functions[place.name]
        return Reason.GOAL if is_unproved else Reason.NONE

    def of_names_alone(self, place):
        """Returns whether a function (or the crate, if no place is given) is rejected only because a proof file names what a mutant removed."""
        errors = self.proof_errors(place)
        return bool(errors) and not self.goals(place) and all(OF_NAMES.search(it) for it in errors)


class Prover:
    """Checks one crate in a scratch folder, from a copy of its sources, by so many processes. The crate's own folder is only read."""

    def __init__(self, rt, crate, scratch, jobs):
        self.rt, self.crate, self.scratch, self.jobs = rt, crate, scratch, jobs
        self.sources = f"{scratch}/sources"
        for part in rt.rtlib.PARTS:
            if os.path.isdir(f"{crate.folder}/{part}"):
                shutil.copytree(f"{crate.folder}/{part}", f"{self.sources}/{part}")

    def check(self, texts, names):
        """Checks the functions of these names, and those that they call, with these texts in place of the crate's own. A check that is killed,
        for memory for example, is tried once more, by one process."""
        for jobs in (self.jobs, 1):
            ran = self.run(texts, names, jobs)
            if ran.returncode >= 0:
                break
        else:
            raise Unknown(f"the check was stopped twice by signal {-ran.returncode}")
        if self.rt.rtlib.STALE.search(ran.stdout):
            raise Unknown("the built libraries do not fit one another: build them again by rt check in the crate's folder")
        if ran.returncode not in (0, 1, 3):
            raise Unknown(f"rattle ended with status {ran.returncode}: {ran.stdout.strip()[-200:]}")
        return Answer(ran.returncode, ran.stdout)

    def run(self, texts, names, jobs):
        with tempfile.TemporaryDirectory(dir=self.scratch) as room:
            shutil.copytree(self.sources, room, dirs_exist_ok=True)
            for file, text in texts.items():
                os.makedirs(os.path.dirname(f"{room}/{file}"), exist_ok=True)
                with open(f"{room}/{file}", "w", encoding="utf-8") as it:
                    it.write(text)
            words = [self.rt.rtlib.RATTLE, "check", *self.crate.words(["--jobs", str(jobs)], keeps=False)]
            words += [it for name in names for it in ("--only", name)]
            how = {"cwd": room, "stdin": subprocess.DEVNULL, "stdout": subprocess.PIPE, "stderr": subprocess.STDOUT}
            return subprocess.run([*self.rt.rtlib.guarded(), *words], errors="replace", **how)
