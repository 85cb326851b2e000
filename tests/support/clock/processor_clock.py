"""Counts processor time for `verify`: its limits, and those of its questions to z3, do not depend on other work of the machine."""
import importlib.util
import os
import sys
import time

OUT_OF_TIME = ("timeout", "canceled")  # what z3 says of a question that it gave up for time
NEARLY = .9  # of a limit of processor time is the limit: a question is asked again, with twice the time, until one took so much
ENVIRONMENT = {"PYTHONPATH": os.pathsep.join(filter(None, [os.path.dirname(os.path.abspath(__file__)), os.environ.get("PYTHONPATH")]))}


def environment_with(path):
    """Returns the environment of a Python process that takes modules from a folder and counts processor time."""
    return {"PYTHONPATH": os.pathsep.join([str(path), ENVIRONMENT["PYTHONPATH"]])}


def limit_questions(z3, replace=setattr):
    """Makes the time limit of a solver one of processor time. `replace` sets an attribute, as `setattr` does."""
    set_option, check = z3.Solver.set, z3.Solver.check

    def set_limit(self, *words, **options):
        if words[:1] == ("timeout",):
            self.milliseconds = words[1]
        set_option(self, *words, **options)

    def check_within_the_limit(self, *conditions):
        milliseconds = limit = getattr(self, "milliseconds", sys.maxsize)
        while True:
            began = time.process_time()
            answer = check(self, *conditions)
            if answer != z3.unknown or self.reason_unknown() not in OUT_OF_TIME or time.process_time() - began >= NEARLY * limit / 1000:
                return answer
            milliseconds *= 2
            set_option(self, "timeout", milliseconds)

    replace(z3.Solver, "set", set_limit)
    replace(z3.Solver, "check", check_within_the_limit)


class LimitedZ3:
    """Finds the package z3 when it is imported, and limits its questions."""

    def find_spec(self, name, path=None, target=None):
        if name != "z3":
            return None
        sys.meta_path.remove(self)
        spec = importlib.util.find_spec(name)
        if spec:
            execute = spec.loader.exec_module
            spec.loader.exec_module = lambda module: (execute(module), limit_questions(module))
        return spec


def install():
    """Replaces the clocks of this process."""
    time.perf_counter = time.process_time
    sys.meta_path.insert(0, LimitedZ3())
