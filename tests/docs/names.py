#!/usr/bin/env python3
"""python3 -m docs.names --check: reports public definitions that share a name without a reason in REASONS, and reasons for names that are used
once. Definitions of caches (specs/Cache) are left out, since no manual has them.
"""
import collections
import importlib.machinery
import importlib.util
import os
import sys

ROOT = os.path.dirname(os.path.dirname(os.path.dirname(os.path.abspath(__file__))))

LAYER = "the same theorem or term for the machine, for commands or for scripts, each over the values of its own crate"
REASONS = {
    **dict.fromkeys(("FastSteps", "IsFast", "ReturnLaw", "RunningLaw"), LAYER),
    **dict.fromkeys(("can_scramble", "scrambled"), LAYER),
    "RunsOutOfMemory": "memory is exhausted: in a text of assembly, and in an image",
    "Stepped": "the result of a step: of a hart with its memory, and of any target of a debugger",
    "at_reset": "the reset of a hart, and that of its control and status registers",
}


def twice():
    """Returns the names of more than one public definition, with the files."""
    loader = importlib.machinery.SourceFileLoader("definitions", os.path.join(ROOT, "tools", "definitions"))
    module = importlib.util.module_from_spec(importlib.util.spec_from_loader("definitions", loader))
    loader.exec_module(module)
    found = collections.defaultdict(list)
    for path, _, names in module.files():
        if "/Cache/" not in path:
            for name in names:
                found[name].append(path)
    return {name: paths for name, paths in found.items() if len(paths) > 1}


def main(_arguments):
    found = twice()
    errors = [f"{name} is defined in {' and '.join(paths)}" for name, paths in found.items() if name not in REASONS]
    errors += [f"{name} is defined once, but has a reason here" for name in REASONS if name not in found]
    print("\n".join(errors))
    return 1 if errors else 0


if __name__ == "__main__":
    sys.exit(main(sys.argv[1:]))
