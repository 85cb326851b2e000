#!/usr/bin/env python3
"""Generates the cases of two benches that differ in one enclave, twin_*. They have every command and every monitor call, and commands that are not
blind at each boundary of a region. They also have the ends of a run, lines, images, and worked examples with handwritten output.

    python3 -m generators.twin                      writes their digests and samples
    python3 -m generators.twin --check              checks that they are up to date
    python3 -m generators.twin --check-with-llvm    checks each instruction word against llvm-mc

Independent of the code under test: the replies are those of the model in monitor_bench.py.
"""
import sys

from generators import case_files
from generators import twin_call_cases
from generators import twin_command_cases
from generators.monitor_case import Case


def main(arguments):
    for topic in (twin_command_cases, twin_call_cases):
        topic.parts()
    return case_files.main(arguments, Case.all, Case.words, __doc__)


if __name__ == "__main__":
    sys.exit(main(sys.argv[1:]))
