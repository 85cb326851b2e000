#!/usr/bin/env python3
"""Generates the cases of two harts, harts_*.

They have races of every two calls, one on each hart, and the boundaries of hart and sched, with two harts, with one, and with two benches.
They also have private and shared state of the harts, and a host concurrent with a running enclave.

    python3 -m generators.harts                      writes their digests and samples
    python3 -m generators.harts --check              checks that they are up to date
    python3 -m generators.harts --check-with-llvm    checks each instruction word against llvm-mc

Independent of the code under test: the replies are those of the model in monitor_bench.py, and must equal the handwritten
status of each call.
"""
import sys

from generators import case_files
from generators import harts_concurrent_cases
from generators import harts_command_cases
from generators import harts_race_cases
from generators import harts_twin_cases
from generators.monitor_case import Case


def main(arguments):
    for topic in (harts_race_cases, harts_command_cases, harts_twin_cases, harts_concurrent_cases):
        topic.parts()
    return case_files.main(arguments, Case.all, Case.words, __doc__)


if __name__ == "__main__":
    sys.exit(main(sys.argv[1:]))
