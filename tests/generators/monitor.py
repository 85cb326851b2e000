#!/usr/bin/env python3
"""Generates the cases of the monitored profile, monitor_*. They have every refusal of every call, at its boundary and together with the next
one. They also have the PMP entries, world switches, timer interrupts, redirected traps, the debugger commands, and images.

    python3 -m generators.monitor                      writes their digests and samples
    python3 -m generators.monitor --check              checks that they are up to date
    python3 -m generators.monitor --check-with-llvm    checks each instruction word against llvm-mc

Independent of the code under test: the replies are those of the model in monitor_bench.py, and must equal the handwritten
status of each call.
"""
import sys

from generators import case_files
from generators import monitor_bench_cases
from generators import monitor_call_cases
from generators import monitor_create_cases
from generators import monitor_switch_cases
from generators.monitor_case import Case


def main(arguments):
    for topic in (monitor_create_cases, monitor_call_cases, monitor_switch_cases, monitor_bench_cases):
        topic.parts()
    return case_files.main(arguments, Case.all, Case.words, __doc__)


if __name__ == "__main__":
    sys.exit(main(sys.argv[1:]))
