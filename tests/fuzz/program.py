#!/usr/bin/env python3
"""Fuzzes the program, and compares its output with the reference models: image texts, scripts, ELF files, assembler texts, images to disassemble,
and scripts of one and of two monitored benches.

    python3 -m fuzz.program PROGRAM [--seed S] [--count N] [--kind K..] [--most D]    N inputs of all kinds in turn, or of the kinds K

The inputs of a seed are always the same. If the output differs, the input is minimized and printed as a case in the format of case_format.py
with the expected output, followed by the actual output. After D differences the fuzzer ends. The last line has the counts.
"""
import argparse
import collections
import os
import random
import re
import subprocess
import sys

from models import case_format
from models import fuzz_model
from fuzz.inputs import KINDS, LONG, drawn
from support.limits import HANG

TRIES = 2000


def written(program, words, data):
    """Runs the program; returns its output and its status, which is not a number if it did not end."""
    try:
        ran = subprocess.run([program, *words], input=data, stdout=subprocess.PIPE, timeout=HANG)
    except subprocess.TimeoutExpired:
        return b"", "none after %d seconds" % HANG
    return ran.stdout, ran.returncode


def differs(program, words, data):
    return not LONG.search(data) and written(program, words, data) != fuzz_model.answer(words, data)


def made_small(parts, is_needed):
    """Minimizes the parts of a difference: removes halves first, then smaller and smaller parts, at each position; with a limit of
    tries."""
    size, tries = 1 << len(parts).bit_length(), 0
    while size and tries < TRIES:
        at = 0
        while at < len(parts):
            rest, tries = parts[:at] + parts[at + size:], tries + 1
            if is_needed(b"".join(rest)):
                parts = rest
            else:
                at += 1 if size <= 16 else size
        size //= 2
    return b"".join(parts)


def smallest(program, words, data):
    """Minimizes an input that differs: removes lines, then bytes."""
    def is_needed(rest):
        return differs(program, words, rest)

    before = None
    while before != data:
        before = data
        data = made_small(re.findall(rb"[^\n]*\n|[^\n]+", data), is_needed)
        data = made_small([data[at:at + 1] for at in range(len(data))], is_needed)
    return data


def report(program, name, words, data):
    """Returns the difference as a case, and the actual output."""
    data = smallest(program, words, data)
    (right, status), (output, its_status) = fuzz_model.answer(words, data), written(program, words, data)
    case = case_format.Case(name, [word.encode() for word in words], data, right, status)
    print(case_format.written([case], "The program differs from the model."), end="")
    print("# status %s:\n" % its_status + "".join("# " + line for line in case_format.lines_of(">", output)), flush=True)


def main(arguments):
    parser = argparse.ArgumentParser(usage=__doc__)
    parser.add_argument("program")
    for option, default in (("--seed", 1), ("--count", 700), ("--most", 3)):
        parser.add_argument(option, type=int, default=default)
    parser.add_argument("--kind", nargs="+", choices=KINDS, default=list(KINDS))
    arguments = parser.parse_args(arguments)
    program, counts, failed = os.path.realpath(arguments.program), collections.Counter(), 0
    for i in range(arguments.count):
        kind = arguments.kind[i % len(arguments.kind)]
        words, data = drawn(random.Random("%d/%d/%s" % (arguments.seed, i, kind)), kind)
        right, status = fuzz_model.answer(words, data)
        counts["%s %s" % (kind, "refused" if status else "done")] += 1
        if (right, status) != written(program, words, data):
            failed += 1
            report(program, "seed_%d_%s_%d" % (arguments.seed, kind, i), words, data)
        if failed == arguments.most:
            break
    print("; ".join("%s %d" % it for it in sorted(counts.items())))
    print("%d passed, %d failed" % (sum(counts.values()) - failed, failed))
    return 1 if failed else 0


if __name__ == "__main__":
    sys.exit(main(sys.argv[1:]))
