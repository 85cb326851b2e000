"""The command-line cases: the program writes exactly the expected bytes and exits with the expected status."""
import subprocess

import pytest

from cli.cases import all_cases, with_second_hart
from support.limits import HANG

CASES = all_cases()
CONCURRENT = with_second_hart(CASES)


def check(program, case):
    done = subprocess.run([program, *case.words], input=case.stdin, stdout=subprocess.PIPE, timeout=HANG, check=False)
    if done.stdout != case.stdout:
        pairs = enumerate(zip(done.stdout, case.stdout))
        at = next((i for i, (one, other) in pairs if one != other), min(len(done.stdout), len(case.stdout)))
        line = case.stdout.count(b"\n", 0, at) + 1
        pytest.fail("output differs first at byte %d, line %d" % (at + 1, line), pytrace=False)
    assert done.returncode == case.status


@pytest.mark.parametrize("name", CASES)
def test_case(bench, name):
    check(bench, CASES[name])


@pytest.mark.parametrize("name", CONCURRENT)
def test_case_with_a_second_hart(bench, name):
    check(bench, CONCURRENT[name])
