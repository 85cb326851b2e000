"""Failing devices: an input that is a directory or closed, and an output that is full or closed."""
import os
import subprocess

import pytest

from cli.cases import case
from support.limits import HANG

FAULT, REFUSED = 1, 2
SUBCOMMANDS = ("", "run", "twin", "asm", "dis")
LOOP = {"asm": "asm/loop", "dis": "dis/loop", "twin": "twin_examples/destroy_clears"}


def run(program, words, stdin=subprocess.DEVNULL, stdout=subprocess.PIPE, data=None, closes=()):
    """Runs the program with these standard streams; `closes` names descriptors that are closed in it."""
    def close():
        for number in closes:
            os.close(number)
    streams = {"input": data} if data is not None else {"stdin": stdin}
    return subprocess.run([program, *words], **streams, stdout=stdout, stderr=subprocess.PIPE, timeout=HANG, check=False,
                          preexec_fn=close if closes else None)


def input_of(subcommand):
    return case(LOOP[subcommand]).stdin if subcommand in LOOP else b"--\nreg 0\n"


@pytest.fixture
def full():
    with open("/dev/full", "wb") as file:
        yield file


@pytest.fixture
def folder():
    descriptor = os.open("/", os.O_RDONLY)
    yield descriptor
    os.close(descriptor)


@pytest.mark.parametrize("subcommand", SUBCOMMANDS)
def test_an_input_that_is_a_folder_cannot_be_read(bench, folder, subcommand):
    done = run(bench, subcommand.split(), stdin=folder)
    assert (done.stdout, done.returncode) == (b"rvbench: read\n", FAULT)


@pytest.mark.parametrize("subcommand", SUBCOMMANDS)
def test_an_input_that_is_closed_cannot_be_read(bench, subcommand):
    done = run(bench, subcommand.split(), closes=[0])
    assert (done.stdout, done.returncode) == (b"rvbench: read\n", FAULT)


@pytest.mark.parametrize("subcommand", SUBCOMMANDS)
def test_an_output_that_is_full_or_closed_ends_the_job(bench, full, subcommand):
    data = input_of(subcommand)
    for done in (run(bench, subcommand.split(), stdout=full, data=data), run(bench, subcommand.split(), data=data, closes=[1])):
        assert (done.stderr, done.returncode) == (b"", FAULT)


def test_two_harts_without_the_monitor_are_refused_before_the_input_is_read(bench, folder):
    for done in (run(bench, ["run", "--harts", "2"], stdin=folder), run(bench, ["run", "--harts", "2"], closes=[0])):
        assert (done.stdout, done.returncode) == (b"rvbench: command line\n", REFUSED)


@pytest.mark.parametrize("words", ["--help", "run --help", "help"])
def test_help_that_cannot_be_written_has_its_own_status(bench, full, words):
    for done in (run(bench, words.split(), stdout=full), run(bench, words.split(), closes=[1])):
        assert (done.stderr, done.returncode) == (b"", FAULT)


def test_a_line_that_cannot_be_written_does_not_change_the_status(bench, full):
    assert run(bench, ["walk"], stdout=full).returncode == REFUSED
    assert run(bench, [], stdout=full, data=b"0\n").returncode == FAULT
