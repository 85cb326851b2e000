"""Endless and large inputs end with one line, soon and in little memory."""
import os
import subprocess
import time

import pytest
from support.hostile import ROOT, check, run

LITTLE = 400 << 20  # bytes
SUM = "examples/programs/sum/stdin"


@pytest.fixture
def image(tmp_path):
    path = tmp_path / "image"
    path.write_text("6f000000\n--\nstep 1\n")
    return path


FRESH = """
import mmap, sys
from support.hostile import SLACK, run
with mmap.mmap(-1, 4 << 30, flags=mmap.MAP_PRIVATE | mmap.MAP_ANONYMOUS, prot=mmap.PROT_READ):
    for more in ({}, {"memory": (1 << 20) - SLACK}):
        done = run(sys.argv[1], "map", sys.argv[2], **more)
        print(done.status, "out of memory" in done.errors.decode())
"""


def test_limit_of_memory_counts_from_the_addresses_of_the_process(bench, image):
    done = subprocess.run(["/usr/bin/python3", "-c", FRESH, bench, image], env={**os.environ, "PYTHONPATH": str(ROOT / "tests")},
                          capture_output=True, text=True, check=True)
    assert done.stdout.split("\n") == ["0 False", "3 True", ""]


def test_image_without_end_is_refused(bench):
    done = run(bench, "map", "/dev/zero")
    check(done)
    assert done.status in (1, 2)
    assert b"rvlook: error: '/dev/zero' is too large" in done.errors
    assert done.memory < LITTLE


@pytest.mark.parametrize("option", ["--script", "--symbols"])
def test_file_of_an_option_without_end_is_refused(bench, image, option):
    done = run(bench, "map", image, option, "/dev/zero")
    check(done)
    assert done.status in (1, 2)
    assert b"'/dev/zero' is too large" in done.errors
    assert done.memory < LITTLE


def test_explain_of_an_input_without_end_is_refused(bench):
    done = run(bench, "explain", "/dev/zero")
    check(done)
    assert done.status in (1, 2)


@pytest.mark.parametrize("size", [33554433, 200 << 20])
def test_long_image_is_refused_before_the_bench_has_it(bench, tmp_path, size):
    path = tmp_path / "image"
    with open(path, "wb") as file:
        file.write(b"\x7f\x01")
        file.truncate(size)
    done = run(bench, "map", path)
    check(done)
    assert done.status in (1, 2)
    assert b"is too large" in done.errors or b"rvbench: too long" in done.errors
    assert done.memory < LITTLE


def test_script_of_too_many_lines_is_refused(bench, image, tmp_path):
    (tmp_path / "script").write_bytes(b"\n" * 1000001)
    done = run(bench, "map", image, "--script", tmp_path / "script")
    check(done)
    assert b"is too long: it has more than 1000000 lines" in done.errors


def test_many_unknown_names_with_many_symbols_take_little_time():
    from rvlook.protocol.nearest import nearest
    known = ["symbol_number_%d_of_the_program" % it for it in range(60000)]
    began = time.process_time()
    for at in range(20):
        assert nearest("symbol_numbr_%d_of_the_program" % (at * 1000), known) is not None
    assert time.process_time() - began < 10


def test_nearest_name_is_that_of_difflib():
    from rvlook.protocol.nearest import nearest
    assert nearest("man", ["main", "mem", "halt"]) == "main"
    assert nearest("region", ["region_base", "window_base"]) == "region_base"
    assert nearest("", ["a"]) is None
    assert nearest("qqqq", ["main"]) is None
    assert nearest("x" * 1000, ["x" * 999]) is None
    assert nearest("counted_5999", ["counted_%d" % it for it in range(6000)]) == "counted_5999"


def test_operand_of_back_is_bounded(bench, image):
    done = run(bench, image, stdin=b"back %s\nback \xd9\xa3\nback 99999999999\nreg 5\n" % (b"9" * 100))
    check(done)
    assert b"x5=00000000" in done.output
