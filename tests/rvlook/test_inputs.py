"""`inputs`: the bugs of `examples/enclaves/host_inputs` are found, nothing is found in their corrections and in correct examples, and each finding
is replayed by its script."""
import re
import subprocess

import pytest
from support.limits import HANG

from conftest import EXAMPLES

FOLDER = EXAMPLES / "enclaves" / "host_inputs"
IMAGE = ("--monitor", FOLDER / "image", "--symbols", FOLDER / "symbols")
RUNS = ("--runs", "120")
ROW = re.compile(r"^\| (\d+) \| [^|]* \| `poke task (\w+)` \| (?:`([^`]*)`)? *\| `([^`]*)` \|$", re.M)
BUGS = {int(it[0]): (int(it[1], 16), it[2].split(), it[3]) for it in ROW.findall((FOLDER / "README.md").read_text(encoding="utf-8"))}
NOTHING = re.compile(r"^no finding, seed 0\. Covered: \d+ inputs, \d+ runs with other values, \d+ of \d+ branches both ways, \d+ instructions", re.M)


@pytest.fixture(scope="module")
def inputs(objects, tmp_path_factory):
    """Runs `inputs` with a function of the example; gives its status and its objects."""
    def run(task, corrected, *words):
        script = tmp_path_factory.mktemp("inputs") / "script"
        script.write_text("poke task %02x\npoke corrected %02x\n" % (task, corrected))
        return objects("inputs", *IMAGE, "--script", script, *words)
    return run


def findings(found):
    return [it for it in found if it["object"] == "finding"]


def test_page_has_each_function_of_the_example():
    (table,) = re.findall(r"\btasks\[TASKS\]\)\(window\) = \{([^}]*)\}", (FOLDER / "application.c").read_text(encoding="utf-8"))
    assert [(number, it[0]) for number, it in BUGS.items()] == [(n, n) for n in range(1, 1 + len(table.split(",")))]
    assert len(BUGS) >= 12


@pytest.mark.parametrize("number", BUGS)
def test_bug_is_found_and_replayed(inputs, bench, tmp_path, number):
    task, more, answer = BUGS[number]
    status, found = inputs(task, 0, *RUNS, *more, "--scripts", tmp_path)
    assert (status, findings(found)[0]["text"]) == (1, answer)
    for it in findings(found):
        check_script(bench, it)


def check_script(bench, it):
    """Runs the script of a finding on the program: it executes the instruction at the pc of the finding, with the address that was reported."""
    text = open(it["script"], "rb").read()
    words = re.search(rb"# \./rvbench (.*) < this file", text)[1].decode().split()
    lines = subprocess.run([bench, *words], input=text, capture_output=True, check=True, timeout=HANG).stdout.decode().splitlines()
    at = max(n for n, line in enumerate(lines) if line.startswith(it["pc"] + ": "))
    reached = [line for line in lines[:at] if line.startswith("ran ")][-1]
    assert " pc=%s " % it["pc"] in reached
    access = re.match(r"\w+: \w+ [ls][bhw]u? x\d+, (-?\d+)\(x(\d+)\)", lines[at])
    if it["what"] in ("load", "store") and access:
        base = int(lines[at + 1].split("=")[1], 16)
        assert "%08x" % (base + int(access[1]) & 0xFFFFFFFF) == it["reached"][0]["address"]


@pytest.mark.parametrize("number", BUGS)
def test_nothing_is_found_in_the_correction(inputs, number):
    task, more, _ = BUGS[number]
    status, found = inputs(task, 1, *RUNS, *more)
    assert (status, findings(found)) == (0, [])
    (covered,) = (it for it in found if it["object"] == "inputs")
    assert covered["inputs"] and covered["values"] > 50


@pytest.mark.parametrize("name, options", [("adds", ()), ("timer", ()), ("refused", ()), ("hmac", ("--at", "key:20")), ("store", ("--at", "key:32"))])
def test_nothing_is_found_in_correct_examples(rvlook, name, options):
    folder = EXAMPLES / "enclaves" / name
    done = rvlook("inputs", "--monitor", folder / "image", "--symbols", folder / "symbols", *options, "--runs", "40")
    assert done.returncode == 0 and NOTHING.search(done.stdout), done.stdout


def test_equal_seeds_give_equal_output(inputs):
    one, two, other = (inputs(5, 0, "--runs", "60", "--seed", str(seed)) for seed in (3, 3, 4))
    assert one == two
    assert [it["inputs"] for it in findings(one[1])] and other[1][-1]["seed"] == 4
