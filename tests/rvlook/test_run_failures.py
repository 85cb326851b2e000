"""`run` and `inputs` report each trap that is no call, each refused call, and an end that is no end. `map` shows refused calls."""
import shutil
import subprocess

import pytest
from support.limits import processor_time

from conftest import EXAMPLES, ROOT, RVLOOK

ENCLAVE_STORE = "store access fault (value 80010000) in U of e0 at step 61, 80020100  application+14"
HOST_STORE = "store access fault (value 00000000) in S of host at step 14, 80010070  main+18"
CREATE = "create refused with BadEntry in S of host at step 31, 800100b8  main+60"
RUN = "run refused with NoEnclave in S of host at step 37, 800100d0  main+78"
END = "rvlook: note: the program ended with status 0 at "
CASES = {  # of each line of the script: the warnings
    "poke task 01": [HOST_STORE], "poke task 02": [CREATE, RUN], "poke inside 01": [ENCLAVE_STORE]}
MAKE = pytest.mark.skipif(not shutil.which("make") or not (shutil.which("clang") and shutil.which("ld.lld")), reason="make or clang is not installed")


@pytest.fixture
def failing(rvlook, program, tmp_path):
    """Runs a subcommand over the failing program, with a line of a script."""
    def run(subcommand, line, *words):
        script = tmp_path / "script"
        script.write_text(line + "\n")
        return rvlook(subcommand, *program("failing"), "--script", script, *words)
    return run


@pytest.mark.parametrize("line", CASES)
def test_failure_is_reported_with_its_place_and_a_status(failing, line):
    done = failing("run", line)
    *warnings, end = done.stderr.splitlines()
    assert warnings == ["rvlook: warning: " + it for it in CASES[line]]
    assert end.startswith(END) and done.returncode == 1
    assert failing("run", line, "--exit-zero").returncode == 0


def test_run_without_a_failure_has_the_status_of_the_program(failing):
    done = failing("run", "poke task 00")
    assert (done.returncode, done.stdout) == (0, "42\n") and done.stderr.startswith(END)


@pytest.mark.parametrize("line, text", [
    ("poke task 03", "the program hangs in an endless loop at 800100fc  main+a4 in S of host; end it with finish(), or at a symbol such as halt"),
    ("poke inside 02", "the enclave hangs in an endless loop at 80020110  application+24 in U of e0")])
def test_hang_is_no_end(failing, line, text):
    done = failing("run", line)
    assert (done.returncode, done.stderr) == (3, "rvlook: note: %s\n" % text)


def test_expected_failure_is_listed_and_is_no_finding(failing):
    done = failing("run", "poke task 02", "--expect", "BadEntry@main", "--expect", "NoEnclave")
    assert done.returncode == 0
    assert done.stderr.splitlines()[:2] == ["rvlook: note: expected: " + it for it in (CREATE, RUN)]


def test_expectation_is_of_its_name_and_its_place(failing):
    for wrong in ("BadEntry@application", "BadWindow", "store access fault"):
        done = failing("run", "poke task 02", "--expect", wrong, "--expect", "NoEnclave")
        assert done.returncode == 1 and "rvlook: warning: " + CREATE in done.stderr.splitlines()
    assert failing("run", "poke task 02", "--expect", "@main").returncode == 0
    assert failing("run", "poke task 02", "--expect", "badentry@800100b8", "--expect", "@main").returncode == 0


def test_expected_failure_that_does_not_occur_is_a_finding(failing):
    done = failing("run", "poke task 00", "--expect", "BadEntry")
    assert (done.returncode, done.stderr.splitlines()[0]) == (1, "rvlook: warning: --expect 'BadEntry': it did not occur")


def test_expectation_with_a_wrong_name_is_refused(failing):
    done = failing("run", "poke task 02", "--expect", "BadEntri")
    assert (done.returncode, done.stdout) == (2, "") and "such as 'BadEntry'" in done.stderr


def test_failure_of_the_enclave_in_the_run_itself_is_a_finding_of_inputs(failing):
    done = failing("inputs", "poke inside 01", "--runs", "4")
    assert (done.returncode, done.stderr) == (1, "rvlook: warning: %s\n" % ENCLAVE_STORE)
    assert failing("inputs", "poke inside 01", "--runs", "4", "--expect", "store access fault@application").returncode == 0


def test_map_shows_a_refused_call(failing):
    assert "step 31  create refused: BadEntry  at 800100b8  main+60" in failing("map", "poke task 02").stdout.splitlines()
    assert "step 37  run refused: NoEnclave  at 800100d0  main+78" in failing("map", "poke task 02", "--brief").stdout.splitlines()


def test_failures_as_objects(rvlook, objects):
    folder = EXAMPLES / "enclaves" / "at_rest"
    status, found = objects("run", "--monitor", folder / "image", "--symbols", folder / "symbols", "--expect", "Overlap")
    failures = [it for it in found if it["object"] == "failure"]
    assert status == 1 and [(it["name"], it["call"], it["value"], it["step"], it["expected"]) for it in failures] == [
        ("load access fault", None, "80020008", 35, False), ("store access fault", None, "80020ffc", 55, False),
        ("fetch access fault", None, "80020000", 74, False), ("Overlap", "create", None, 97, True),
        ("BadAddress", "measure", None, 116, False), ("NoEnclave", "measure", None, 134, False)]


def test_failures_are_those_of_single_steps(rvlook, objects):
    """The counters find the same traps and refused calls as single steps, also with two harts and in a script."""
    for name, words in (("refused", ()), ("hmac_attacked", ()), ("two_harts", ("--harts", "2")), ("two_harts", ("--harts", "2", "--seed", "5"))):
        folder = EXAMPLES / "enclaves" / name
        image = ("--monitor", folder / "image", "--symbols", folder / "symbols", *words)
        found = [it for it in objects("run", *image)[1] if it["object"] == "failure"]
        steps = [it for it in objects("trace", "--traps", *image)[1] if it["object"] == "step"]
        traps = [it for it in steps if it["trap"]["cause"] not in ("00000008", "00000009", "80000007")]
        refused = [it for it in steps if it["trap"]["cause"] == "00000009" and it["next"]["world"] == it["world"]
                   and it["registers"].get("x10", "0") > "fffffff0"]
        singly = {}
        for it in traps + refused:
            singly.setdefault((it["pc"], it["world"], it["mode"], it["hart"]), []).append(it["step"])
        assert {(it["pc"], it["world"], it["mode"], it["hart"]): (it["step"], it["count"]) for it in found} == {
            key: (min(it), len(it)) for key, it in singly.items()}, name


def test_long_run_without_traps_is_not_done_step_by_step(rvlook, tmp_path):
    """The last one of some sixty million steps traps. One by one, they take many minutes of processor time."""
    image = tmp_path / "image"
    image.write_text("b7c2c901\n9382f2ff\ne39e02fe\n23200000\n6f000000\n--\n")  # counts down from 0x1c9c000, then stores to 0
    before = processor_time()
    done = rvlook("run", image, "--steps", "100000000")
    assert done.returncode == 3 and "store access fault (value 00000000) in M of bare at step 59998210, 8000000c\n" in done.stderr
    assert processor_time() - before < 60


def test_failures_of_a_handler_that_fails_itself_are_bounded(rvlook, tmp_path):
    image = tmp_path / "image"  # sets mtvec to a nop before a store to address 0
    image.write_text("97020000\n93820201\n73905230\n23200000\n13000000\n23200000\n6f000000\n--\n")
    done = rvlook("run", image, "--steps", "3000000")
    assert "rvlook: warning: the search for traps and refused calls ended after 100000 of them" in done.stderr.splitlines()
    assert done.returncode == 3


@MAKE
@pytest.mark.parametrize("name, change, console, status", [
    ("application.c", ("return 42;", "return *(volatile unsigned *)0x80010000;"), "host: the application failed with trap cause 5", 12),
    ("host.c", ("WINDOW_SIZE, ENTRY", "WINDOW_SIZE, ENTRY + 2"), "host: create was refused: BadEntry", 11),
    ("host.c", ('print("host: creating', '*(volatile unsigned *)0 = 1;\n    print("host: creating'), "host: the enclave answered 42", 1)])
def test_new_folder_reports_a_failure(bench, tmp_path, name, change, console, status):
    folder = tmp_path / "mine"
    environment = {"PATH": "/usr/local/bin:/usr/bin:/bin", "RVBENCH": bench}
    subprocess.run([RVLOOK, "new", folder], check=True, capture_output=True, env=environment, cwd=ROOT)
    text = (folder / name).read_text()
    assert change[0] in text
    (folder / name).write_text(text.replace(*change))
    done = subprocess.run(["make", "-s", "-C", folder, "run"], capture_output=True, text=True, env=environment, check=False)
    assert console in done.stdout.splitlines() and "Error %d" % status in done.stderr
    done = subprocess.run(["make", "-s", "-C", folder, "check"], capture_output=True, text=True, env=environment, check=False)
    assert done.returncode == 2 and "ci: run: status %d; see run.txt and run.xml" % status in done.stderr
