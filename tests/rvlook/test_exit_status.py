"""Exit statuses: 0 for no findings, 1 for findings, 2 for an unusable argument or input, 3 for incomplete work; and the JUnit report."""
import signal
import subprocess
import xml.etree.ElementTree as ElementTree

import pytest
from support.limits import HANG

from conftest import ROOT, RVLOOK

SUM, RACE = "examples/programs/sum/stdin", "examples/programs/race/image"
LEAK = ("--at", "secret", "10000000", "00000100")
NO_LEAK = ("--at", "secret", "10000000", "10000000")
RACES = ("races", "--monitor", "--harts", "2", RACE, "--limit", "17", "--outcome", "0.a0", "--outcome", "1.a0")


def junit(path):
    """The attributes of the test suite, and for each case its name, its result and the message."""
    (suite,) = ElementTree.parse(path).getroot()
    return suite.attrib, [(case.attrib["name"], *((it.tag, it.attrib["message"]) for it in case)) for case in suite]


def test_leak(rvlook, short_program):
    assert rvlook("leak", *short_program("leak_trap"), *LEAK).returncode == 1
    assert rvlook("leak", *short_program("leak_trap"), *NO_LEAK).returncode == 0


def test_leak_of_drawn_secrets(rvlook, short_program):
    assert rvlook("leak", *short_program("leak_trap"), "--at", "secret:4", "--tries", "2").returncode == 1
    public = [word for it in ("pc", "answer") for word in ("--public", it) if it == "answer"]
    done = rvlook("leak", *short_program("window_copies"), "--at", "key:20", "--tries", "2", "--public", "window_base+10", *public)
    assert done.returncode == 0 and done.stdout.startswith("no difference in 2 pairs: pc, steps, address, answer, window\n")


def test_leak_that_seconds_cut(rvlook, short_program):
    words = ("leak", *short_program("window_copies"), "--at", "key:20", "--tries", "500", "--seconds", "0", "--public", "window_base+10")
    done = rvlook(*words)
    assert (done.returncode, done.stderr) == (3, "rvlook: warning: --seconds ended leak after 1 of 500 pairs\n")
    assert rvlook(*words[:-2]).returncode == 1, "what was found counts more than that not all was compared"
    assert rvlook(*words[:-2], "--exit-zero").returncode == 3


def test_races(rvlook):
    assert rvlook(*RACES).returncode == 1
    assert rvlook(*RACES, "--forbid", "0.a0 == 0x99").returncode == 0
    done = rvlook(*RACES, "--forbid", "0.a0 == 0xfffffff9")
    assert done.returncode == 1 and done.stderr.startswith("rvlook: warning: --forbid 0.a0 == 0xfffffff9: final state ")


def test_races_with_one_end(rvlook):
    assert rvlook("races", "--monitor", "examples/enclaves/adds/image").returncode == 0


def test_races_that_seconds_cut(rvlook):
    done = rvlook(*RACES, "--seconds", "0", "--forbid", "0.a0 == 0x99")
    assert (done.returncode, done.stderr) == (3, "rvlook: warning: --forbid is undecided: the search is incomplete\n")


def test_explain(rvlook):
    image = "9300f0ff\n--\n"
    assert rvlook("explain", "-", stdin=image + "regs\n").returncode == 0
    assert rvlook("explain", "-", stdin=image + "reg a0\n").returncode == 1
    assert rvlook("explain", "--exit-zero", "-", stdin=image + "reg a0\n").returncode == 0


@pytest.mark.parametrize("word", ["map", "trace", "touch", "page"])
def test_report_has_no_findings(rvlook, word, tmp_path):
    assert rvlook(word, SUM).returncode == 0
    script = tmp_path / "script"
    script.write_text("stepp 4\n")
    assert rvlook(word, SUM, "--script", script).returncode == 2


def test_refused_line_counts_more_than_a_finding(rvlook, short_program, tmp_path):
    script = tmp_path / "script"
    script.write_text("stepp 4\n")
    for more in ((), ("--exit-zero",)):
        done = rvlook("leak", *short_program("leak_trap"), *LEAK, "--script", script, *more)
        assert done.returncode == 2 and done.stdout.endswith("the runs differ in pc, steps, address, window\n")


@pytest.mark.parametrize("words", [("leak", "--at", "nowhere", "00", "01"), ("leak", "--at", "secret", "0", "01"), ("leak", "--at", "secret", "00", "0001"),
                                   ("leak", "--at", "secret:4"), ("timer", "--every", "0"), ("window", "--slot", "13")])
def test_argument_that_cannot_be_used(rvlook, short_program, words):
    done = rvlook(words[0], *short_program("leak_trap"), *words[1:])
    assert (done.returncode, done.stdout) == (2, "") and done.stderr.startswith("rvlook: error: ")


@pytest.mark.parametrize("words", [("timer", "--steps", "9"), ("window", "--steps", "9"), ("leak", "--steps", "9", *LEAK)])
def test_no_enclave_within_the_steps(rvlook, short_program, words):
    done = rvlook(words[0], *short_program("leak_trap"), *words[1:])
    assert (done.returncode, done.stdout) == (3, "")


def test_bench_that_ends(rvlook, short_program):
    assert rvlook("leak", *short_program("leak_trap"), *LEAK, env={"RVBENCH": "/bin/true"}).returncode == 3


def test_output_that_fails(bench, short_program):
    with open("/dev/full", "w", encoding="ascii") as full:
        done = subprocess.run([RVLOOK, "leak", *short_program("leak_trap"), *LEAK], stdout=full, stderr=subprocess.PIPE, cwd=ROOT, check=False,
                              env={"RVBENCH": bench, "PATH": "/usr/bin:/bin"})
    assert done.returncode == 3


def test_interrupt_keeps_its_status(bench, short_program):
    words = [RVLOOK, "leak", *short_program("window_copies"), "--at", "key:20", "--tries", "5000", "--json"]
    process = subprocess.Popen(words, stdout=subprocess.PIPE, stderr=subprocess.PIPE, cwd=ROOT, env={"RVBENCH": bench, "PATH": "/usr/bin:/bin"},
                               preexec_fn=lambda: signal.signal(signal.SIGINT, signal.default_int_handler))
    with process:
        process.stdout.readline()
        process.send_signal(signal.SIGINT)
        process.communicate(timeout=HANG)
    assert process.returncode == 130


@pytest.mark.parametrize("words", [("leak", *LEAK), ("leak", "--at", "secret:4", "--tries", "2")])
def test_exit_zero_changes_the_status_alone(rvlook, short_program, words):
    plain, report = (rvlook(words[0], *short_program("leak_trap"), *words[1:], *more) for more in ((), ("--exit-zero",)))
    assert (plain.returncode, report.returncode) == (1, 0)
    assert (plain.stdout, plain.stderr) == (report.stdout, report.stderr)


# ---- the JUnit report

junitparser = pytest.mark.skipif(subprocess.run(["/usr/bin/python3", "-c", "import junitparser"], capture_output=True, check=False).returncode != 0,
                                 reason="python3-junitparser is not installed")


@junitparser
def test_junit_has_a_failure_for_each_part(rvlook, short_program, tmp_path):
    path = tmp_path / "leak.xml"
    assert rvlook("leak", *short_program("leak_trap"), *LEAK, "--junit", path).returncode == 1
    suite, cases = junit(path)
    assert (suite["name"], suite["tests"], suite["failures"], suite["errors"]) == ("rvlook leak", "5", "4", "0")
    assert [(it[0], len(it) - 1) for it in cases] == [("pc", 1), ("steps", 1), ("address", 1), ("answer", 0), ("window", 1)]


@junitparser
def test_junit_has_a_case_for_each_pair_activation_and_end(rvlook, short_program, tmp_path):
    path = tmp_path / "it.xml"
    rvlook("leak", *short_program("leak_trap"), "--at", "secret:4", "--tries", "3", "--junit", path)
    assert [it[0] for it in junit(path)[1]] == ["pair 1", "pair 2", "pair 3"]
    rvlook("window", *short_program("window_copies"), "--at", "key:20", "--junit", path)
    assert junit(path)[1] == [("e0, activation 1", ("failure", "writes      80030010-80030013      4  window_base+10  application+30  depends on the secret"))]
    rvlook(*RACES, "--junit", path)
    assert [it[0] for it in junit(path)[1]][:2] == ["final state 1", "final state 2"]
    rvlook(*RACES, "--forbid", "0.a0 == 0x99", "--junit", path)
    assert junit(path)[1] == [("--forbid 0.a0 == 0x99",)]


@junitparser
def test_junit_has_a_case_and_the_time_of_each(rvlook, short_program, tmp_path):
    path = tmp_path / "report.xml"
    assert rvlook("map", *short_program("leak_trap"), "--junit", path).returncode == 0
    suite, cases = junit(path)
    assert cases == [("the run",)] and float(suite.get("time")) > 0
    rvlook("leak", *short_program("leak_trap"), "--at", "secret:4", "--tries", "2", "--junit", path)
    (suite,) = ElementTree.parse(path).getroot()
    assert [float(it.get("time")) > 0 for it in suite] == [True, True]


@junitparser
def test_junit_has_an_error_if_the_work_is_cut_short(rvlook, short_program, tmp_path):
    path = tmp_path / "it.xml"
    done = rvlook("timer", *short_program("leak_trap"), "--junit", path)
    assert done.returncode == 3
    suite, cases = junit(path)
    assert suite["errors"] == "1" and cases[-1][0] == "the run" and cases[-1][1][0] == "error"
    assert rvlook("timer", *short_program("leak_trap"), "--slot", "4", "--junit", path).returncode == 3
    assert junit(path)[1] == [("the run", ("error", "no enclave in slot 4"))]


@junitparser
def test_junit_file_that_cannot_be_written(rvlook, short_program):
    done = rvlook("leak", *short_program("leak_trap"), *NO_LEAK, "--junit", "/none/it.xml")
    assert (done.returncode, done.stderr) == (3, "rvlook: error: cannot write '/none/it.xml': No such file or directory\n")


def test_junit_without_its_package(rvlook, short_program, tmp_path):
    (tmp_path / "junitparser.py").write_text("raise ImportError\n")
    done = rvlook("leak", *short_program("leak_trap"), *LEAK, "--junit", tmp_path / "it.xml", env={"PYTHONPATH": str(tmp_path)})
    assert (done.returncode, done.stdout) == (3, "")
    assert done.stderr == ("rvlook: error: junitparser is not installed, so --junit cannot write its report; install it with 'apt-get install python3-junitparser'\n")
    assert not (tmp_path / "it.xml").exists()
