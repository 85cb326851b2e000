"""No input and no environment causes a traceback: long numbers, runs that are cut off, closed streams, little memory, and large inputs."""
import os
import subprocess
import xml.etree.ElementTree as tree

import pytest
from support.limits import HANG

from conftest import EXAMPLES, ROOT, RVLOOK

NINES, DIGITS = "9" * 5000, "f" * 5000
ADDS = ["--monitor", "--symbols", EXAMPLES / "enclaves" / "adds" / "symbols", EXAMPLES / "enclaves" / "adds" / "image"]
STORE = ["--monitor", EXAMPLES / "enclaves" / "store_leaking" / "image", "--symbols", EXAMPLES / "enclaves" / "store_leaking" / "symbols"]
PINS = ["3132333435363738", "3237313832383030"]
ESCAPE = "\x1b[2J"
LONG = {
    "the bytes of a secret": ["leak", *STORE, "--at", "pin:" + NINES, *PINS],
    "more bytes than memory": ["leak", *STORE, "--at", "pin:9999999999", "--tries", "2"],
    "a digit that is none": ["leak", *STORE, "--at", "pin:\u00b2", *PINS],
    "public bytes": ["leak", *STORE, "--at", "pin", *PINS, "--public", "pin:" + NINES],
    "public bytes of window": ["window", *ADDS, "--at", "main", "--public", "main:" + NINES],
    "a secret of window": ["window", *ADDS, "--at", DIGITS + ":" + NINES],
    "a secret of inputs": ["inputs", *ADDS, "--runs", "1", "--at", DIGITS + ":" + NINES],
    "an outcome": ["races", *ADDS, "--outcome", "80011000:" + NINES],
    "an offset": ["measure", EXAMPLES / "README.md", "80020000", "1000", "0", "0", "main+" + DIGITS, "--symbols", ADDS[2]],
    "tries": ["leak", *STORE, "--at", "pin", "--tries", NINES], "steps": ["map", *ADDS, "--steps", NINES], "a slot": ["leak", *STORE, "--slot", NINES],
    "a port": ["gdb", *ADDS, "--port", NINES], "a size of RAM": ["map", *ADDS, "--ram", NINES]}


def run_shell(bench, line, *words):
    """Runs a shell line that contains rvlook with these arguments as `"$0" "$@"`; returns its `CompletedProcess`."""
    return subprocess.run(["bash", "-c", line, RVLOOK, *map(str, words)], env={**os.environ, "RVBENCH": bench, "TERM": "dumb"}, cwd=ROOT,
                          capture_output=True, text=True, timeout=HANG, check=False)


def check(done, statuses):
    """Checks the exit status, and that standard error has only messages."""
    assert done.returncode in statuses, done.stderr
    assert all(it.startswith("rvlook: ") and "internal error" not in it for it in done.stderr.splitlines()), done.stderr


@pytest.mark.parametrize("what", LONG)
def test_number_of_5000_digits_is_refused(rvlook, what):
    done = rvlook(*LONG[what])
    check(done, [2])
    assert done.stderr.startswith("rvlook: error: ")


def test_time_limit_of_5000_digits_is_refused_in_a_short_line(rvlook):
    done = rvlook("races", *ADDS, "--seconds", NINES)
    check(done, [2])
    assert len(done.stderr) < 200


def test_leak_whose_runs_are_cut_off_shows_that_there_is_no_answer(rvlook):
    done = rvlook("leak", *STORE, "--at", "pin", *PINS, "--steps", "700")
    check(done, [1, 3])
    assert "\n          none\n" in done.stdout


@pytest.mark.parametrize("name, status", [("main.input", 1), ("map", 0), ("gdb", 0), ("prompt", 0)])
def test_closed_standard_input_is_an_empty_one(bench, name, status):
    words = {"main.input": ["explain", "-"], "map": ["map", *ADDS], "gdb": ["gdb", *ADDS], "prompt": [ADDS[-1], *ADDS[:-1]]}[name]
    done = run_shell(bench, 'exec "$0" "$@" <&-', *words)
    check(done, [status])


@pytest.mark.parametrize("to", ["&-", "/dev/full"])
def test_standard_error_that_cannot_be_written_does_not_change_the_status(bench, to):
    assert run_shell(bench, 'exec "$0" "$@" 2>' + to, "map", "/none").returncode == 2
    assert run_shell(bench, 'exec "$0" "$@" 2>' + to, "map", ADDS[-1]).returncode == 0


def test_folder_as_standard_input_is_refused(bench):
    done = run_shell(bench, 'exec "$0" "$@" < /', "explain", "-")
    assert (done.returncode, done.stderr) == (2, "rvlook: error: standard input is a directory\n")


@pytest.mark.parametrize("words", [["map", *ADDS], ["page", *ADDS], ["touch", *ADDS], ["measure", "/dev/zero", "80020000", "1000", "0", "0", "80020000"]],
                         ids=lambda it: it[0])
@pytest.mark.parametrize("kibibytes", [40000, 60000, 100000])
def test_little_memory_is_one_message(bench, words, kibibytes):
    done = run_shell(bench, 'ulimit -v %d; exec "$0" "$@"' % kibibytes, *words)
    check(done, [0, 3])
    assert done.returncode == 0 or done.stderr in ("rvlook: error: out of memory; raise the limit of memory, or give a smaller input\n",
                                                   "rvlook: error: cannot run '%s': Cannot allocate memory\n" % bench)


@pytest.mark.parametrize("words, status", [(["map", "no" + ESCAPE], 2), (["trace", *ADDS, "--function", "ma\x01in"], 2)], ids=["file", "name"])
def test_report_has_no_control_characters(rvlook, tmp_path, words, status):
    report = tmp_path / "report.xml"
    done = rvlook(*words, "--junit", report)
    check(done, [status])
    (error,) = tree.parse(report).getroot().iter("error")
    assert error.get("message").isprintable() and "^" in error.get("message")


def test_report_replaces_a_link_and_not_its_target(rvlook, tmp_path):
    target, report = tmp_path / "target", tmp_path / "report.xml"
    target.write_text("kept\n")
    report.symlink_to(target)
    assert rvlook("map", *ADDS, "--junit", report).returncode == 0
    assert target.read_text() == "kept\n" and not report.is_symlink()
    assert tree.parse(report).getroot().tag == "testsuites"


def test_report_of_a_fault_of_rvlook_has_an_error(bench, tmp_path):
    report = tmp_path / "report.xml"
    code = ("import sys; sys.path[0] = %r; import rvlook.trace.tracer as it; it.RunTracer.events = lambda self: 1 // 0; "
            "from rvlook.__main__ import main; sys.exit(main(sys.argv[1:]))" % str(ROOT / "python"))
    done = subprocess.run(["/usr/bin/python3", "-c", code, "trace", *map(str, ADDS), "--junit", report], env={**os.environ, "RVBENCH": bench},
                          capture_output=True, text=True, check=False)
    assert done.returncode == 3
    assert done.stderr.startswith("rvlook: error: internal error: ZeroDivisionError: ") and "Traceback" not in done.stderr
    assert [it.get("message") for it in tree.parse(report).getroot().iter("error")] == ["integer division or modulo by zero"]


LINES = {
    "of an unknown command": (b"fly\n" * 900000, 1), "of different commands": (b"".join(b"f%x 1\n" % it for it in range(600000)), 1),
    "of replies": (b"reg 5\n" * 900000, 0), "without a reply": (b"enclaves\n" * 800000, 0), "one": (b"x " * 4000000, 1), "empty": (b"\n" * 8000000, 2)}


@pytest.mark.parametrize("what", LINES)
def test_explain_of_an_input_of_megabytes_ends(bench, tmp_path, what):
    from support.hostile import run
    lines, status = LINES[what]
    path = tmp_path / "input"
    path.write_bytes(b"6f000000\n--\n" + lines)
    done = run(bench, "explain", path, seconds=40)
    assert done.status == status, done.errors
    assert done.memory < 600 << 20
    assert len(done.output) < 3 << 20


# ---- names with escapes of a terminal

NAMED = ["map", "trace", "touch", "window", "inputs", "leak", "timer", "races", "page", "gdb", "run", "conform", "guard", "measure", "explain"]


@pytest.mark.parametrize("subcommand", NAMED)
def test_name_of_a_file_that_is_not_there_has_no_escapes(rvlook, subcommand):
    more = {"guard": ["/none"], "measure": ["0", "0", "0", "0", "0"], "leak": ["--at", "0", "00", "01"]}.get(subcommand, [])
    done = rvlook(subcommand, "/none/" + ESCAPE, *more)
    assert done.returncode in (2, 3) and "/none/^[[2J" in done.stderr
    assert all(it.isprintable() for it in (done.stderr + done.stdout).splitlines())


@pytest.mark.parametrize("words", [["map"], ["trace"], ["touch"], ["window"], ["timer"], ["leak", "--at", "80020800", "00", "01"], ["races"],
                                   ["inputs", "--runs", "2"], ["run"]], ids=lambda it: it[0])
def test_name_of_an_image_has_no_escapes(rvlook, tmp_path, words):
    image = tmp_path / ("image" + ESCAPE + "\n\x9b")
    image.write_bytes(ADDS[-1].read_bytes())
    done = rvlook(*words, image)
    assert done.returncode in (0, 1, 2, 3)
    assert all(it.isprintable() for it in (done.stderr + done.stdout).splitlines())


def test_owner_of_guard_has_no_escapes(rvlook, tmp_path):
    owners = tmp_path / "ranges"
    text = (EXAMPLES / "monitors" / "two_enclaves" / "ranges").read_text(encoding="utf-8")
    owners.write_text(text.replace("first   ", "f\x1b]0;t\x07 ").replace("shared first  rw- 8001c000-8001cfff\n", ""), encoding="utf-8")
    image, symbols = (EXAMPLES / "monitors" / "two_enclaves" / it for it in ("image", "symbols"))
    done = rvlook("guard", image, owners, "--symbols", symbols, "--timers", "1", "--steps", "1500")
    assert all(it.isprintable() for it in (done.stderr + done.stdout).splitlines())
    assert "f^[]0;t^G at 80014000 may access" in done.stdout


def test_printer_keeps_its_own_styles_only():
    import io
    from rvlook.output.printer import Printer, Style
    stream = io.StringIO()
    printer = Printer(stream=stream)
    printer.colours = True
    printer.line(printer.styled("a\x1b[2Jb", Style.bad) + "\tc\r\n  \x1b[99md")
    assert stream.getvalue() == "\x1b[31ma^[[2Jb\x1b[0m c^M\n  ^[[99md\n"
