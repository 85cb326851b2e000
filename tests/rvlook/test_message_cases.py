"""The table of messages in docs/MESSAGES.md: the case of each row exits with the status of the row and prints its line."""
import re
import tempfile
from pathlib import Path

import pytest
from support.message_files import IMAGES, Files
from support.message_runs import ACCESS, CUT_PAIR, FULL, KILLED, LATE_REPLAY, MANY_VECTORS, MORE, NEVER_BACK, ONE_SCRIPT, ORDER, OTHERWISE, REGISTERS, Runs

from conftest import EXAMPLES, PROGRAMS, ROOT, RVLOOK

ROW = re.compile(r"^\| (\d+) \| `(error|warning|note): (.*)` \| .*\|$", re.M)
ROWS = [(int(status), severity, line.replace("\\|", "|")) for status, severity, line in
        ROW.findall((ROOT / "docs" / "MESSAGES.md").read_text(encoding="utf-8"))]
KEPT = ("RVBENCH",)  # in capitals, but no placeholder
ADDS, LISTING, SUM = EXAMPLES / "enclaves" / "adds" / "image", EXAMPLES / "enclaves" / "adds" / "symbols", EXAMPLES / "programs" / "sum" / "stdin"
LEAKS, USES = IMAGES + "/leak/image", PROGRAMS / "stack_uses"
MONITORS, STORE = EXAMPLES / "monitors", EXAMPLES / "enclaves" / "store"
NUMBERS = ("80020000", "1000", "0", "0", "80020000")


class Cases:
    """The cases of the messages: for the beginning of each line, the command that prints it."""

    def __init__(self, files, runs, folder):
        self.files, self.runs, self.folder = files, runs, folder

    def scripted(self, name):
        return "map", "--symbols", LISTING, "--script", self.files.lines[name], ADDS, "--monitor"

    def leak(self, *words):
        return "leak", "--monitor", LEAKS, "--at", *words

    def tries(self, *words):
        return "leak", "--monitor", LEAKS, "--tries", "2", "--at", *words

    def counted(self, *words):
        return "races", "--monitor", "--harts", "2", "--ram", "131072", self.files.counter, *words

    def overflow(self, task):
        """A program whose stack overflows by a large frame (1), or by a store through a pointer (3)."""
        return "map", "--monitor", USES / "image", "--symbols", USES / "symbols", "--script", self.files.write("task_%d" % task, "poke task %02x\n" % task)

    def of_images(self):
        """Messages about the image, its symbols and its script."""
        files = self.files
        return {
            "running FILE with --monitor because its": ("map", ADDS), "running FILE with --monitor because it calls": ("map", files.key),
            "FILE is built for compressed": ("map", "--monitor", files.compressed),
            "FILE:LINE: COMMAND: unknown command": self.scripted("unknown"),
            "FILE:LINE: COMMAND: no symbol 'NAME'; did": self.scripted("man"),
            "FILE:LINE: COMMAND: no symbol 'NAME': no": ("map", SUM, "--script", files.script),
            "FILE:LINE: COMMAND: no symbol 'NAME' at": self.scripted("behind"),
            "FILE:LINE: COMMAND: symbol": self.scripted("twice"),
            "cannot open": ("map", SUM, "--script", "/none"), "'FILE' is a text file,": ("map", files.text),
            "'FILE' is a text file with": ("map", files.marked), "'FILE' is too large": ("map", "/dev/zero"),
            "script": ("map", SUM, "--script", files.lines_of_script), "cannot load 'FILE': rvbench: too": ("map", "--kind", "raw", files.large),
            "cannot load 'FILE': rvbench: image NUMBER": ("map", "--kind", "elf", SUM),
            "cannot load 'FILE': rvbench: image 9": ("map", "--no-monitor", "--ram", "65536", files.compressed), "no symbols from": ("map", "--symbols", files.cut, SUM),
            "no symbols in": ("map", "--symbols", files.text, SUM),
            "no symbol 'NAME'; did": ("trace", "--monitor", ADDS, "--symbols", LISTING, "--function", "man"),
            "no symbol 'NAME': no": ("trace", SUM, "--function", "main"), "no source lines; use": ("touch", SUM, "--lcov"), "no source lines from": ("trace", files.endless, "--monitor", "--to", "3"),
            "embedding": ("page", files.with_source, "--steps", "40"), "--sources": ("page", SUM, "--sources", "/none"),
            "create rejects": ("measure", files.region, "80020000", "1001", *NUMBERS[2:]),
            "cannot read": ("measure", files.cut, *NUMBERS), "'FILE' has COUNT bytes": ("measure", ROOT / "docs" / "LOOK.md", *NUMBERS)}

    def of_finders(self):
        """Messages of the finders about enclaves and their runs."""
        files, hmac = self.files, EXAMPLES / "enclaves" / "timer" / "image"
        return {
            "'PLACE' is neither a hexadecimal address": self.leak("nowhere", "00", "01"),
            "'PLACE' is neither a hexadecimal number": ("measure", files.region, "nowhere", *NUMBERS[1:]), "a secret must": self.leak("80020800", "0", "01"),
            "no enclave is created": self.leak("80020800", "00", "01", "--slot", "4"), "the bytes at ADDRESS are outside the region": self.leak("80010000", "00", "01"),
            "the two secrets": self.leak("80020800", "00", "0001"), "the size of": self.tries("80020800"),
            "the enclave in slot NUMBER is never": self.leak("80020800", "00", "00", "--steps", "6158"),
            "--steps COUNT ended the run while the": ("timer", "--monitor", hmac, "--steps", "60"), "--seconds ended leak": self.tries("80020f00:4", "--seconds", "0"),
            "--seconds ended inputs after": ("inputs", "--monitor", ADDS, "--seconds", "0"), "inputs runs": ("inputs", "--monitor", ADDS, "--harts", "2"),
            "the enclave in slot NUMBER does": ("inputs", "--monitor", EXAMPLES / "enclaves" / "two_harts" / "image", "--steps", "3000"),
            "no two secrets": ("leak", "--monitor", STORE / "image", "--symbols", STORE / "symbols", "--at", "pin:8", "--tries", "2"),
            "the host does not": ("timer", "--monitor", ADDS), "the enclave in slot NUMBER never": self.tries("a0@80020f00"),
            "leak requires": ("leak", "--monitor", LEAKS, "--at", "80020800"), "no enclave runs": ("window", "--monitor", ADDS, "--steps", "9"),
            "stack overflow in WORLD at step NUMBER, PLACE: sp": self.overflow(1),
            "stack overflow in WORLD at step NUMBER, PLACE: store": self.overflow(3),
            "no enclave in": ("timer", SUM, "--monitor", "--steps", "9"),
            "the enclave in slot NUMBER executes": ("timer", "--monitor", EXAMPLES / "enclaves" / "at_rest" / "image"),
            "cannot write 'REPORT'": self.leak("80020800", "00", "00", "--junit", "/none/report"),
            "--public requires": ("window", "--monitor", ADDS, "--public", "80030000"), "SUBCOMMAND requires": ("timer", SUM),
            "the bytes at ADDRESS are outside the RAM": ("leak", SUM, "--at", "8ffffff0", "00", "01"),
            "--steps COUNT ended the run while it": ("leak", IMAGES + "/leak_bare/image", "--at", "80000300", "00", "01", "--steps", "5")}

    @staticmethod
    def of_verify():
        """Messages of `verify`."""
        first = ("verify", "--monitor", ADDS)
        return {
            "--public, --wiped": (*first, "--wiped"), "--at and --must-know": (*first, "--at", "80020000:4", "--must-know", "80020000:4"),
            "--must-matter names": (*first, "--at", "80020000:4", "--must-matter", "80020010:4"),
            "verify needs bytes": (*first, "--at", "a0@80020000"),
            "'TEXT' is no length": (*first, "--length", "nowhere"), "--length leaves out": (*first, "--length", "80030000:0"),
            "--allow names no instruction": (*first, "--allow", "80030000"),
            "'TEXT' is no number": (*first, "--at", "80020000:4", "--public", "answer@answer=x")}

    def of_races(self):
        """Messages of `races`."""
        files = self.files
        return {
            "--forbid CONDITION": self.counted("--forbid", "80011000 == 2"),
            "--forbid is undecided": self.counted("--forbid", "80011000 == 99", "--seconds", "0"),
            "the search is incomplete: it was": self.counted("--seconds", "0"), "the search is incomplete: FINAL": ("races", files.loop, "--steps", "99"),
            "invalid --forbid": self.counted("--forbid", "80011000"), "invalid value": self.counted("--forbid", "80011000 == many"),
            "invalid --outcome: WHY": self.counted("--outcome", "nowhere"), "invalid --outcome: the": self.counted("--outcome", "80011000:0x4"),
            "the step at ADDRESS reads": ("races", files.cycle), "cannot write to": self.counted("--scripts", files.text)}

    def of_run(self):
        """Messages of `run` about the end of a program."""
        hello = EXAMPLES / "enclaves" / "hello"
        again = self.files.write("again", "970200009382c2007390523073000000\n")  # sets mtvec to the address of its ecall
        failing = ("--monitor", PROGRAMS / "failing" / "image", "--symbols", PROGRAMS / "failing" / "symbols", "--script")
        host, call, hang, stuck = (self.files.write(it.replace(" ", "_"), it + "\n") for it in
                                   ("poke task 01", "poke task 02", "poke task 03", "poke inside 02"))
        attacked = EXAMPLES / "enclaves" / "hmac_attacked" / "image"
        return {
            "CAUSE (value": ("run", *failing, host), "CALL refused": ("run", *failing, call), "the program hangs": ("run", *failing, hang),
            "the enclave hangs": ("run", *failing, stuck), "expected: FAILURE": ("run", *failing, host, "--expect", "store access fault"),
            "--expect 'FAILURE': it": ("run", *failing, hang[:-1] + "1", "--expect", "BadState"), "invalid --expect": ("run", SUM, "--expect", "BadEntri"),
            "NUMBER more traps": ("run", "--monitor", attacked),
            "the search for traps": ("run", "--steps", "400000", self.files.write("storm", "970200009382020173905230232000001300000023200000\n")),
            "the program ended": ("run", hello / "image", "--symbols", hello / "symbols"), "the program is in": ("run", ADDS),
            "the program did not end": ("run", self.files.loop, "--steps", "50"), "fault: CAUSE at": ("run", EXAMPLES / "programs" / "elf" / "image"),
            "fault: CAUSE again": ("run", again), "fault: a jump": ("run", MONITORS / "own_monitor" / "image")}

    def guarded(self, name, steps):
        """The example with two enclaves, in a short run. The line `once` lacks the first filler."""
        ranges = self.files.write("ranges" + name, (MONITORS / "two_enclaves" / "ranges").read_text().replace("once         filler0 ", "once         "))
        return "guard", "--timers", "0", "--steps", steps, MONITORS / "two_enclaves" / "image", ranges

    def of_monitors(self):
        """Messages of `conform` and `guard`."""
        files, own, pair = self.files, MONITORS / "own_monitor" / "image", MONITORS / "two_enclaves" / "image"
        return {
            "'FILE' is not a 32-bit ELF file, which": ("conform", SUM), "'FILE' is not a 32-bit ELF file 2": ("guard", own, files.text, "--host", SUM),
            "a segment of": ("guard", own, files.text, "--host", pair),
            "'FILE' has COUNT mret": ("conform", EXAMPLES / "programs" / "elf" / "image"),
            "boot line": ("conform", own, "--boot", files.lines["unknown"]), "no script has": ("conform", own, "--only", "nothing"),
            "invalid --memory": ("conform", own, "--memory", "80040000"), "--memory RANGE must": ("conform", own, "--memory", "80040000-8007ffff"),
            "--memory RANGE is too small": ("conform", own, "--ram", "524288", "--memory", "80060000-8007ffff"),
            "--ram": ("conform", own, "--ram", "131072"), "FILE:LINE: expected": ("guard", pair, files.text),
            "'FILE' has no range": ("guard", pair, files.write("hands", "hands a0\n")), "the time limit": ("conform", own, "--seconds", "0"),
            "these enclaves never": self.guarded("9", "880"), "these enclaves were": self.guarded("0", "880"),
            "after they were": self.guarded("1", "4000"), "a run ended": ("guard", "--timers", "0", own, MONITORS / "two_enclaves" / "ranges"),
            "--returns": ("map", "--returns", "--monitor", ADDS), "in M at step": ("map", "--returns", "--no-monitor", IMAGES + "/map_opened/image")}

    def of_arguments(self):
        """Messages about the command line."""
        return {
            "page does": ("page", SUM, "--json"), "no subcommand": ("mpa", SUM), "unrecognized": ("map", SUM, "--fly"),
            "argument --seconds": ("races", "--seconds", "nan", SUM),
            "SUBCOMMAND --harts 2 requires": ("timer", "--monitor", "--harts", "2", ADDS),
            "argument --world": ("trace", SUM, "--world", "foo"), "argument --every": ("timer", SUM, "--every", "0"),
            "--to NUMBER": ("trace", SUM, "--from", "9", "--to", "3"), "--from NUMBER": self.tries("80020800:4", "--from", "3"),
            "cannot listen": ("gdb", SUM, "--port", "99999"), "--schedule and": ("map", ADDS, "--schedule", "4"),
            "the harts alternate": ("map", ADDS, "--harts", "2"), "'DIR' exists": ("new", ROOT), "cannot write 'DIR'": ("new", "/proc/none"), "the name of the folder": ("new", ""), "--harts 2": ("map", SUM, "--harts", "2"), "OPTION cannot": ("touch", SUM, "--lcov", "--json")}

    def special(self):
        """Messages that need more than a command line: each has a function."""
        runs, files = self.runs, self.files
        races, inputs = ("races", "--monitor", ADDS), ("inputs", "--monitor", EXAMPLES / "enclaves" / "bug" / "image")
        return {
            "running the unproved": lambda: runs.unproved(self.folder, SUM), "cannot build rvbench": lambda: runs.unbuilt(self.folder, SUM),
            "cannot find rvbench": lambda: runs.installed(self.folder, "map", SUM),
            "out of memory": lambda: runs.run(("measure", "/dev/zero", *NUMBERS), 'ulimit -v 100000; exec "$0" "$@"'),
            "internal error": lambda: runs.patched("trace.RunTracer.events = lambda self: 1 // 0", ("trace", SUM)),
            "explain stopped": lambda: runs.run(("explain", files.write("wrong", "6f000000\n--\n" + 10001 * "fly\n"))),
            "cannot write the path": lambda: runs.in_folder(self.folder / "it's", "new", str(self.folder / "new")),
            "cannot find the examples": lambda: runs.installed(self.folder, "new", str(self.folder / "new")),
            "MODULE is not installed, so WHAT 0": lambda: runs.run(("map", "--monitor", ADDS), PYTHONPATH=files.without("elftools")),
            "MODULE is not installed, so WHAT 3": lambda: runs.run(("page", SUM), PYTHONPATH=files.without("jinja2")),
            "the step at ADDRESS had": lambda: runs.patched(OTHERWISE, races), "the step at ADDRESS changed": lambda: runs.patched(MORE, races),
            "a finding at": lambda: runs.patched(ACCESS, ("inputs", "--monitor", EXAMPLES / "enclaves" / "bug" / "image", "--runs", "40")),
            "the replay": lambda: runs.patched(ORDER, races), "the registers": lambda: runs.patched(REGISTERS, ("trace", SUM)),
            "a process of": lambda: runs.patched(KILLED, ("timer", "--monitor", LEAKS, "--jobs", "2")),
            "guard compared only": lambda: runs.patched(CUT_PAIR, self.guarded("1", "4000")),
            "the monitor has": lambda: runs.patched(MANY_VECTORS, self.guarded("2", "99")),
            "--seconds ended inputs before": lambda: runs.patched(LATE_REPLAY, (*inputs, "--runs", "40", "--seconds", "600")),
            "Ctrl-C ended inputs": lambda: runs.stopped((*inputs, "--runs", "1000000"), "Ctrl-C"),
            "these cells of the coverage table": lambda: runs.patched(ONE_SCRIPT, ("conform", MONITORS / "own_monitor" / "image")),
            "hart NUMBER does not": lambda: runs.patched(NEVER_BACK, ("races", "--monitor", "--harts", "2", "--ram", "131072", files.spin)),
            "cannot run": lambda: runs.run(("map", SUM), RVBENCH=files.text), "RVBENCH": lambda: runs.run(("map", SUM), RVBENCH="/none"),
            "FILE: rvbench exited": lambda: runs.run(("map", SUM), RVBENCH="/bin/true"), "cannot write the output": lambda: runs.run(("map", SUM), FULL),
            "standard output": lambda: runs.run(("map", SUM), 'exec "$0" "$@" >&-'), "standard input": lambda: runs.typed(("gdb", SUM)),
            "interrupted": lambda: runs.stopped(("trace", files.loop)), "broken pipe": lambda: runs.run(("trace", files.loop), '"$0" "$@" | head -n 1')}

    def all(self):
        """Returns the function of each case, by the beginning of its line."""
        simple = {**self.of_images(), **self.of_finders(), **self.of_verify(), **self.of_races(), **self.of_run(), **self.of_monitors(), **self.of_arguments()}
        return {**{name: lambda words=words: self.runs.run(words) for name, words in simple.items()}, **self.special()}


@pytest.fixture(scope="module")
def files():
    """The files, in a folder whose path is short: an ELF file has it in place of the name of a source file."""
    with tempfile.TemporaryDirectory(dir="/tmp", prefix="r") as folder:
        yield Files(Path(folder), bytes.fromhex(ADDS.read_text(encoding="ascii").split("--")[0]))


@pytest.fixture
def cases(files, bench, tmp_path):
    return Cases(files, Runs(RVLOOK, ROOT, bench), tmp_path).all()


def names_of(cases, status, line):
    """The cases of a row: one, if the table and the cases agree."""
    return [it for it in cases if line.startswith(it) or it == "%s %d" % (line.split(";")[0], status)]


def pattern_of(line):
    """Returns a row as a regular expression: words in capitals are placeholders."""
    return "".join(".+" if re.fullmatch("[A-Z]{3,}", it) and it not in KEPT else re.escape(it) for it in re.split(r"(\b[A-Z]{3,}(?=\b|_))", line))


@pytest.mark.parametrize("status, severity, line", ROWS, ids=[line.split("`")[0][:50] for *_, line in ROWS])
def test_row_of_the_table_is_what_its_case_prints(cases, status, severity, line):
    (name,) = names_of(cases, status, line)
    found, printed = cases[name]()
    assert any(re.fullmatch("rvlook: %s: %s" % (severity, pattern_of(line)), it) for it in printed), printed
    assert [it for it in printed if not it.startswith(("rvlook: ", "prompt"))] == []
    assert found == status


def test_each_case_has_its_row(cases):
    assert len(ROWS) > 30
    assert [it for it in cases if sum(it in names_of(cases, status, line) for status, _, line in ROWS) != 1] == []
