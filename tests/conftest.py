"""Shared fixtures: they run rvlook and the program, and provide test programs.

`RVBENCH` names the built program. `RVLOOK` names another copy of the script `rvlook`, such as a mutant. A test program is
a folder of `tests/rvlook/programs`: its C sources, and the image and the symbols that
`examples/build` made of them, so that the tests need no compiler.
"""
import atexit
import json
import os
import resource
import shutil
import subprocess
import tempfile
import time
import types
from functools import lru_cache
from pathlib import Path

import pytest

pytest.register_assert_rewrite("support")
from support.clock import processor_clock as clock  # noqa: E402
from support.limits import HANG, wait_until  # noqa: E402

ROOT = Path(__file__).resolve().parents[1]
RVLOOK = Path(os.environ.get("RVLOOK") or ROOT / "rvlook")
PROGRAMS = ROOT / "tests" / "rvlook" / "programs"
EXAMPLES = ROOT / "examples"
BUILD = EXAMPLES / "build"
JOINED = Path(tempfile.mkdtemp(prefix="rvlook-inputs-"))
atexit.register(shutil.rmtree, JOINED, ignore_errors=True)


@lru_cache(maxsize=None)
def input_of(folder):
    """Returns the path of the input of an example: `stdin`, or a file that joins the image and the script."""
    if (folder / "stdin").exists():
        return folder / "stdin"
    path = JOINED / ("%s_%s" % (folder.parent.name, folder.name))
    path.write_bytes((folder / "image").read_bytes() + (folder / "script").read_bytes())
    return path


def pytest_addoption(parser):
    """Adds the options of this suite."""
    parser.addoption("--update-golden", action="store_true", help="rewrite the golden files of rvlook")
    parser.addoption("--all-orders", action="store_true", help="compare races with all schedules of more programs, which takes minutes")
    parser.addoption("--all-mutants", action="store_true", help="compare every mutant of own_monitor, those without an effect over all scripts")
    parser.addoption("--pairs", type=int, default=100, help="run this many pairs of unlike hosts and clocks (default: 100)")
    parser.addoption("--verify-programs", type=int, default=0, help="compare verify with rvbench on N random programs of some 100 steps (default: 500)")
    parser.addoption("--long-verify", action="store_true", help="verify hmac with all lengths, and parsers of 64 bytes, which takes minutes")
    parser.addoption("--prove-twice", action="store_true", help="prove and build the program in two clones and compare, which takes half an hour")
    parser.addoption("--fuzz-seconds", type=float, default=0, help="run each fuzzer of tests/rvlook/fuzz for this long (default: a few examples)")


def pytest_configure(config):
    """Creates one folder for the generated cases of all workers; the first one that needs it fills it."""
    if not os.environ.get("MADE_CASES"):
        os.environ["MADE_CASES"] = tempfile.mkdtemp(prefix="rvbench-cases-")
        config.add_cleanup(lambda: shutil.rmtree(os.environ["MADE_CASES"], ignore_errors=True))


@pytest.hookimpl(optionalhook=True, trylast=True)
def pytest_xdist_newgateway(gateway):
    """Waits until a worker of xdist has answered what its reporter asks, so that its main thread runs the tests. Otherwise another thread of the
    worker may run them, in which no signal can be set."""
    wait_until(lambda: not gateway.remote_status().numexecuting, 0.01)
    time.sleep(0.1)


@pytest.fixture
def fuzz_seconds(request):
    """Returns the seconds of a fuzzer; 0 for a few examples with a fixed seed."""
    return request.config.getoption("--fuzz-seconds")


@pytest.fixture(scope="session")
def bench():
    """Returns the path of the built program."""
    path = os.environ.get("RVBENCH") or str(ROOT / "crates" / "rvbench" / "out" / "rvbench")
    if not os.access(path, os.X_OK):
        pytest.fail("there is no built program; set RVBENCH, or run ./prove")
    return path


@pytest.fixture(scope="session")
def rvlook(bench):
    """Runs `./rvlook` with these arguments in the root of the repository; returns its `CompletedProcess`, with text. The limits of `verify` count
    processor time. A process that takes more than `most` seconds of it is killed."""
    def run(*arguments, most=None, stdin="", env=None, cwd=ROOT):
        environment = {**os.environ, **clock.ENVIRONMENT, "RVBENCH": bench, "TERM": "dumb", **(env or {})}
        return subprocess.run([str(RVLOOK), *map(str, arguments)], cwd=cwd, input=stdin, capture_output=True, text=True, errors="replace",
                              timeout=HANG, env=environment, check=False, preexec_fn=limited_to(most))
    return run


def limited_to(most):
    """Returns a function that sets the processor time of each process that follows, in seconds, or None without a limit."""
    return most and (lambda: resource.setrlimit(resource.RLIMIT_CPU, (most, most)))


@pytest.fixture(scope="session")
def objects(rvlook):
    """Runs a subcommand with `--json`; returns its status and its objects."""
    def run(*arguments, **options):
        done = rvlook(*arguments, "--json", **options)
        return done.returncode, [json.loads(line) for line in done.stdout.splitlines()]
    return run


@pytest.fixture(scope="session")
def results(objects):
    """Runs a subcommand that must end with a status; returns its objects."""
    def run(*arguments, status=0, **options):
        ended, found = objects(*arguments, **options)
        assert ended == status, "rvlook %s ends with status %d" % (" ".join(map(str, arguments)), ended)
        return found
    return run


@pytest.fixture(scope="session")
def replies(bench):
    """Runs the lines of a script directly on the program, after the image of an input; returns the reply lines."""
    def run(image, words, script):
        text = Path(ROOT, image).read_text(encoding="ascii").split("--\n")[0] + "--\n" + "\n".join(script) + "\n"
        done = subprocess.run([bench, "run", *words], input=text, capture_output=True, text=True, check=True, timeout=HANG)
        return done.stdout.splitlines()
    return run


@pytest.fixture(scope="session")
def debugger(bench):
    """Starts `rvlook gdb` on an image with these arguments; returns a client, a context manager."""
    from support.gdb_client import Client
    environment = {**os.environ, "RVBENCH": bench, "TERM": "dumb"}
    return lambda image, words=(), **options: Client([RVLOOK, "gdb", *words, image], ROOT, environment, **options)


@pytest.fixture(scope="session")
def program():
    """Returns the stored image of a test program with its symbols, as arguments of a subcommand."""
    def arguments(name):
        folder = PROGRAMS / name
        return [str(folder / "image"), "--monitor", "--symbols", str(folder / "symbols")]
    return arguments


@pytest.fixture(scope="session")
def short_program(program):
    """Returns the same for a program that ends within 2000 steps, which saves time with an unproved program."""
    return lambda name: [*program(name), "--steps", "2000"]


@pytest.fixture(scope="session")
def built(tmp_path_factory):
    """Builds the ELF file of a test program; skips the test if no compiler is installed."""
    if not (shutil.which("clang") and shutil.which("ld.lld")) and not shutil.which("riscv64-unknown-elf-gcc"):
        pytest.skip("no compiler for RISC-V is installed")

    def path(name, *options):
        folder = tmp_path_factory.mktemp(name) / name
        shutil.copytree(PROGRAMS / name, folder)
        elf = folder / "program.elf"
        subprocess.run([str(BUILD), *options, str(folder), str(elf)], check=True, capture_output=True, text=True)
        return elf
    return path


@pytest.fixture
def processor_clock(monkeypatch):
    """Counts processor time in this process, as the fixture `rvlook` does in its processes."""
    monkeypatch.setattr(time, "perf_counter", time.process_time)
    clock.limit_questions(pytest.importorskip("z3"), monkeypatch.setattr)


@pytest.fixture
def verified(bench, monkeypatch, capsys, processor_clock):
    """Runs `verify` with `--json` in this process, which saves the start of another one; returns its status and its objects."""
    from rvlook.__main__ import main
    monkeypatch.setenv("RVBENCH", bench)

    def run(*arguments):
        status = main(["verify", *map(str, arguments), "--json"])
        return status, [json.loads(line) for line in capsys.readouterr().out.splitlines()]
    return run


@pytest.fixture
def up_to_a_finding(monkeypatch, processor_clock):
    """Ends all searches of `verify` in this process at the first finding, which is replayed. The verdict of its question is final."""
    from rvlook.symbolic.search import Search
    report, late = Search.report, Search.is_late

    def report_and_end(self, *those):
        report(self, *those)
        if self.findings:
            self.solver.deadline = 0
    monkeypatch.setattr(Search, "report", report_and_end)
    monkeypatch.setattr(Search, "is_late", lambda self: bool(self.findings) or late(self))


@pytest.fixture(scope="session")
def no_z3(tmp_path_factory):
    """Returns an environment in which z3 is not installed."""
    folder = tmp_path_factory.mktemp("no_z3")
    (folder / "z3.py").write_text("raise ImportError\n")
    return {"PYTHONPATH": str(folder)}


@pytest.fixture(scope="session")
def final_states(bench):
    """Searches all schedules of two harts in this process; returns the search and its final states. The arguments are the bytes of a raw image, the
    outcome as in `--outcome`, members of `Bounds`, `plain` for no partial-order reduction, and `limit` and `seconds` as in the options."""
    os.environ["RVBENCH"] = bench
    from rvlook.finders import outcomes
    from rvlook.finders.races import final_states as states, machine as machines, search as searches, time_limit
    from rvlook.image import symbols
    from rvlook.image.files import Image, digits_of
    from rvlook.protocol import run

    def found(data, *names, plain=False, limit=0, seconds=None, **bounds):
        setup = run.Setup(Image("test", digits_of(data), data), monitor=True, ram=131072, harts=2)
        outcome = [outcomes.outcome_of(it, symbols.Symbols(), 2) for it in names]
        machine = machines.RaceMachine(types.SimpleNamespace(setup=setup), (), limit)
        try:
            search = searches.ScheduleSearch(machine, searches.SearchBounds(**bounds), plain, outcomes.watched_of(outcome), time_limit.TimeLimit(seconds))
            return search, states.find_final_states(search, lambda _: outcome)
        finally:
            machine.close()
    return found
