"""The pytest plugin: its fixtures, markers and failures, each in a pytest of its own over tests that are written here."""
import importlib.util
import textwrap

import pytest
from support.authors import run_tests

from conftest import EXAMPLES
from rvlook.api import build

HELLO = EXAMPLES / "enclaves" / "hello"


@pytest.fixture(scope="module")
def hello(built, tmp_path_factory):
    """The ELF file of the example hello. `built` skips the tests without a compiler."""
    return build(HELLO, tmp_path_factory.mktemp("hello") / "program.elf")


@pytest.fixture
def run(bench, hello, tmp_path):
    """Runs the text of a test file beside program.elf; returns the `CompletedProcess`."""
    (tmp_path / "program.elf").symlink_to(hello)

    def done(text, *words):
        (tmp_path / "test_it.py").write_text("import pytest\nfrom rvlook.api import exited\n" + textwrap.dedent(text))
        return run_tests(bench, tmp_path, *words)
    return done


def test_the_program_beside_the_test_is_the_default(run):
    done = run('''
        def test_it(machine, enclave, constants, program):
            assert enclave.run() == exited(42)
            assert program.name.endswith("program.elf") and constants is program.constants
        ''')
    assert done.returncode == 0 and "1 passed" in done.stdout, done.stdout


def test_a_marker_names_a_folder_which_stays_as_it_is(run, tmp_path):
    before = {it.name: it.read_bytes() for it in HELLO.iterdir() if it.is_file()}
    done = run('''
        @pytest.mark.program(%r, steps=9)
        def test_it(machine):
            assert machine.setup.limit == 9
        ''' % str(HELLO))
    assert done.returncode == 0, done.stdout
    assert {it.name: it.read_bytes() for it in HELLO.iterdir() if it.is_file()} == before


def test_a_missing_program_and_one_that_cannot_be_built_are_errors(run, tmp_path):
    (tmp_path / "bad").mkdir()
    (tmp_path / "bad" / "host.c").write_text("int main(void) { return nothing; }\n")
    done = run('''
        @pytest.mark.program("none.elf")
        def test_none(machine): ...
        class TestBad:
            @pytest.mark.program("bad")
            def test_bad(self, machine): ...
        ''')
    assert done.returncode == 1
    assert "no program 'none.elf' beside test_it.py or in %s; build it with make" % tmp_path in done.stdout


def test_a_folder_with_an_error_is_reported_with_the_text_of_the_compiler(run, tmp_path):
    (tmp_path / "bad").mkdir()
    (tmp_path / "bad" / "host.c").write_text("int main(void) { return nothing; }\n")
    done = run('''
        @pytest.mark.program("bad")
        def test_bad(machine): ...
        ''')
    assert done.returncode == 1
    assert "cannot build '" in done.stdout and "nothing" in done.stdout


def test_markers_repeat_a_test(run):
    done = run('''
        seen = []
        @pytest.mark.interrupts(None, 1, 7)
        def test_it(machine, enclave):
            assert enclave.run() == exited(42)
            seen.append(machine.interrupts)
        @pytest.mark.program("program.elf", harts=2)
        @pytest.mark.schedules(1, "0011", "seed 3")
        def test_harts(machine):
            machine.run()
            seen.append(machine.schedule)
        def test_seen():
            assert seen[:5] == [None, 1, 7, "01", "0011"] and len(seen) == 6
        ''', "-vv")
    assert done.returncode == 0, done.stdout
    for name in ("test_it[uninterrupted]", "test_it[interrupt every 7]", "test_harts[program.elf-schedule seed 3]"):
        assert name in done.stdout


def test_a_failure_says_where_the_machine_is_and_how_to_repeat_the_run(bench, run, tmp_path):
    done = run('''
        def test_it(machine, enclave):
            enclave.run(until="application")
            assert machine.rights("host", "region_base", 4096) == "rwx"
        ''')
    assert done.returncode == 1
    assert "E   assert rights --- == rwx\nE     host at region_base, 80020000-80020fff, after step " in done.stdout
    state = done.stdout.split(" rvbench ---")[1]
    assert ": e0 in U at 8002" in state and "application.c:" in state and "\ne0:            Running\n" in state
    repeat = next(line for line in state.splitlines() if line.startswith("repeat:"))
    path = tmp_path / repeat.split("< ")[1]
    assert repeat.split()[1:] == ["rvbench", "run", "--ram", "1048576", "--kind", "auto", "--monitor", "<", str(path.relative_to(tmp_path))]
    assert path.read_text(encoding="latin-1").startswith("7f454c46")


def test_a_search_that_finds_something_fails_with_all_findings(run, hello):
    done = run('''
        @pytest.mark.finds_nothing("leaks", "answer_is_nowhere")
        def test_error(): ...
        @pytest.mark.finds_nothing("timmer")
        def test_name(): ...
        @pytest.mark.finds_nothing("timer", every=7)
        def test_nothing(): ...
        @pytest.mark.program("program.elf", steps=9)
        @pytest.mark.finds_nothing("window")
        def test_no_enclave(): ...
        @pytest.mark.finds_nothing("inputs", seconds=0.0)
        def test_unfinished(): ...
        ''')
    assert "4 failed, 1 passed" in done.stdout, done.stdout
    assert "'answer_is_nowhere' is neither a hexadecimal address nor a symbol" in done.stdout
    assert "no finder 'timmer'; did you mean 'timer'?" in done.stdout
    assert "the search did not finish: --seconds ended inputs after" in done.stdout


def test_verified_fails_unless_the_result_is_complete_without_findings(run):
    pytest.importorskip("z3", reason="python3-z3 is not installed")
    done = run('''
        @pytest.mark.verified()
        def test_complete(): assert not "the body"
        @pytest.mark.verified(seconds=0)
        def test_unfinished(): ...
        @pytest.mark.verified("region_base:4", wiped=True)
        def test_finding(): ...
        @pytest.mark.verified(slot=3)
        def test_no_enclave(): ...
        ''')
    assert "3 failed, 1 passed" in done.stdout, done.stdout
    assert "the search did not finish: not complete: " in done.stdout and "no enclave in slot 3" in done.stdout


def test_strategies_draw_values_of_the_types(run):
    done = run('''
        from hypothesis import given, settings, strategies
        from rvlook.api.strategies import structure
        @settings(max_examples=20, deadline=None)
        @given(strategies.data())
        def test_it(program, data):
            with program.start() as machine:
                view = machine.view("monitor_answer", "window_base")
                members = data.draw(structure(program, "monitor_answer", value=strategies.integers(3, 5)))
                assert sorted(members) == ["status", "value"]
                view.assign(members)
                assert view == members and 3 <= view.value <= 5
        def test_member(program):
            with pytest.raises(Exception, match="no member 'vale' in 'monitor_answer'; did you mean 'value'"):
                structure(program, "monitor_answer", vale=3)
        ''')
    assert done.returncode == 0, done.stdout


@pytest.mark.skipif(importlib.util.find_spec("xdist") is None, reason="pytest-xdist is not installed")
def test_findings_and_states_are_reported_under_xdist(run):
    done = run('''
        def test_fails(machine, enclave):
            assert enclave.run() == exited(43)
        @pytest.mark.parametrize("number", range(3))
        @pytest.mark.interrupts(1, 2)
        def test_passes(enclave, number):
            assert enclave.run() == exited(42)
        @pytest.mark.finds_nothing("timer", slot=3)
        def test_search(): ...
        ''', "-n", "2")
    assert "2 failed, 6 passed" in done.stdout, done.stdout
    assert "assert exited with 42 == exited with 43" in done.stdout and "\nrepeat:        rvbench run " in done.stdout
    assert "no enclave in slot 3" in done.stdout


def test_the_test_that_closes_its_machine_still_has_its_failure(run):
    done = run('''
        def test_it(machine):
            machine.close()
            assert machine.steps
        ''')
    assert "the state of the machine cannot be shown: the machine is closed" in done.stdout, done.stdout
