"""The package rvlook.api: places, machines, the test as the host, access rights, and the finders."""
import subprocess

import pytest

from conftest import EXAMPLES, ROOT
from rvlook import api
from rvlook.api import NotReached, RvlookError, SymbolError, build, exited, find, load, refused, stopped

REGION, WINDOW, PAGE = 0x80020000, 0x80030000, 4096
PIN = b"27182818"
REFUSED, OPENED = 1, 3
PAGE_OF_TESTS = ROOT / "docs" / "TESTS.md"


@pytest.fixture(scope="module", autouse=True)
def simulator(bench):
    """Lets the package run the built program."""
    with pytest.MonkeyPatch.context() as patch:
        patch.setenv("RVBENCH", bench)
        yield


@pytest.fixture(scope="module")
def store(built, tmp_path_factory):
    """The key store, with debugging information. `built` skips the tests without a compiler."""
    return load(build(EXAMPLES / "enclaves" / "store", tmp_path_factory.mktemp("store") / "store.elf"))


@pytest.fixture(scope="module")
def hello(built, tmp_path_factory):
    """The enclave that `rvlook new` begins with."""
    return load(build(EXAMPLES / "enclaves" / "hello", tmp_path_factory.mktemp("hello") / "hello.elf"))


@pytest.fixture
def machine(store):
    """The key store at reset."""
    with store.start() as it:
        yield it


@pytest.fixture
def enclave(machine):
    """The store, created by the test."""
    return machine.create()


@pytest.fixture
def window(enclave, store):
    """The window of the store, with a request to open it."""
    window = enclave.window("request")
    window.assign({"command": store.constants.OPEN, "pin": PIN})
    return window


# ---- places and values

def test_a_place_is_an_address_a_symbol_an_offset_a_line_an_element_or_a_member(store):
    answers = store.place("answers").address
    assert store.place("answers[1]").address == answers + 4
    assert store.place("answers+4").address == answers + 4
    assert store.place("left.status").size == 4
    assert store.place(WINDOW).address == WINDOW
    assert store.place("host.c:39").address == min(store.place("host.c:39").addresses)
    assert store.symbols.source(store.place("host.c:39").address) == "host.c:39"


def test_an_inlined_function_is_a_place(store, machine):
    assert "is_pin" not in store.symbols.by_name
    machine.run_until("is_pin")
    assert machine.world == "e0"
    assert machine.pc in store.place("is_pin").addresses


@pytest.mark.parametrize("place, message", [
    ("kye", "no symbol 'kye'; did you mean 'key'?"), ("left.statu", "no member 'statu' in 'monitor_answer'; did you mean 'status'?"),
    ("application.c:1", "no code at application.c:1; the next line with code is application.c:"),
    ("application.c:9999", "no code at application.c:9999; the last line with code is application.c:"),
    ("nothing.c:3", "no code at nothing.c:3; no file 'nothing.c' has source lines; build with -g"),
    ("answers[3]", "no element 3 in 'answers[3]', which has 3")])
def test_an_unknown_place_is_an_error_with_a_remedy(store, place, message):
    with pytest.raises(SymbolError) as found:
        store.place(place)
    assert str(found.value).startswith(message)


def test_a_variable_has_the_value_of_its_type(machine):
    machine.run()
    assert machine["answers"] == [2, REFUSED, OPENED]
    assert machine["left"] == {"status": 0}
    assert machine["pin"] == PIN
    machine["answers[1]"] = -1
    assert machine["answers[1]"] == 0xFFFFFFFF
    assert machine["left"].values() == {"status": 0, "value": machine["left.value"]}


def test_a_signed_member_is_negative(machine):
    machine["left.status"] = -8
    assert machine["left.status"] == -8
    assert machine.read(machine.view("monitor_answer", "left")["status"], 4) == b"\xf8\xff\xff\xff"


def test_a_mapping_is_compared_with_the_members_that_it_names(window):
    assert window == {"pin": PIN}
    assert window != {"pin": bytes(8)}
    assert window != 3


def test_registers_are_read_and_set_by_name(machine):
    machine.registers["a0"] = -1
    assert machine.registers["x10"] == 0xFFFFFFFF
    assert machine.registers["pc"] == machine.pc == machine.program.place("_start").address
    assert machine.registers["mepc"] == 0


# ---- errors

def errors(machine, enclave):
    """Yields each wrong use with the beginning of its message."""
    program = machine.program
    yield lambda: enclave.window("request").assign({"pin": b"1234567"}), "cannot write 7 bytes to request.pin, which has 8 bytes"
    yield lambda: enclave.window("request").assign({"command": 1 << 32}), "cannot write 4294967296 to request.command, which has 4 bytes"
    yield lambda: enclave.window("requests"), "no structure 'requests'; did you mean 'request'?"
    yield lambda: machine.rights("e3", "key"), "no world 'e3' after step "
    yield lambda: machine.rights("host", 0x1000), "4096 is at 00001000, outside the RAM"
    yield lambda: machine.run_until(call="crate"), "no call 'crate'; the calls are create, destroy"
    yield lambda: machine.run_until("main", touches="key"), "run_until waits for one thing"
    yield lambda: machine.run_until(touches="application_stack_bottom+100", call="run"), "run_until waits for one thing"
    yield lambda: machine.call("crate"), "no call 'crate'"
    yield lambda: machine["_start"], "the size of '_start' is unknown; use read('_start', SIZE)"
    yield lambda: program.constants.OPN, "no constant 'OPN'; did you mean 'OPEN'?"
    yield lambda: machine.registers["mepcc"], "no register 'mepcc'; did you mean 'mepc'?"
    yield lambda: machine.ecall(mepc=3), "cannot set 'mepc'; only x1 to x31"
    yield lambda: program.start(schedule=1), "a schedule requires two harts; load the program with harts=2"
    yield lambda: api.load(program.name, harts=2, monitor=False), "two harts require the monitor"
    yield lambda: load(program.name, harts=2).start(33), "invalid schedule 33; use 1 to 32"
    yield lambda: load(program.name, harts=2).start("012"), "invalid schedule '012'; use 1 to 32"
    yield lambda: machine.create(), "the monitor refused create: refused with Overlap"
    yield lambda: enclave.finish(), "no call is under way on hart 0; call run() or resume() first"
    yield lambda: machine.read(0x10, 4), "mem 10 4: "
    yield lambda: build(EXAMPLES / "nowhere", "x.elf"), "cannot build '"


def test_a_wrong_use_is_an_error_with_a_remedy(machine, enclave):
    for action, message in errors(machine, enclave):
        with pytest.raises(RvlookError) as found:
            action()
        assert str(found.value).startswith(message)
    with pytest.raises(ValueError, match="no status 'Bad'; the statuses are NotSupported"):
        refused("Bad")


def test_a_closed_machine_cannot_be_read(store):
    with store.start() as machine:
        left = machine.view("monitor_answer", "left")
    with pytest.raises(RvlookError, match="the machine is closed"):
        left.status
    with pytest.raises(RvlookError, match="the machine is closed"):
        machine.step()


def test_a_place_that_is_not_reached_is_an_error_that_says_where_the_machine_is(machine):
    with pytest.raises(NotReached, match="the machine never reaches authenticate: it is still running at 8001.*, in host, after step 20"):
        machine.run_until("authenticate", limit=20)
    machine.run()
    with pytest.raises(NotReached, match="the machine never reaches authenticate: it is in an endless loop at "):
        machine.run_until("authenticate")


# ---- the test as the host

def test_the_host_is_as_before_after_a_call(machine):
    before = machine.registers_now(), machine.read(machine.pc, 8)
    machine.create()
    assert (machine.registers_now(), machine.read(machine.pc, 8)) == before


def test_an_enclave_that_exits_before_the_place_is_an_error_with_its_answer(enclave, window):
    window.pin = bytes(8)
    with pytest.raises(NotReached, match="the enclave never reaches authenticate: the host has its answer, stopped with 1"):
        enclave.run(until="authenticate")


def test_an_enclave_can_stay_at_its_first_instruction(machine, enclave):
    assert enclave.run(until="enclave_entry").how == "running"
    assert machine.pc == machine.program.place("enclave_entry").address
    assert machine.world == "e0"


def test_an_answer_after_a_place_is_that_of_the_enclave(enclave, window):
    assert enclave.run(until="authenticate").how == "running"
    assert enclave.finish() == stopped(OPENED)


def test_a_call_inside_an_enclave_is_an_error(machine, enclave, window):
    enclave.run(until="authenticate")
    with pytest.raises(RvlookError, match="the host does not run at .*, in U of e0; go on to the host first"):
        machine.call("destroy", 0)


def test_an_interrupted_enclave_gives_the_same_answer(hello):
    with hello.start(interrupts=3) as machine, hello.start() as other:
        assert machine.create().run() == other.create().run() == exited(42)
        assert machine.steps > other.steps


def test_a_pending_timer_interrupts_the_enclave(machine, enclave, window):
    machine.raise_timer()
    assert enclave.run() == api.interrupted()
    assert enclave.state == "Stopped"


# ---- access, time and repetition

def test_rights_that_differ_within_a_place_equal_no_single_ones(machine, enclave):
    found = machine.rights("host", REGION - 16, 32)
    assert found == "rwx/---"
    assert ", 8001fff0-8002000f, after step " in found.reason


def test_an_access_map_prints_and_is_a_table_and_has_changes(machine):
    before = machine.access_map()
    machine.create()
    after = machine.access_map()
    assert "region of e0" in str(after)
    assert "<td style='background:#eee'><code>---</code>" in after._repr_html_()
    assert (after - before)[0] == "80020000-80021fff  host rwx -> ---  e0 rwx  region of e0"
    assert after != before


def test_restore_returns_to_memory_registers_console_and_an_open_call(machine, enclave, window):
    enclave.run(until="authenticate")
    point, place = machine.snapshot(), machine.where
    assert enclave.finish() == stopped(OPENED)
    machine.restore(point)
    assert (machine.where, machine.world, enclave.state) == (place, "e0", "Running")
    with machine.fork() as other:
        other.write(window["challenge"], b"x" * 16)
        assert window.challenge == bytes(16)
    assert enclave.finish() == stopped(OPENED)


def test_a_fork_has_the_text_of_the_console(hello):
    with hello.start() as machine:
        machine.run_until("enclave_create")
        text = machine.console
        assert text
        with machine.fork() as other:
            other.run()
            assert other.console.startswith(text)
            assert other.console.count(text.splitlines()[0]) == 1


def test_a_script_repeats_the_run(bench, machine, enclave, window):
    enclave.run()
    done = subprocess.run([bench, *machine.setup.arguments()], input=machine.script() + "regs\n", capture_output=True, text=True, check=True)
    assert done.stdout.splitlines()[-33:] == machine.ask("regs")[0]


def test_the_writer_of_a_byte_is_an_instruction_or_the_test(machine, enclave, window):
    assert machine.writer_of(window["code"]) is None
    enclave.run()
    assert " at 8002" in machine.writer_of(window["code"]) and machine.writer_of(window["code"]).endswith(" in e0")
    machine.write(window["code"], b"\1")
    assert machine.writer_of(window["code"]) == "the test, after step %d" % machine.steps


def test_a_program_that_finishes_has_its_status(hello):
    with hello.start() as machine:
        assert machine.run() == api.Ending("finished", machine.where, 0)
        assert machine.console.endswith("the enclave answered 42")


# ---- schedules

@pytest.fixture(scope="module")
def two_harts(built, tmp_path_factory):
    """Two hosts that share an enclave."""
    return load(build(EXAMPLES / "enclaves" / "two_harts", tmp_path_factory.mktemp("two_harts") / "two_harts.elf"), harts=2)


@pytest.mark.parametrize("schedule", [1, 3, "0011", "seed 5"])
def test_stops_by_a_schedule_change_nothing(two_harts, schedule):
    with two_harts.start(schedule) as machine, machine.fork() as other:
        other.run()
        machine.run_until("application")
        machine.run_until(touches="load_cause")
        machine.run()
        assert [it["left.value"] for it in (machine, other)] == [42, 42]
        assert machine.scheduled == machine.steps
        with machine.fork() as again:
            assert again.registers_now() == machine.registers_now()


@pytest.mark.parametrize("schedule", [1, 3, "seed 2"])
def test_many_steps_by_a_schedule_are_those_turn_by_turn(two_harts, schedule):
    traps = set()
    for count in (40, 64, 130, 500, 900):
        with two_harts.start(schedule) as machine, two_harts.start(schedule) as other:
            for more in (count, 7):
                machine.step(more)
                other.trap = None
                for _ in range(more):
                    other.turn(1)
                state, expected = ((it.trap, it.hart, it.steps, it.scheduled, it.world, it.registers_now()) for it in (machine, other))
                assert state == expected
                traps.add(machine.trap)
    assert len(traps) > 1


def test_a_test_with_a_schedule_is_not_the_host(two_harts):
    with two_harts.start(1) as machine, pytest.raises(RvlookError, match="start the machine without a schedule"):
        machine.create()


# ---- finders

def test_a_finder_returns_its_findings(built, tmp_path):
    program = load(build(EXAMPLES / "enclaves" / "store_leaking", tmp_path / "leaking.elf"))
    found = find.leaks(program, "pin", [b"12345678", b"27182800"])
    assert [it.title for it in found] == ["pc", "steps"]
    assert found[1].text == "differ: 712 and 804"
    assert found.checks == ("pc", "steps", "address", "answer", "window")
    assert found.command == "rvlook leak %s --monitor 3132333435363738 3237313832383030 --at pin --slot 0 --seed 0" % program.name
    assert not find.overflows(program)
    races = find.races(load(program.name, harts=2), forbid="answers:1 == 3")
    assert len(races) == 1 and "# " in races[0].script


def test_a_finding_has_its_place(built, tmp_path):
    program = load(build(EXAMPLES / "enclaves" / "store_leaking", tmp_path / "leaking.elf"))
    pc = find.leaks(program, "pin", [b"12345678", b"27182800"])[0]
    assert pc.text.startswith("differs at step %d, %08x" % (pc.step, pc.pc)) and pc.source.startswith("application.c:")
    again = find.window(program)
    assert again and {it.title.split(",")[0] for it in again} == {"e0"} and all(it.text.startswith("rereads") and it.pc for it in again)
    assert again.report.count("rereads") == len(again) and "e0, activation 1" in again.checks


def test_pairs_of_drawn_secrets_are_compared(built, tmp_path):
    program = load(build(EXAMPLES / "enclaves" / "store", tmp_path / "store.elf"))
    found = find.leaks(program, "pin:8", tries=6)
    assert not found and not found.unfinished and len(found.checks) == 6 and "no difference in the other 2 pairs" in found.report


def test_inputs_have_scripts_and_failures_of_the_run(built, tmp_path):
    program = load(build(EXAMPLES / "enclaves" / "bug", tmp_path / "bug.elf"))
    found = find.inputs(program, runs=40)
    assert found and all("# ./rvbench " in it.script and it.step and it.source for it in found)
    assert not found.unfinished and "Covered:" in found.report


@pytest.mark.usefixtures("processor_clock")
def test_verify_has_scripts_and_says_what_is_open(built, tmp_path):
    pytest.importorskip("z3", reason="python3-z3 is not installed")
    store = load(build(EXAMPLES / "enclaves" / "store", tmp_path / "store.elf"))
    found = find.verify(store, "key:32", public="window_base+1c:32", must_know="pin:8")
    assert not found and not found.unfinished and "checks" in found.checks and "COMPLETE: all paths" in found.report
    assert found.command.startswith("rvlook verify %s --monitor --at key:32 --public window_base+1c:32 --must-know pin:8" % store.name)
    cut = find.verify(store, "key:32", seconds=0)
    assert not cut and cut.unfinished.startswith("not complete: ")
    bug = find.verify(load(build(EXAMPLES / "enclaves" / "bug", tmp_path / "bug.elf")))
    assert bug and all("# ./rvbench " in it.script and it.step and it.source and "input  activation" in it.text for it in bug)


def test_guard_and_conform_find_a_planted_bug(built, tmp_path):
    from support.monitors import variant
    folder = EXAMPLES / "monitors" / "two_enclaves"
    assert not find.guard(folder / "image", folder / "ranges", timers=0).unfinished
    open_regions = variant(tmp_path, [("pmp.c", "cfg[slot + 1] = slot == world ? OPEN : CLOSED", "cfg[slot + 1] = OPEN")], folder)
    found = find.guard(open_regions, folder / "ranges", timers=0)
    assert [it.title for it in found] == ["access"] and found[0].source and "violation of access" in found.report
    (tmp_path / "other").mkdir()
    measured = variant(tmp_path / "other", [("monitor.c", "enclaves[slot].measurement[i];", "enclaves[slot].measurement[i] ^ 1;")])
    different = find.conform(measured, only="measured byte 0")
    assert len(different) == 1 and "setreg" in different[0].script and different.report.startswith("different: ")


def test_finder_prints_nothing(hello, capfd):
    found = find.window(hello)
    assert not found and found.report and capfd.readouterr() == ("", "")


def test_a_search_without_findings_is_false(hello):
    found = find.timer(hello, every=7)
    assert not found and not found.unfinished and found.checks == ("e0: same result with timer interrupts",)


def test_a_finder_raises_the_errors_of_its_subcommand(hello):
    with pytest.raises(RvlookError, match="no enclave in slot 4"):
        find.timer(hello, slot=4)
    with pytest.raises(RvlookError, match="'nowhere' is neither"):
        find.leaks(hello, "nowhere", tries=1)


# ---- the names that are promised

def test_the_example_of_the_package_runs(hello, tmp_path, monkeypatch):
    example = "\n".join(line[4:] for line in api.__doc__.split("\n") if line.startswith("    "))
    assert "load(" in example
    (tmp_path / "program.elf").symlink_to(hello.name)
    monkeypatch.chdir(tmp_path)
    exec(compile(example, "the example", "exec"), {})  # noqa: S102
