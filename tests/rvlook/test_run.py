"""`rvlook run`: every example runs to its end, with its console, its exit status and the reason; and the console in other subcommands."""
import json

import pytest

from conftest import EXAMPLES

LOOP, LIMIT, FAULT = "the program is in an endless loop at ", "the program did not end in ", "fault: "
HELLO = ["host: creating an enclave", "runtime: the region begins at 80020000", "application: hello from U-mode", "host: the enclave answered 42"]
ENDS = {  # of each example: the exit status, the console, and how the note begins
    "programs/assembly": (0, [], LOOP + "80000044"), "programs/debugger": (3, [], LIMIT), "programs/elf": (3, [], FAULT + "ebreak at 80000010"),
    "programs/gcd": (0, [], LOOP + "80000014"), "programs/handler": (0, [], LOOP + "8000003c in U"),
    "programs/pmp": (3, [], FAULT + "fetch access fault at 00000000"), "programs/primes": (0, [], LOOP + "8000003c"),
    "programs/race": (3, [], LIMIT), "programs/sum": (0, [], LOOP + "80000018"), "programs/timer": (3, [], LIMIT),
    "enclaves/adds": (0, [], LOOP + "8001001c  halt"), "enclaves/at_rest": (0, [], LOOP + "8001001c  halt"),
    "enclaves/bug": (0, [], LOOP + "8001001c  halt"), "enclaves/hello": (0, HELLO, "the program ended with status 0 at "),
    "enclaves/hmac": (0, [], LOOP + "8001001c  halt"), "enclaves/hmac_attacked": (0, [], LOOP + "8001001c  halt"),
    "enclaves/host_inputs": (0, [], LOOP + "8001001c  halt"), "enclaves/refused": (0, [], LOOP + "8001001c  halt"),
    "enclaves/store": (0, [], LOOP + "80010024  halt"), "enclaves/store_leaking": (0, [], LOOP + "80010024  halt"),
    "enclaves/timer": (0, [], LOOP + "8001001c  halt"), "enclaves/two_harts": (0, [], LOOP + "80010024  halt"),
    "monitors/own_monitor": (3, [], FAULT), "monitors/two_enclaves": (3, [], FAULT)}
EXPECTED = {  # the failures that an example is meant to have
    "programs/handler": ("store access fault", "illegal instruction"), "enclaves/two_harts": ("@main",), "enclaves/at_rest": ("@main", "fetch access fault"),
    "enclaves/hmac_attacked": ("@main", "fetch access fault"), "enclaves/refused": ("@attack", "fetch access fault", "BadState@main")}
REFUSED = {"programs/traps": 2}  # its script has lines that rvbench refuses
TWO = ("programs/race", "enclaves/two_harts")
STEPS = "2000000"


def words_of(name):
    """Returns the arguments that select an example, without its script if that is a file of its own."""
    folder = EXAMPLES / name
    words = [folder / ("stdin" if (folder / "stdin").exists() else "image"), "--steps", STEPS]
    words += ["--symbols", folder / "symbols"] if (folder / "symbols").exists() else []
    return words + (["--harts", "2"] if name in TWO else []) + [word for it in EXPECTED.get(name, ()) for word in ("--expect", it)]


def test_every_example_has_an_expected_end():
    found = {"%s/%s" % (it.parent.name, it.name) for group in ("programs", "enclaves", "monitors") for it in (EXAMPLES / group).iterdir()
             if (it / "image").exists() or (it / "stdin").exists()}
    assert found == set(ENDS) | set(REFUSED)


@pytest.mark.parametrize("name", ENDS)
def test_example_runs_to_its_end(rvlook, name):
    done = rvlook("run", *words_of(name))
    status, console, note = ENDS[name]
    assert (done.returncode, done.stdout.splitlines()) == (status, console), done.stderr
    assert done.stderr.splitlines()[-1].startswith("rvlook: note: " + note)


@pytest.mark.parametrize("name", REFUSED)
def test_refused_line_of_the_script_has_status_2(rvlook, name):
    assert rvlook("run", *words_of(name)).returncode == REFUSED[name]


def test_status_is_the_lowest_byte_of_that_of_finish(rvlook, program):
    done = rvlook("run", *program("console"))
    assert (done.returncode, "the program ended with status 7 at 8001" in done.stderr) == (7, True)


def test_no_character_is_lost_and_none_controls_the_terminal(rvlook, program):
    done = rvlook("run", *program("console"))
    letters = "".join(chr(ord("a") + it % 26) for it in range(300))
    assert done.stdout == letters + "\nred: ^[[31m numbers: 0 4294967295 0a454e43\nno end\n"


def test_run_as_objects(rvlook):
    done = rvlook("run", *words_of("enclaves/hello"), "--json")
    objects = [json.loads(line) for line in done.stdout.splitlines()]
    assert [it["object"] for it in objects] == ["run", *["console"] * 4, "ended"]
    assert [(it["writer"], it["text"]) for it in objects[1:5]] == list(zip(("host", "enclave", "enclave", "host"), HELLO))
    assert (objects[5]["why"], objects[5]["status"], objects[5]["world"]) == ("end", 0, "host")


def test_trace_shows_the_console_after_the_last_character(rvlook):
    done = rvlook("trace", *words_of("enclaves/hello"))
    lines = done.stdout.splitlines()
    shown = [at for at, line in enumerate(lines) if " console: " in line]
    assert [lines[at].split(" console: ")[1] for at in shown] == HELLO
    assert all("host_console" in lines[at - 1] or "window_console" in lines[at - 1] for at in shown)
    assert all(lines[at].split()[0] == lines[at - 1].split()[0] for at in shown), "each line has the number of the step before it"


def test_prompt_shows_the_console(rvlook):
    done = rvlook(*words_of("enclaves/hello"), stdin="run 300\nback 300\nrun 1000\nrun 1000\n")
    assert [line for line in done.stdout.splitlines() if " console: " in line] == [
        "host console: " + HELLO[0], "host console: " + HELLO[0], "enclave console: " + HELLO[1], "host console: " + HELLO[3],
        "enclave console: " + HELLO[2]]


def test_characters_beyond_the_ring_of_one_command_are_reported(rvlook, program):
    done = rvlook(*program("console"), stdin="run 100000\n")
    shown = [line for line in done.stdout.splitlines() if " console: " in line]
    assert shown[0] == "host console: [93 characters lost]" and shown[-1] == "host console: red: ^[[31m numbers: 0 4294967295 0a454e43"


def test_schedule_of_two_harts_is_used(rvlook):
    done = rvlook("run", *words_of("enclaves/two_harts"), "--schedule", "1")
    assert (done.returncode, "the program is in an endless loop at 80010024" in done.stderr) == (0, True)
