"""A debugger that writes pc: the server executes a jump. With gdb: `jump`, and calls of functions of the program."""
import os
import shutil
import struct
import subprocess

import pytest
from support.gdb_client import PC
from support.limits import HANG

from rvlook.gdb.moves import REACH, jump_word

from conftest import EXAMPLES, ROOT

TIMER, MONITOR = EXAMPLES / "enclaves" / "timer" / "image", ("--monitor",)
START = 0x80010000


def little(address):
    """Returns an address as the protocol has it."""
    return struct.pack("<I", address).hex()


def test_pc_is_written_by_one_step_that_leaves_the_bytes_as_they_were(debugger):
    with debugger(TIMER, MONITOR) as client:
        before = client.ask("m80010000,200")
        registers = client.ask("g")[:8 * PC]
        assert client.ask("P%x=%s" % (PC, little(START + 0x80))) == "OK"
        assert client.ask("p%x" % PC) == little(START + 0x80)
        assert (client.ask("m80010000,200"), client.ask("g")[:8 * PC]) == (before, registers)
        client.halt("vCont;s")
        assert "pc is set to 80010080 by a jump that was executed as step 1" in client.console


def test_step_back_undoes_the_jump(debugger):
    with debugger(TIMER, MONITOR) as client:
        first = client.halt("vCont;s")
        assert client.ask("P%x=%s" % (PC, little(START + 0x40))) == "OK"
        assert client.halt("bs") == first


@pytest.mark.parametrize("target, why", [(START + 2, "a jump reaches multiples of 4"), (START + REACH, "within 1 MiB of 80010000"),
                                         (0, "within 1 MiB of 80010000")])
def test_pc_that_no_jump_reaches_is_refused(debugger, target, why):
    with debugger(TIMER, MONITOR) as client:
        answer = client.ask("P%x=%s" % (PC, little(target)))
        assert answer.startswith("E.cannot set pc to %08x" % target) and why in answer
        assert client.ask("p%x" % PC) == little(START)


def test_pc_that_cannot_be_executed_is_refused(debugger):
    with debugger(TIMER, MONITOR) as client:
        assert client.ask("P%x=%s" % (PC, little(0x8000FFF0))) == "OK", "the range of the monitor is reached, but not executable"
        answer = client.ask("P%x=%s" % (PC, little(START)))
        assert answer.startswith("E.cannot set pc: 8000fff0, where a jump would be written, cannot be executed (denied ")


def test_continue_at_an_address_jumps_there(debugger):
    with debugger(TIMER, MONITOR) as client:
        assert client.ask("Z0,80010054,4")[:2] == "OK"
        assert client.halt("c80010050")[1][PC] == "pc=80010054", "no other path of the host's start leads from 80010000 to the handler's end"


def test_jump_words_are_those_of_the_assembler(bench):
    places = (-REACH, -4, 0, 4, 2048, 4096, 0x7FE, 0xFF000, REACH - 4)
    text = "".join("jal x0, %d\n" % it for it in places)
    done = subprocess.run([bench, "asm"], input=text, capture_output=True, text=True, timeout=HANG, check=True)
    words = struct.unpack("<%dI" % len(places), bytes.fromhex(done.stdout.replace("\n", "")))
    assert [jump_word(it) for it in places] == list(words)


@pytest.mark.skipif(not shutil.which("gdb-multiarch"), reason="gdb-multiarch is not installed")
def test_gdb_calls_a_function_and_jumps(bench, built):
    elf = built("console")
    commands = ["target remote | %s gdb --monitor %s" % (ROOT / "rvlook", elf), "break main", "continue", "call print_number(4711)",
                "print host_console.written", "jump *main", "delete", "continue"]
    words = [it for line in commands for it in ("-ex", line)]
    done = subprocess.run(["gdb-multiarch", "-q", "-nx", "-batch", "-iex", "set confirm off", "-iex", "set remotetimeout %d" % HANG, *words, elf],
                          capture_output=True, text=True, env={**os.environ, "RVBENCH": bench}, timeout=HANG, check=False)
    assert "$1 = 4\n" in done.stdout and done.stdout.count("Breakpoint 1, main") == 2, done.stdout + done.stderr
    assert "host console: red: ^[[31m" in done.stderr and done.stderr.count("[pc is set to ") >= 2
