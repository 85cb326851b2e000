"""`rvlook gdb` by its packets, without a debugger: steps, ends, descriptions, refusals, writes and `monitor`, against the bench."""
import re
from xml.etree import ElementTree

import pytest
from support.gdb_client import states_of
from support.limits import HANG
from support.packets import packet

from conftest import EXAMPLES

MONITOR, HARTS = ("--monitor",), ("--monitor", "--harts", "2")
TIMER, ADDS, BUG, TWO = (EXAMPLES / name / "image" for name in ("enclaves/timer", "enclaves/adds", "enclaves/bug", "enclaves/two_harts"))
REFUSED = ("P20=02000180", "P0=01000000", "P59=03000000", "m7ffffffc,4", "M80100000,1:00", "X800fffff,2:ab", "M80010000,2:ab", "Hg3", "p99", "T3",
           "Z2,80010000,33")
CSRS = {"misa": "301", "pmpcfg0": "3a0", "pmpaddr0": "3b0"}


@pytest.mark.parametrize("image, count", [(TIMER, 120), (ADDS, 60)], ids=["timer", "adds"])
def test_each_step_on_and_back_has_the_registers_of_the_bench(debugger, replies, image, count):
    states = states_of(replies, image, MONITOR, count)
    with debugger(image, MONITOR) as client:
        assert client.halt("?") == ("", states[0])
        for step in range(1, count + 1):
            assert client.halt("vCont;s:1") == ("", states[step]), "on to step %d" % step
            values = [bytes.fromhex(it.split("=")[1])[::-1].hex() for it in states[step]]
            assert (client.ask("p20"), client.ask("g")) == (values[32], "".join(values)), "step %d" % step
        for step in range(count - 1, -1, -1):
            assert client.halt("bs") == ("", states[step]), "back to step %d" % step
        assert client.halt("bs") == ("replaylog:begin", states[0])


@pytest.mark.parametrize("name", ["adds", "bug", "ecall"])
def test_continue_stops_where_the_hart_halts(debugger, results, tmp_path, name):
    """The signal is that of its trap: of an ecall without a handler, SIGSEGV."""
    (tmp_path / "ecall").write_text("13000000\n73000000\n")
    image, words, signal = {"adds": (ADDS, MONITOR, 0), "bug": (BUG, MONITOR, 0), "ecall": (tmp_path / "ecall", (), 11)}[name]
    end = next(it for it in results("trace", image, *words) if it["object"] == "end")
    with debugger(image, words) as client:
        assert client.signal("vCont;c") == signal
        assert "[hart 0 halts at %s" % end["pc"] in client.console
        count = 0
        while not client.halt("bs")[0]:
            count += 1
        assert count == end["steps"]


def document(client, name):
    """A document of the server, which it gives in parts."""
    text = ""
    while True:
        answer = client.ask("qXfer:%s:%x,400" % (name, len(text)))
        text += re.sub(r"\}(.)", lambda match: chr(ord(match[1]) ^ 0x20), answer[1:])
        if answer[0] == "l":
            return ElementTree.fromstring(text)


def test_each_register_that_is_described_is_read(debugger, replies):
    with debugger(TWO, HARTS) as client:
        found = document(client, "features:read:target.xml").findall("feature/reg")
        assert [int(it.get("regnum")) for it in found] == list(range(len(found)))
        for it in found:
            name, value = it.get("name"), client.ask("p%x" % int(it.get("regnum")))
            assert re.fullmatch("[0-9a-f]{8}|x{8}", value), name
            if it.get("group") == "csr" and name in CSRS:
                assert bytes.fromhex(value)[::-1].hex() == replies(TWO, HARTS, ["csr " + CSRS[name]])[0].split("=")[1], name
        assert set(CSRS) <= {it.get("name") for it in found}


def test_memory_and_harts_are_described(debugger, replies):
    with debugger(TWO, HARTS) as client:
        memory = document(client, "memory-map:read:").find("memory")
        assert (memory.get("start"), memory.get("length")) == ("0x80000000", "0x100000")
        client.monitor("step 60")
        names = [it.get("name") for it in document(client, "threads:read:").findall("thread")]
    lines = replies(TWO, HARTS, ["step 60", "sched 0"])
    assert names == ["hart %d: %s in %s" % (hart, re.search(r"world=(\w+)", it)[1], re.search(r"mode=(\w)", it)[1])
                     for hart, it in enumerate([lines[0], lines[2]])]


@pytest.mark.parametrize("text", REFUSED)
def test_packet_that_no_command_of_the_bench_serves_is_refused(debugger, text):
    with debugger(TIMER, MONITOR) as client:
        assert client.ask(text).startswith("E")


def test_refusal_has_a_text_and_an_unknown_packet_an_empty_reply(debugger):
    with debugger(TIMER, MONITOR) as client:
        assert client.ask("P59=03000000") == "E.rvbench cannot write priv; it can write x1 to x31 and pc"
        assert client.ask("vNothing") == ""


def test_breakpoints_write_no_byte(debugger):
    with debugger(TIMER, MONITOR) as client:
        before = client.ask("m80010000,100")
        for number in range(40):
            assert client.ask("Z0,%x,4" % (0x80010000 + 4 * number))[:2] == "OK", "breakpoint %d" % number
        assert client.halt("vCont;c")[1][32] == "pc=80010004"
        assert client.ask("m80010000,100") == before
        shown = [client.monitor("mem %x 64" % at).split(": ")[1] for at in range(0x80010000, 0x80010100, 64)]
        assert "".join(shown).replace(" ", "").replace("\n", "") == before


def test_bytes_and_registers_are_written_and_a_new_run_is_as_before(debugger):
    with debugger(TIMER, MONITOR) as client:
        before = client.ask("m80010000,100")
        assert (client.ask("M80010000,1:ab"), client.ask("m80010000,1")) == ("OK", "ab")
        assert (client.ask("X80010000,2:}\x03}]"), client.ask("m80010000,2")) == ("OK", "237d")
        assert (client.ask("P5=78563412"), client.ask("p5")) == ("OK", "78563412")
        assert [client.ask(it) for it in ("!", "vKill;1", "?")] == ["OK", "OK", "W00"]
        assert client.ask("vRun;")[:3] == "T05"
        assert client.ask("m80010000,100") == before
        client.ask("vCont;s:1")
        client.give(packet("R00"))
        assert client.halt("?")[1][32] == "pc=80010000"
        client.give(b"$k#6b")
        client.process.stdin.close()
        assert client.process.wait(HANG) == 0


def test_monitor_takes_a_line_of_the_bench(debugger, replies):
    states = states_of(replies, TIMER, MONITOR, 40)
    with debugger(TIMER, MONITOR) as client:
        assert client.monitor("step 29").split("\n")[0] == "ran 29 pc=80020000 mode=S world=e0 why=done trap=00000009:00000000"
        assert "maintenance flush register-cache" in client.console
        assert bytes.fromhex(client.ask("p20"))[::-1].hex() == states[29][32][3:]
        assert client.ask("QRvlookFresh") == "OK"
        assert "maintenance" not in client.monitor("back 1")
        assert client.halt("bs") == ("", states[27])


def test_monitor_takes_a_subcommand(debugger):
    with debugger(TIMER, MONITOR) as client:
        client.monitor("step 27")
        assert len(re.findall("^(?:reset|step)", client.monitor("map"), re.M)) == 2
        lines = client.monitor("trace --from 2 --to 3").splitlines()[1:3]
        assert [it[:16] for it in lines] == ["     2  80010004", "     3  80010008"]


def test_monitor_shows_where_the_host_entered_the_enclave(debugger):
    with debugger(TIMER, MONITOR) as client:
        client.monitor("step 27")
        assert client.monitor("entered") == "the hart is not in an enclave, but in host\n"
        client.monitor("step 5")
        assert client.monitor("entered") == "e0 was entered at step 29, by run at 800100ac\n"
        assert client.ask("p%x" % 91) == "b0000180"  # the pc of the host


def test_monitor_explains_a_refused_line(debugger):
    with debugger(TIMER, MONITOR) as client:
        assert "try: mem A N" in client.monitor("mem 80010000")
        assert "no symbols" in client.monitor("break nosuch")
