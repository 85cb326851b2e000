"""Two harts in `rvlook gdb`: schedules, breakpoints and watchpoints, forwards and backwards, against `sched` of the program and `trace`."""
import pytest

from conftest import EXAMPLES

IMAGE, WORDS = EXAMPLES / "enclaves" / "two_harts" / "image", ("--monitor", "--harts", "2")
TURNS = "0" * 32 + "1" * 32  # the default schedule
PLACES = ("80020000", "80010028")  # the first instruction of the enclave, and where the host of hart 1 traps
KINDS = {"2": "w", "4": "rw"}
WATCHES = (("4", 0x80030000, 4), ("2", 0x80030004, 8))
MOVES = (  # a packet, the hart that halts, and the digits of `sched` that do the same
    *[("vCont;s:1;c", 0, "0")] * 5, *[("vCont;s:2", 1, "1")] * 7, *[("vCont;s:1;c", 0, "0")] * 3, ("vCont;s:2;c", 1, "0" * 24 + "1"),
    *[("vCont;s:2;c", 1, "1")] * 4, *[("vCont;s:1", 0, "0")] * 9, ("vCont;s:1;c:2", 0, "1" * 27 + "0"))


def lines_of(digits):
    """The commands that do steps of these harts."""
    return ["sched " + digits[at:at + 64] for at in range(0, len(digits), 64)]


@pytest.fixture(scope="module")
def state_after(replies):
    """Returns the output of `regs` for a hart after steps of harts."""
    return lambda digits, hart: replies(IMAGE, WORDS, [*lines_of(digits), "hart %d" % hart, "regs"])[-33:]


def test_harts_take_turns(debugger, state_after):
    done = ""
    with debugger(IMAGE, WORDS) as client:
        assert client.ask("qfThreadInfo") == "m1,2"
        for packet, hart, digits in MOVES:
            found, done = client.halt(packet), done + digits
            assert found[1] == state_after(done, hart), "%s, %d steps" % (packet, len(done))
        client.ask("Hc0")
        for hart in (1, 0, 1):
            client.ask("Hc%d" % (hart + 1))
            done = done[:done.rindex(str(hart))]
            assert client.halt("bs")[1] == state_after(done, hart), "back to " + done


@pytest.mark.parametrize("schedule", [TURNS, "01", "0011101"], ids=["turns", "01", "0011101"])
def test_schedule_halts_where_a_hart_comes_to_a_breakpoint(debugger, replies, state_after, schedule):
    digits = (schedule * 400)[:400]
    lines = replies(IMAGE, WORDS, [it for digit in digits for it in ("hart " + digit, "step 1")])[1::2]
    stops = [number for number, it in enumerate(lines, 1) if it.split("pc=")[1][:8] in PLACES][:6]
    assert len(stops) > 1
    with debugger(IMAGE, WORDS) as client:
        assert client.monitor("schedule " + schedule) == "schedule: %s\n" % schedule
        for place in PLACES:
            assert client.ask("Z0,%s,4" % place) == "OK"
        for count in stops:
            assert client.halt("vCont;c")[1] == state_after(digits[:count], int(digits[count - 1])), "on to step %d" % count
        for count in stops[-2::-1]:
            assert client.halt("bc")[1] == state_after(digits[:count], int(digits[count - 1])), "back to step %d" % count
        assert client.halt("bc")[0] == "replaylog:begin"


def stops_of(steps):
    """The steps after which a run halts: those before a breakpoint, and those that access what is watched; and which of these it is."""
    for step in steps:
        touch = step["touch"] if step["touch"] and step["touch"]["done"] else None
        hit = [at for kind, at, count in WATCHES if touch and touch["kind"] in KINDS[kind]
               and at < int(touch["address"], 16) + touch["width"] and int(touch["address"], 16) < at + count]
        if hit or step["next"]["pc"] in PLACES:
            yield step["step"], bool(hit)


def halt_on(client, state_after, digits, is_watch, packets):
    """A halt on the way on. After a watchpoint the hart that met it does the access alone, like gdb."""
    hart, name = int(digits[-1]), "on to step %d" % len(digits)
    reason, state = client.halt("vCont;c")
    assert (bool(reason), state) == (is_watch, state_after(digits[:-1] if is_watch else digits, hart)), name
    if is_watch:
        for packet in packets:
            client.ask("z" + packet)
        assert client.halt("vCont;s:%d" % (hart + 1))[1] == state_after(digits, hart), name + ", the access"
        for packet in packets:
            client.ask("Z" + packet)


def halt_back(client, state_after, digits, is_watch):
    """A halt on the way back. The access of a watchpoint is undone by the hart that met it."""
    hart, name = int(digits[-1]), "back to step %d" % len(digits)
    reason, state = client.halt("bc")
    assert (bool(reason), state) == (is_watch, state_after(digits, hart)), name
    if is_watch:
        client.ask("Hc%d" % (hart + 1))
        assert client.halt("bs")[1] == state_after(digits[:-1], hart), name + ", before the access"
        client.ask("Hc0")


@pytest.mark.parametrize("schedule", [TURNS, "01"], ids=["turns", "01"])
def test_harts_halt_at_breakpoints_and_watchpoints(debugger, results, state_after, tmp_path, schedule):
    digits, script = (schedule * 400)[:448], tmp_path / "script"
    script.write_text("".join(it + "\n" for it in lines_of(digits)))
    steps = [it for it in results("trace", IMAGE, *WORDS, "--script", script, "--steps", "0") if it["object"] == "step"]
    stops, packets = list(stops_of(steps))[:12], ["0,%s,4" % at for at in PLACES] + ["%s,%x,%x" % it for it in WATCHES]
    assert len(stops) > 2
    with debugger(IMAGE, WORDS) as client:
        client.monitor("schedule " + schedule)
        for packet in packets:
            client.ask("Z" + packet)
        for step, is_watch in stops:
            halt_on(client, state_after, digits[:step], is_watch, packets)
        for step, is_watch in stops[-2::-1]:
            halt_back(client, state_after, digits[:step], is_watch)
