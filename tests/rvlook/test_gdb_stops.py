"""Halts of `rvlook gdb`, forwards and backwards: each breakpoint, watchpoint, condition and catchpoint against the steps of `trace`."""
import pytest
from support.gdb_client import states_of

from conftest import EXAMPLES

MONITOR = ("--monitor",)
TIMER, BUG, PRIMES = EXAMPLES / "enclaves" / "timer" / "image", EXAMPLES / "enclaves" / "bug" / "image", EXAMPLES / "programs" / "primes" / "stdin"
KINDS = {"2": "w", "3": "r", "4": "rw"}
SHOP, COUNT = 0x800201A0, 0x800201B0  # of BUG: a table in the enclave, and the number after it
INSIDE = "800200f8"  # the loop of its application
RESET = "replaylog:begin"
STOPS = {  # an image, the breakpoints, and the watchpoints, each with its kind, address and length
    "timer": (TIMER, ["80010000"], [("4", 0x80030003, 1)]), "breaks": (BUG, ["80020000", "800100f4"], []),
    "count": (BUG, [INSIDE], [("2", COUNT, 4)]), "table": (BUG, [], [("3", COUNT, 4), ("2", SHOP, 16)]),
    "window": (BUG, [], [("4", 0x80030006, 2)]), "stack": (BUG, [], [("3", COUNT + 3, 1), ("2", 0x80020FE0, 6)]),
    "bytes": (BUG, ["80020124"], [("3", COUNT + 2, 1), ("2", COUNT, 1)])}


@pytest.fixture(scope="module")
def run(results, replies):
    """The steps of an image, as `trace` has them, and the registers at reset and after each."""
    kept = {}

    def of(image):
        if image not in kept:
            steps = [it for it in results("trace", image, *MONITOR) if it["object"] == "step"]
            kept[image] = steps, states_of(replies, image, MONITOR, len(steps))
        return kept[image]
    return of


def stops_of(steps, breaks, watches):
    """The steps after which a run halts: those before a breakpoint, and those that access what is watched; and which of these it is."""
    for step in steps:
        touch = step["touch"] if step["touch"] and step["touch"]["done"] else None
        hit = [at for kind, at, count in watches if touch and touch["kind"] in KINDS[kind]
               and at < int(touch["address"], 16) + touch["width"] and int(touch["address"], 16) < at + count]
        if hit or step["next"]["pc"] in breaks:
            yield step["step"], bool(hit)


def halt_on(client, step, is_watch, states, packets):
    """A halt forwards. At a watchpoint it is before the access; like gdb, the client then makes the access without watchpoints."""
    reason, state = client.halt("vCont;c")
    assert (bool(reason), state) == (is_watch, states[step - is_watch]), "on to step %d" % step
    if is_watch:
        for packet in packets:
            client.ask("z" + packet)
        assert client.halt("vCont;s:1") == ("", states[step]), "the access of step %d" % step
        for packet in packets:
            client.ask("Z" + packet)


def halt_back(client, step, is_watch, states):
    """A halt backwards. At a watchpoint it is after the access, which is then undone."""
    reason, state = client.halt("bc")
    assert (bool(reason), state) == (is_watch, states[step]), "back to step %d" % step
    if is_watch:
        assert client.halt("bs") == ("", states[step - 1]), "back before the access of step %d" % step


@pytest.mark.parametrize("name", STOPS)
def test_continue_halts_at_each_break_and_watch(debugger, run, name):
    image, breaks, watches = STOPS[name]
    steps, states = run(image)
    packets, stops = ["0,%s,4" % at for at in breaks] + ["%s,%x,%x" % it for it in watches], list(stops_of(steps, breaks, watches))
    assert len(stops) > 1
    with debugger(image, MONITOR) as client:
        for packet in packets:
            assert client.ask("Z" + packet) == "OK", packet
        for step, is_watch in stops:
            halt_on(client, step, is_watch, states, packets)
        reason, state = client.halt("vCont;c")
        assert (reason, state[32]) == ("", states[-1][32]), "at the end"
        for step, is_watch in reversed(stops):
            halt_back(client, step, is_watch, states)
        assert client.halt("bc") == ("" if "80010000" in breaks else RESET, states[0])


def condition(*code):
    """The condition of a breakpoint, as gdb writes it: bytecode."""
    return ";X%x,%s" % (len(code), bytes(code).hex())


def equals(number, value):
    """The condition that a register has a value."""
    return condition(0x26, 0, number, 0x2A, 32, 0x24, *value.to_bytes(4, "big"), 0x13, 0x27)


def counts_at(replies, steps):
    """The four bytes at COUNT after each of these steps."""
    lines = [it for before, step in zip([0, *steps], steps) for it in ("step %d" % (step - before), "mem %x 4" % COUNT)]
    return [line.split(": ")[1] for line in replies(BUG, MONITOR, lines)[1::2]]


@pytest.mark.parametrize("kind", ["register", "memory", "true", "false"])
def test_breakpoint_with_a_condition_halts_where_it_holds(debugger, run, replies, kind):
    steps, states = run(BUG)
    places = [it["step"] for it in steps if it["next"]["pc"] == INSIDE]
    a0 = [states[it][14] for it in places]
    text, holds = {
        "register": (equals(14, int(a0[-1].split("=")[1], 16)), [it == a0[-1] for it in a0]),
        "memory": (condition(0x24, *COUNT.to_bytes(4, "big"), 0x19, 0x22, 5, 0x13, 0x27),
                   [it == "05 00 00 00" for it in counts_at(replies, places)]),
        "true": (condition(0x22, 1, 0x22, 0, 0x06, 0x27), [True] * len(places)), "false": (condition(0x22, 0, 0x27), [False] * len(places))}[kind]
    wanted = [step for step, it in zip(places, holds) if it]
    assert places and bool(wanted) == (kind != "false")
    with debugger(BUG, MONITOR) as client:
        assert client.ask("Z0,%s,4%s" % (INSIDE, text)) == "OK"
        for step in wanted:
            assert client.halt("vCont;c") == ("", states[step]), "on to step %d" % step
        client.halt("vCont;c")
        for step in reversed(wanted):
            assert client.halt("bc") == ("", states[step]), "back to step %d" % step
        assert client.halt("bc")[0] == RESET


IS_CAUGHT = {"switch": lambda it: it["world"] != it["next"]["world"], "call": lambda it: it["call"], "trap": lambda it: it["trap"]}


@pytest.mark.parametrize("what", IS_CAUGHT)
def test_catchpoint_halts_after_each_step_that_it_catches(debugger, run, what):
    steps, states = run(BUG)
    wanted = [it["step"] for it in steps if IS_CAUGHT[what](it)]
    assert len(wanted) > 5
    with debugger(BUG, MONITOR) as client:
        assert client.monitor("catch " + what) == "catchpoints: %s\n" % what
        for step in wanted:
            assert client.halt("vCont;c") == ("", states[step]), "on to step %d" % step
            assert client.console.startswith("[hart 0: ")
        client.halt("vCont;c")
        for step in reversed(wanted):
            assert client.halt("bc") == ("", states[step]), "back to step %d" % step
        assert client.monitor("catch none") == "catchpoints: none\n"
        assert client.halt("bc")[0] == RESET


def test_catchpoint_names_the_call_and_the_timer(debugger):
    with debugger(TIMER, MONITOR) as client:
        client.monitor("catch switch")
        client.monitor("timer on")
        for wanted in ("[hart 0: switch from host to e0 by a monitor call]\n", "[hart 0: switch from e0 to host by the timer]\n"):
            client.halt("vCont;c")
            assert client.console == wanted


def test_catchpoint_of_switches_needs_the_monitor(debugger):
    with debugger(PRIMES) as client:
        assert "start with ./rvlook gdb --monitor" in client.monitor("catch switch")


def test_more_breakpoints_than_the_bench_has_are_all_met(debugger, run):
    steps, states = run(BUG)
    places = sorted({it["pc"] for it in steps})[::2]
    wanted = [it["step"] for it in steps if it["next"]["pc"] in places][:25]
    assert len(places) > 32
    with debugger(BUG, MONITOR) as client:
        for place in places:
            client.ask("Z0,%s,4" % place)
        for step in wanted:
            assert client.halt("vCont;c") == ("", states[step]), "on to step %d" % step
        for step in reversed(wanted[:-1]):
            assert client.halt("bc") == ("", states[step]), "back to step %d" % step
