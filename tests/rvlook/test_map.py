"""`map`: its rows against `access` of each byte of RAM, its events against the state after each step, and worlds that are not running."""
import re

import pytest

from conftest import EXAMPLES, input_of

BASE = 0x80000000
MONITOR = ("--monitor",)
SWITCHES = ("run", "resume", "timer", "stop", "exit")  # events that change nothing of the table but the states
TIMER, PMP = EXAMPLES / "enclaves" / "timer" / "image", EXAMPLES / "programs" / "pmp" / "stdin"


def events_of(results, image, words):
    return [it for it in results("map", image, *words) if it["object"] == "event"]


def kinds_of(replies, image, words, ram, steps, mode):
    """The kinds of each byte, as `access` replies after so many steps."""
    script = (["step %d" % steps] if steps else []) + ["access %s %s %x 1" % (mode, kind, BASE + at) for at in range(ram) for kind in "rwx"]
    found = replies(image, words, script)[1 if steps else 0:]
    assert len(found) == 3 * ram
    return ["".join(kind if found[3 * at + number].startswith("allowed") else "-" for number, kind in enumerate("rwx")) for at in range(ram)]


@pytest.mark.parametrize("image, words, ram, place, mode", [
    (TIMER, MONITOR, 0x40000, 2, "S"), *((PMP, (), 0x10000, -3, mode) for mode in "MSU")], ids=["enclave", "bare-M", "bare-S", "bare-U"])
def test_rows_are_the_replies_to_access_of_each_byte(results, replies, image, words, ram, place, mode):
    words = [*words, "--ram", str(ram)]
    event = events_of(results, image, words)[place]
    own = event["columns"][0]["name"]
    found = [row["may"][own][mode] for row in event["rows"] for _ in range(row["size"])]
    assert sum(row["size"] for row in event["rows"]) == ram
    wanted = kinds_of(replies, image, words, ram, event["step"], mode)
    assert [(hex(BASE + at), *it) for at, it in enumerate(zip(found, wanted)) if it[0] != it[1]][:4] == []


def states_after(replies, image, words, count):
    """After each step: the world, the PMP entries and the table."""
    lines = replies(image, words, ["step 1", "pmp", "enclaves", "reg 0"] * count)
    groups = "\n".join(lines).split("\nx0=00000000")
    found = [it.strip().split("\n") for it in groups[:count]]
    return [(re.findall(r"^ran.* world=(\w+)", it[0]), it[1:]) for it in found]


@pytest.mark.parametrize("image, words", [(PMP, ()), (TIMER, MONITOR), (EXAMPLES / "enclaves" / "at_rest" / "image", MONITOR)],
                         ids=["pmp", "timer", "at_rest"])
def test_events_are_the_steps_after_which_entries_world_or_table_differ(results, replies, image, words):
    shown = results("map", image, *words)
    states = states_after(replies, image, words, shown[-1]["steps"])
    changes = [number + 1 for number in range(1, len(states)) if states[number] != states[number - 1]]
    assert len(states) == shown[-1]["steps"] and all(len(it[1]) >= 16 for it in states)
    assert [it["step"] for it in shown if it["object"] == "event" and it["step"]] == changes
    assert states_after(replies, image, words, 1) == states[:1]


@pytest.mark.parametrize("name", ["enclaves/timer", "enclaves/refused", "attacks/window"])
def test_world_that_does_not_run_has_the_rights_of_its_own_entries(results, name):
    events, compared = events_of(results, input_of(EXAMPLES / name), MONITOR), 0
    for before, after in zip(events, events[1:]):
        if after["cause"] in SWITCHES:
            for name in {it["name"] for it in before["columns"]} & {it["name"] for it in after["columns"]}:
                wanted = [it["may"][name] for it in before["rows"]]
                assert [it["may"][name] for it in after["rows"]] == wanted, "step %d, %s" % (after["step"], name)
                compared += 1
    assert compared > 1
