"""`races` on programs whose final states are known: counters, locks, calls of the monitor, double fetches, livelocks and timers."""
import os
import subprocess

import pytest
from support.race_programs import assembled
from support.race_runs import Races

from conftest import EXAMPLES

COUNTER = """lui x5, 0x80011; addi x6, x0, %d; loop: lw x7, 0(x5); addi x7, x7, 1; sw x7, 0(x5); addi x6, x6, -1; bne x6, x0, loop
done: jal x0, done"""
LOCK = """lui x8, 0x80011; slli x5, x10, 2; add x9, x8, x5; xori x11, x10, 1; slli x5, x11, 2; add x18, x8, x5; addi x6, x0, 1; %s; %s
wait: lw x7, 0(x18); beq x7, x0, enter; lw x7, 8(x8); beq x7, x11, wait; enter: lw x28, 12(x8); addi x28, x28, 1; sw x28, 12(x8)
sw x0, 0(x9); done: jal x0, done"""
POLITE = """lui x8, 0x80011; slli x5, x10, 2; add x9, x8, x5; xori x11, x10, 1; slli x5, x11, 2; add x18, x8, x5; addi x6, x0, 1
again: sw x6, 0(x9); lw x7, 0(x18); beq x7, x0, enter; sw x0, 0(x9); jal x0, again; enter: lw x28, 12(x8); addi x28, x28, 1; sw x28, 12(x8)
sw x0, 0(x9); done: jal x0, done"""
WAITS = """lui x8, 0x80011; bne x10, x0, second; lw x5, 0(x8); bne x5, x0, done; wait: lw x5, 4(x8); beq x5, x0, wait; done: jal x0, done
second: addi x6, x0, 1; sw x6, 0(x8); end: jal x0, end"""
ENDLESS = "lui x8, 0x80011; bne x10, x0, done; loop: addi x5, x5, 1; jal x0, loop; done: jal x0, done"
CREATES = """li x17, 0x0a454e43; addi x16, x0, 1; li x20, 0x80012000; addi x21, x0, 1; slli x21, x21, 12; bne x10, x0, second
li x10, 0x80012000; slli x11, x21, 1; addi x12, x0, 0; addi x13, x0, 0; addi x14, x10, 0; jal x0, both
second: li x10, 0x80013000; addi x11, x21, 0; addi x12, x0, 0; addi x13, x0, 0; addi x14, x10, 0
both: ecall; addi x5, x10, 0; bne x10, x0, done; addi x10, x11, 0; addi x16, x0, 2; ecall; addi x6, x10, 1; done: jal x0, done"""
FETCHED = """lui x8, 0x80011; bne x10, x0, second; addi x5, x0, 8; sw x5, 0(x8); lw x6, 0(x8); addi x7, x0, 16; bltu x7, x6, refused
lw x6, 0(x8); addi x9, x0, 2; bgeu x7, x6, done; addi x9, x0, 3; jal x0, done; refused: addi x9, x0, 1; done: jal x0, done
second: addi x5, x0, 24; sw x5, 0(x8); end: jal x0, end"""
RESUMES = """lui x8, 0x80013; bne x10, x0, second; li x17, 0x0a454e43; lui x10, 0x80011; lui x11, 1; lui x12, 0x80013; lui x13, 1
addi x14, x10, 0; addi x16, x0, 1; ecall; addi x16, x0, 3; addi x10, x0, 0; ecall; addi x16, x0, 4; addi x10, x0, 0; ecall; done: jal x0, done
second: addi x5, x0, 7; sw x5, 0(x8); end: jal x0, end"""
KEEPS = "lw x5, 0(x12); li x17, 0x0a454e43; addi x16, x0, 6; ecall; sw x5, 4(x12); addi x16, x0, 7; ecall"
MASKED = """auipc x5, 0; addi x5, x5, 40; csrrw x0, mtvec, x5; addi x6, x0, 128; csrrw x0, mie, x6; addi x10, x0, 1; csrrwi x0, mstatus, 8
addi x10, x10, 1; csrrwi x0, mstatus, 0; done: jal x0, done; add x11, x10, x0; mret"""
TAKE_FLAG, GIVE_TURN = "sw x6, 0(x9)", "sw x11, 8(x8)"
OVERLAP = 0xFFFFFFFC  # the status of a create of overlapping regions
COUNT, ENTERED, KEPT = "80011000", "8001100c", "80013000:8"


@pytest.fixture(scope="module")
def races(objects):
    return Races(objects)


@pytest.fixture
def image(bench, tmp_path):
    """Writes the image of an assembly; the code of an enclave is a page behind that of the host."""
    def write(text, enclave=None):
        digits = "".join(assembled(bench, [it.strip() for it in part.replace("\n", ";").split(";")]).hex().ljust(0x2000 if enclave else 0, "0")
                         for part in (text, enclave) if part)
        path = tmp_path / "program"
        path.write_text("".join(digits[at:at + 120] + "\n" for at in range(0, len(digits), 120)), encoding="ascii")
        return path
    return write


@pytest.fixture
def counter(image):
    """A program in which each hart raises a counter three times."""
    return image(COUNTER % 3)


def values(found, name):
    """The values of one part of the outcome, in order."""
    return sorted(it["values"][name] for it in found)


def hows(found):
    """How the harts ended, in order."""
    return sorted(tuple(it["how"] for it in end["harts"]) for end in found)


def test_counter_has_each_value_from_two_to_six(races, counter):
    found, last = races(counter, "--outcome", COUNT)
    assert values(found, COUNT) == [2, 3, 4, 5, 6]
    assert (last["schedules"], last["covered"]) == (924, "all 924 of 924 schedules")  # of six accesses and six
    assert {it["steps"] for it in found} == {34}  # all 17 of each hart, and no more
    assert next(it["preemptions"] for it in found if it["values"][COUNT] == 2) == 4


def test_preemptions_bound_the_orders(races, counter):
    found, last = races(counter, "--outcome", COUNT, "--preemptions", "2")
    assert values(found, COUNT) == [3, 4, 5, 6]
    assert last["covered"] == "all 62 of 62 schedules with at most 2 preemptions"  # counted by hand: 2, 12, 62


@pytest.mark.parametrize("stores, wanted", [((TAKE_FLAG, GIVE_TURN), [2]), ((GIVE_TURN, TAKE_FLAG), [1, 2])], ids=["right", "swapped"])
def test_lock_of_peterson_excludes_unless_its_stores_are_swapped(races, image, stores, wanted):
    assert values(races(image(LOCK % stores), "--outcome", ENTERED)[0], ENTERED) == wanted


def test_one_of_two_overlapping_creates_is_refused_while_the_other_is_there(races, image):
    words = [it for name in ("0.t0", "1.t0", "0.t1", "1.t1", "enclaves") for it in ("--outcome", name)]
    found = races(image(CREATES), *words)[0]
    answers = sorted(tuple(tuple(it["values"]["%d.%s" % (hart, name)] for hart in (0, 1)) for name in ("t0", "t1")) for it in found)
    assert answers == [((0, 0), (1, 1)), ((0, OVERLAP), (1, 0)), ((OVERLAP, 0), (0, 1))]


def test_double_fetch_is_found_between_its_two_loads(races, image):
    found = races(image(FETCHED), "--outcome", "0.s1")[0]
    assert values(found, "0.s1") == [1, 2, 3]
    worst = next(it for it in found if it["values"]["0.s1"] == 3)
    assert (worst["preemptions"], worst["summary"]) == (1, ["hart 1 executes 8001003c between 80010010 and 8001001c of hart 0"])


def test_enclave_keeps_its_registers_while_it_is_stopped(races, image):
    assert values(races(image(RESUMES, KEEPS), "--outcome", KEPT)[0], KEPT) == ["0700000000000000", "0700000007000000"]


def test_one_of_two_creates_of_the_example_is_refused(races):
    found = races(EXAMPLES / "programs" / "race" / "image", "--limit", "17", "--outcome", "0.a0", "--outcome", "1.a0")[0]
    assert sorted((it["values"]["0.a0"], it["values"]["1.a0"]) for it in found) == [(0x80020000, 0), (0xFFFFFFF9, 0)]


def test_two_harts_that_give_way_to_each_other_may_go_on_for_ever(races, image, tmp_path):
    path = image(POLITE)
    found = races(path, "--outcome", ENTERED, "--scripts", tmp_path / "polite")[0]
    assert hows(found) == [("ended", "ended"), ("runs on", "runs on")]
    assert next(it for it in found if it["harts"][0]["how"] == "runs on")["loop"], "the loop was not replayed"
    races(path, "--outcome", ENTERED, "--forbid", "livelock", status=1)


def test_hart_that_waits_for_ever_is_no_livelock(races, image):
    path, words = image(WAITS), ("--outcome", "80011000:8")
    assert hows(races(path, *words)[0]) == [("ended", "ended"), ("waits", "ended")]
    races(path, *words, "--forbid", "livelock", status=0)
    races(path, *words, "--forbid", "waits", status=1)


def test_hart_that_does_not_reach_its_end_halts(races, image):
    assert set(hows(races(image(WAITS), "--end", "80010018", "--forbid", "halts", status=1)[0])) == {("ended", "halts"), ("waits", "halts")}


def test_hart_that_is_given_up_makes_the_result_not_whole(races, image):
    found, last = races(image(ENDLESS), "--steps", "1000")
    assert hows(found) == [("unfinished", "ended")]
    assert "in which a hart did not finish" in last["covered"]


@pytest.mark.parametrize("steps, wanted", [(14, ["0700000000000000", "0700000007000000"]), (15, ["0700000000000000"]), (19, ["0700000000000000"])])
def test_search_begins_where_the_script_ends(races, image, tmp_path, steps, wanted):
    """After 14 steps of hart 0 the enclave runs, and after 19 it is stopped."""
    (tmp_path / "begin").write_text("step %d\n" % steps)
    assert values(races(image(RESUMES, KEEPS), "--script", tmp_path / "begin", "--outcome", KEPT)[0], KEPT) == wanted


def test_timer_waits_while_it_is_masked(races, image):
    found = races(image(MASKED), "--timer", "1", "--outcome", "0.a1", "--exit-zero", status=0, harts=("--no-monitor",))[0]
    assert values(found, "0.a1") == [0, 1, 2]


def test_script_of_each_end_shows_its_values_on_the_bench(races, counter, bench, tmp_path):
    found = races(counter, "--outcome", COUNT, "--scripts", tmp_path / "scripts")[0]
    assert len(os.listdir(tmp_path / "scripts")) == len(found)
    for end in found:
        text = (tmp_path / "scripts" / ("final_state_%d" % end["number"])).read_text()
        words = text.split("# ./rvbench ")[1].split(" <")[0].split()
        done = subprocess.run([bench, *words], input=text, capture_output=True, text=True, check=True).stdout.splitlines()
        assert done[-1] == "80011000: %02x 00 00 00" % end["values"][COUNT], "final state %d" % end["number"]
        assert [it for it in done if it.startswith("error")] == [], "final state %d" % end["number"]


def test_parts_of_a_search_have_together_the_final_states_of_the_whole(races, counter):
    whole = set(values(races(counter, "--outcome", COUNT)[0], COUNT))
    parts = [set(values(races(counter, "--outcome", COUNT, "--from", str(at), "--to", str(at + 3))[0], COUNT)) for at in range(0, 24, 4)]
    assert set().union(*parts) == whole
    assert any(it < whole for it in parts)
    assert values(races(counter, "--outcome", COUNT, "--from", "18")[0], COUNT) == [6]  # one hart had done all its steps


def test_forbidden_value_is_found(races, counter):
    assert len(races(counter, "--forbid", "80011000 == 2", status=1)[1]["forbidden"]) == 1


def test_value_that_does_not_occur_is_not_found(races, counter):
    assert races(counter, "--forbid", "80011000 < 2", "--forbid", "80011000 > 4 and 0.t1 != 0")[1]["forbidden"] == []


def test_search_that_is_cut_claims_no_more_than_it_searched(races, image):
    """The first limit is used after which the search claims anything, and shows it; a busy machine needs a larger one. The whole search takes
    minutes."""
    path = image(COUNTER % 40)
    for seconds in (0.5, 2, 8, 32):
        found, last = races(path, "--outcome", COUNT, "--seconds", seconds)
        assert (last["complete"], last["covered"].startswith("stopped by --seconds after ")) == (False, True)
        if "at most" in last["covered"] and "not every final state was replayed" not in last["covered"]:
            break
    claimed = last["covered"].split("at most ")[1].split()[0]
    again = races(path, "--outcome", COUNT, "--preemptions", claimed)[0]
    assert set(values(again, COUNT)) <= set(values(found, COUNT))
