"""`leak`: the step at which two runs diverge, and the compared secrets."""
from types import SimpleNamespace

import pytest
from rvlook.finders import leak_text

from conftest import EXAMPLES

SECRET = ("--at", "secret")
INSIDE, OUTSIDE = "10000000", "00000100"  # offsets of the store: in the window, and far after it


@pytest.fixture(scope="module")
def diverged(objects, short_program):
    """Returns the objects of a pair in which one run traps."""
    return objects("leak", *short_program("leak_trap"), *SECRET, INSIDE, OUTSIDE)


def differences(found, channel):
    return [it for it in found if it["object"] == "difference" and it["channel"] == channel]


def test_step_that_traps_in_one_run_is_named(diverged):
    (it,) = differences(diverged[1], "pc")
    done, trapped = it["values"]
    assert done.endswith("trap=-") and "trap=00000007:80040000" in trapped
    assert it["symbol"].startswith("application")


def test_access_of_that_step_is_compared(diverged):
    (it,) = differences(diverged[1], "address")
    assert [value.split()[:2] for value in it["values"]] == [["w", "80030010"], ["w", "80040000"]]
    assert it["step"] == differences(diverged[1], "pc")[0]["step"]


def test_parts_have_the_address(diverged):
    assert diverged[1][-1]["channels"] == ["pc", "steps", "address", "window"]
    assert diverged[0] == 1


def test_second_access_after_a_trap_is_compared(objects, short_program):
    """Both runs trap at the same store to different addresses, and continue in the handler, which loads from different addresses too."""
    status, found = objects("leak", *short_program("leak_trap"), *SECRET, OUTSIDE, "00000200")
    assert status == 1 and found[-1]["channels"] == ["pc", "address"]
    assert [it["count"] for it in differences(found, "pc")] == [1]
    assert [it["symbol"].split("+")[0] for it in differences(found, "address")] == ["application", "served"]


def test_equal_secrets_are_alike(rvlook, short_program):
    done = rvlook("leak", *short_program("leak_trap"), *SECRET, INSIDE, INSIDE)
    assert (done.returncode, done.stdout) == (0, "\n".join(done.stdout.splitlines()) + "\n")
    assert done.stdout.splitlines()[-1] == "no difference in 1 pair: pc, steps, address, answer, window"


@pytest.mark.parametrize("part, line", [
    (("--from", "3", "--to", "2"), "--to 2 is less than --from 3"),
    (("--to", "0"), "--to 0 is less than --from 1"),
    (("--from", "5"), "--from 5 is greater than --tries 4")])
def test_empty_part_of_the_secrets_is_refused(rvlook, short_program, part, line):
    done = rvlook("leak", *short_program("leak_trap"), "--at", "secret:4", "--tries", "4", *part)
    assert (done.returncode, done.stdout, done.stderr) == (2, "", "rvlook: error: %s\n" % line)


def test_enclave_that_is_never_entered_is_no_equal_pair(rvlook, short_program):
    done = rvlook("leak", *short_program("leak_trap"), "--at", "secret", INSIDE, OUTSIDE, "--steps", "23")
    assert done.returncode == 3 and "alike" not in done.stdout
    assert done.stderr.startswith("rvlook: error: the enclave in slot 0 is never entered after step ")


def test_run_that_steps_cut_short_is_reported(rvlook, short_program):
    done = rvlook("leak", *short_program("leak_trap"), "--at", "secret", INSIDE, INSIDE, "--steps", "45")
    assert (done.returncode, done.stderr) == (3, "rvlook: warning: --steps 45 ended the run while the enclave in slot 0 was running\n")


def pairs_of(objects, name, *words):
    """The pairs of `leak --tries` on the PIN of a key store, by number: both secrets, and the channels."""
    folder = EXAMPLES / "enclaves" / name
    _, found = objects("leak", "--monitor", folder / "image", "--symbols", folder / "symbols", "--at", "pin:8", *words)
    return {it["number"]: (*map(bytes.fromhex, it["bytes"]), it["channels"]) for it in found if it["object"] == "pair"}


def test_comparison_byte_by_byte_shows_itself_in_two_wrong_secrets(objects):
    one, two, channels = pairs_of(objects, "store_leaking", "--tries", "3")[3]
    assert b"27182818" not in (one, two) and one[1:] == b"7182818" and two[:7] == b"2718281"
    assert channels == ["pc", "steps"]


def test_comparison_in_constant_time_shows_nothing_in_two_wrong_secrets(objects):
    pairs = pairs_of(objects, "store", "--tries", "6")
    assert [number for number, (*_, channels) in pairs.items() if not channels] == [3, 6]
    assert pairs[6][0] != pairs[6][1] and b"27182818" not in pairs[6][:2]


def test_pairs_of_a_part_are_those_of_the_whole(objects):
    whole = pairs_of(objects, "store", "--tries", "6")
    assert pairs_of(objects, "store", "--tries", "6", "--from", "3", "--to", "4") == {number: whole[number] for number in (3, 4)}


def test_first_pair_with_equal_answers_is_shown(rvlook):
    folder = EXAMPLES / "enclaves" / "store_leaking"
    lines = rvlook("leak", "--monitor", folder / "image", "--symbols", folder / "symbols", "--at", "pin:8", "--tries", "4").stdout.splitlines()
    assert lines[0] == "pair 3 of 4, the first that differs with the same answer"
    assert lines[-1] == "3 pairs differ with the answer: the program answers its own secret in one way, and each other secret in another"


def test_pair_with_equal_answers_is_shown_before_one_with_others(monkeypatch):
    shown, lines = [], []
    monkeypatch.setattr(leak_text, "pair_text", lambda leak, printer, pair: shown.append(pair.result))
    leak, printer = SimpleNamespace(channels=("pc", "answer")), SimpleNamespace(line=lines.append)
    pairs = {number: leak_text.ComparedPair(number, (), False, (), channels, "pair %d" % number, ())
             for number, channels in ((1, ("pc", "answer")), (2, ("pc",)))}
    leak_text.print_result(leak, printer, leak_text.TriedPairs([*pairs.values()]), pairs, set())
    assert shown == ["pair 2"] and lines[0] == "pair 2 of 2, the first that differs with the same answer"


def test_verdict_of_a_correct_store_is_no_finding(rvlook):
    folder = EXAMPLES / "enclaves" / "store"
    done = rvlook("leak", "--monitor", folder / "image", "--symbols", folder / "symbols", "--at", "pin:8", "--tries", "6")
    assert done.returncode == 0 and done.stdout.splitlines() == [
        "4 pairs differ with the answer: the program answers its own secret in one way, and each other secret in another",
        "no difference in the other 2 pairs: pc, steps, address, answer, window"]


def test_time_of_a_wrong_secret_is_a_finding_beside_a_verdict(objects):
    folder = EXAMPLES / "enclaves" / "store_leaking"
    status, found = objects("leak", "--monitor", folder / "image", "--symbols", folder / "symbols", "--at", "pin:8", "--tries", "6")
    assert (status, found[-1]["differing"], found[-1]["with_answer"]) == (1, [3], [1, 2, 4, 5])


def test_answer_that_has_a_part_of_the_secret_is_no_verdict(objects):
    folder = EXAMPLES / "enclaves" / "store_leaking"
    status, found = objects("leak", "--monitor", folder / "image", "--symbols", folder / "symbols", "--at", "key:32", "--tries", "3")
    assert (status, found[-1]["differing"], found[-1]["with_answer"]) == (1, [1, 2, 3], [])


def test_run_with_a_secret_takes_two_processes(rvlook, bench, tmp_path):
    """One process runs the script, two show where the enclave is created, and two run the program with each secret. A difference takes none."""
    program, starts, folder = tmp_path / "program", tmp_path / "starts", EXAMPLES / "enclaves" / "store_leaking"
    program.write_text('#!/bin/sh\necho >> "%s"\nexec "%s" "$@"\n' % (starts, bench))
    program.chmod(0o755)
    done = rvlook("leak", "--monitor", folder / "image", "--symbols", folder / "symbols", "--at", "pin", "3132333435363738", "3237313832383030",
                  env={"RVBENCH": program})
    assert done.returncode == 1 and "  pc      differs at step" in done.stdout
    assert len(starts.read_text()) == 1 + 2 + 2 * 2
