"""`inputs` gives the requests of the run in another order, and a part of one request with the rest of another. The requests have tags, so that no
changed value passes the checks. z3 is not used, since it would compute tags with a key that no host knows."""
import pytest

RUNS = ("--monitor", "--runs", "160")


@pytest.fixture(scope="module")
def elf(built):
    return built("inputs_order", "--clang")


@pytest.fixture(scope="module")
def found(objects, elf, no_z3):
    status, every = objects("inputs", elf, *RUNS, env=no_z3)
    assert status == 1
    return [it for it in every if it["object"] == "finding"]


def test_request_after_the_one_that_closes_the_session_is_found(found):
    (it,) = [it for it in found if it["text"].startswith("load traps at an address that the host chooses")]
    changes = it["inputs"]
    assert {change["name"] for change in changes} == {"w->command"} and len({change["step"] for change in changes}) <= 2
    assert all(len(change["value"]) == 2 * 24 for change in changes)


def test_header_of_one_request_with_the_body_of_another_is_found(found):
    (it,) = [it for it in found if it["text"].startswith("store moves over the end of little into ")]
    (change,) = it["inputs"]
    assert change["name"] == "w->count" and change["value"].startswith("28000000") and len(change["value"]) == 2 * 12


def test_nothing_is_found_in_the_correction(results, elf, no_z3, tmp_path):
    script = tmp_path / "script"
    script.write_text("poke corrected 01\n")
    every = results("inputs", elf, *RUNS, "--script", script, env=no_z3)
    assert every[-1]["runs"] == 160 and not [it for it in every if it["object"] == "finding"]
