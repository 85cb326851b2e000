"""`verify --allow`: what the rule of objects does not decide is allowed at the named instructions only, and confined to region and window."""
import pytest

pytest.importorskip("z3", reason="python3-z3 is not installed")

UNION, ORIGIN, FOLDED = "a member of a union", "an address whose origin is not known", "an address that may be folded by the compiler"
ALLOWED = {1: (None, UNION), 2: ("hidden_load", ORIGIN), 3: ("folded", FOLDED)}  # of each task: a symbol, and what is not known there
FAR = {12: ("hidden_load", "traps"), 13: ("folded_store", "memory")}  # tasks whose access can leave the region, and the question


@pytest.fixture(scope="module")
def elf(built):
    return built("verify_allowed", "--clang")


@pytest.fixture
def words(elf, tmp_path):
    """Returns the arguments for a task."""
    def of(task, *options):
        script = tmp_path / "script"
        script.write_text("poke task %02x\n" % task)
        return ("verify", elf, "--monitor", "--script", script, *options)
    return of


def verdicts(found):
    return {it["name"]: it["verdict"] for it in found if it["object"] == "question"}


def line_of_the_union(elf):
    """Returns the source line of the store to the union."""
    text = (elf.parent / "application.c").read_text(encoding="utf-8").splitlines()
    return "application.c:%d" % (1 + next(n for n, line in enumerate(text) if "body.raw[at] = 1" in line))


def place_of(elf, task):
    return line_of_the_union(elf) if task == 1 else ALLOWED[task][0]


@pytest.mark.parametrize("task", ALLOWED)
def test_access_is_not_decided_without_the_option(results, words, task):
    found = results(*words(task), status=3)
    assert verdicts(found)["memory"] == "NOT DECIDED" and not found[-1]["complete"] and found[-1]["allowed"] == []


@pytest.mark.parametrize("task", ALLOWED)
def test_allowed_access_is_complete_and_is_named(results, words, elf, task):
    found = results(*words(task, "--allow", place_of(elf, task)))
    assert verdicts(found)["memory"] == "PROVED" and found[-1]["complete"] and found[-1]["reasons"] == []
    (access,) = found[-1]["allowed"]
    assert access.endswith("(%s)" % ALLOWED[task][1]) and ", if the allowed accesses are right: " + access in found[-1]["covered"]


@pytest.mark.parametrize("task", FAR)
def test_overflow_into_memory_outside_the_enclave_is_found(results, words, task):
    place, question = FAR[task]
    found = results(*words(task, "--allow", place), status=1)
    assert verdicts(found)[question] == "FOUND"
    assert all(it["confirmed"].startswith("confirmed") for it in found if it["object"] == "proof_finding")


@pytest.mark.parametrize("more", [(), ("right",)])
def test_option_that_nothing_needs_is_not_complete(results, words, elf, more):
    options = [it for _ in more for it in ("--allow", line_of_the_union(elf))]
    found = results(*words(1, "--allow", "folded", *options), status=3)
    assert verdicts(found)["memory"] == ("PROVED" if more else "NOT DECIDED")
    assert not found[-1]["complete"] and found[-1]["reasons"][-1] == "--allow folded names no access that needs it"


def test_line_of_the_option_decides_the_status(rvlook, words, elf):
    place = line_of_the_union(elf)
    done = rvlook(*words(1, "--allow", place))
    assert done.returncode == 0 and done.stdout.splitlines()[-1].startswith("COMPLETE: ") and place in done.stdout.splitlines()[-1]
    done = rvlook(*words(1, "--allow", place, "--allow", "hidden"))
    assert done.returncode == 3 and done.stdout.splitlines()[-1] == "not complete: --allow hidden names no access that needs it"


@pytest.mark.parametrize("place", ["application.c:9999", "80030000", "window_base:4"])
def test_place_without_an_instruction_is_refused(rvlook, words, place):
    done = rvlook(*words(1, "--allow", place))
    assert (done.returncode, done.stdout) == (2, "")
    assert done.stderr == "rvlook: error: --allow names no instruction of the enclave with '%s'; use PLACE[:BYTES] or FILE:LINE\n" % place


def test_found_access_is_not_allowed(results):
    from conftest import EXAMPLES
    folder = EXAMPLES / "enclaves" / "bug"
    found = results("verify", "--monitor", folder / "image", "--symbols", folder / "symbols", "--allow", "application+2c", status=1)
    assert verdicts(found)["memory"] == "FOUND"
