"""`verify`: services whose state lasts and parsers end COMPLETE when they are right, also up to a stated length. Their planted bugs are found."""
import time
from types import SimpleNamespace

import pytest

from conftest import EXAMPLES

pytest.importorskip("z3", reason="python3-z3 is not installed")

pytestmark = pytest.mark.usefixtures("processor_clock")
STATES = {"ring": ("-DRING",), "heap": ("-DBLOCKS=2",)}
RARE = {  # programs with a bug: the program, the kind of the finding, and the activations that are searched, 0 for all
    ("TLV", "WRAPS"): ("verify_parsers", "load", 1), ("TLV", "LAST"): ("verify_parsers", "load", 1), ("TLV", "NESTED"): ("verify_parsers", "load", 1),
    ("CBOR", "NESTED"): ("verify_parsers", "load", 1), ("CBOR", "PLANTED"): ("verify_parsers", "store", 1),
    ("CBOR", "LAST"): ("verify_parsers", "load", 0), ("DER", "LAST"): ("verify_parsers", "load", 1),
    ("STAYS", "PLANTED"): ("verify_loops", "stuck", 0), ("HALVES", "PLANTED"): ("verify_loops", "stuck", 1),
    ("COUNTED", "PLANTED"): ("verify_loops", "stuck", 0)}
BUGS = [(parser, flag) for parser in ("TLV", "CBOR", "DER") for flag in ("PLANTED", "NESTED", "WRAPS", "LAST")]
PARSERS = {"tlv": ("-DTLV", 3), "der": ("-DDER", 5)}


@pytest.fixture
def elf(built, monkeypatch):
    """Builds a program with options of the compiler."""
    def path(name, *flags):
        monkeypatch.setenv("CFLAGS", " ".join(flags))
        return built(name, "--clang")
    return path


def memory(found):
    (it,) = (it for it in found if it["object"] == "question" and it["name"] == "memory")
    return it["verdict"]


@pytest.mark.parametrize("name", STATES)
def test_right_state_is_complete(results, elf, name):
    found = results("verify", elf("verify_states", *STATES[name]), "--monitor", "--seconds", "100")
    assert found[-1]["complete"] and memory(found) == "PROVED" and found[-1]["covered"].endswith("any number of activations")


@pytest.mark.usefixtures("up_to_a_finding")
@pytest.mark.parametrize("name", STATES)
def test_planted_state_is_found_by_activations(verified, elf, name):
    status, found = verified(elf("verify_states", "-DPLANTED", *STATES[name]), "--monitor", "--seconds", "20")
    findings = [it for it in found if it["object"] == "proof_finding"]
    assert (status, memory(found)) == (1, "FOUND") and all(it["confirmed"].startswith("confirmed") for it in findings)


@pytest.mark.parametrize("name", PARSERS)
def test_right_parser_is_complete_up_to_a_length(rvlook, elf, name):
    flag, most = PARSERS[name]
    done = rvlook("verify", elf("verify_parsers", flag), "--monitor", "--length", "window_base:%d" % most)
    assert done.returncode == 0
    assert done.stdout.splitlines()[-1] == "COMPLETE up to %d at window_base: all paths, all inputs, any number of activations" % most


@pytest.mark.usefixtures("up_to_a_finding")
def test_planted_parser_is_found(verified, elf):
    status, found = verified(elf("verify_parsers", "-DTLV", "-DLAST"), "--monitor", "--seconds", "20")
    assert (status, memory(found)) == (1, "FOUND")


@pytest.fixture
def slowly(request):
    """Skips a test that takes minutes, without --long-verify."""
    if not request.config.getoption("--long-verify"):
        pytest.skip("verify takes minutes; --long-verify runs it")


@pytest.mark.usefixtures("slowly")
def test_hash_with_all_keys_and_lengths_is_complete(results):
    image, symbols = (EXAMPLES / "enclaves" / "hmac" / it for it in ("image", "symbols"))
    found = results("verify", "--monitor", image, "--symbols", symbols, "--at", "key:32", "--public", "window_base+84:32", "--bound", "130",
                    "--seconds", "200")
    assert found[-1]["complete"] and found[-1]["covered"].startswith("all paths, all inputs, all secrets, any number of activations")


@pytest.mark.usefixtures("slowly")
@pytest.mark.parametrize("flag", ["-DTLV", "-DCBOR"])
def test_right_parser_of_64_bytes_is_complete(results, elf, flag):
    found = results("verify", elf("verify_parsers", flag), "--monitor", "--seconds", "300")
    assert found[-1]["complete"] and found[-1]["covered"] == "all paths, all inputs, any number of activations"


@pytest.mark.usefixtures("slowly")
@pytest.mark.parametrize("parser, flag", BUGS)
def test_planted_parser_of_64_bytes_is_found(objects, elf, parser, flag):
    status, found = objects("verify", elf("verify_parsers", "-D" + parser, "-D" + flag), "--monitor", "--seconds", "60")
    assert (status, memory(found)) == (1, "FOUND")


def searched(bench, monkeypatch, path, seconds, go=None):
    """Verifies a program in this process, with `go` in place of the order of all searches; returns the search that knows most."""
    from rvlook.api import load
    from rvlook.image.variables import variables_of
    from rvlook.symbolic.options import VerifyOptions
    from rvlook.symbolic.strategy import Strategy
    from rvlook.symbolic.verify import find_verify
    monkeypatch.setenv("RVBENCH", bench)
    if go:
        monkeypatch.setattr(Strategy, "go", go)
    program = load(path, monitor=True)
    return find_verify(program.run, program.symbols, variables_of(str(path), program.setup.image), VerifyOptions(seconds=seconds))


def rare_first(activations):
    """Returns a function that searches for rare branches alone."""
    def go(strategy, progress):
        from rvlook.symbolic.means import Means
        strategy.run(strategy.add_search(Means(is_rare_first=True, is_far=activations == 1, merges=False, activations=activations)), 1, progress)
    return go


@pytest.mark.usefixtures("up_to_a_finding")
@pytest.mark.parametrize("flags", RARE, ids=" ".join)
def test_rare_branches_find_a_planted_bug(bench, monkeypatch, elf, flags):
    program, what, activations = RARE[flags]
    search = searched(bench, monkeypatch, elf(program, *("-D" + it for it in flags)), 600, rare_first(activations))
    assert {it.what for it in search.findings.values()} == {what} and all(it.is_confirmed for it in search.findings.values())


def test_each_index_and_value_is_a_place_of_its_own():
    """A path comes after those at other places, although it began before them."""
    from rvlook.symbolic.schedule import Schedule
    indices = SimpleNamespace(values=lambda state: (state.depth,))
    schedule = Schedule(None, is_rare_first=True)
    for place in ((8, 0, 1), (8, 0, 1), (8, 0, 2), (8, 1, 1), (4, 0, 1)):
        pc, depth, target = place
        schedule.add(SimpleNamespace(pc=pc, context=0, depth=depth, value_followed=target, search=SimpleNamespace(indices=indices), place=place))
    assert [state.place for _ in range(5) for state in schedule.take()] == [(8, 0, 1), (8, 0, 2), (8, 1, 1), (4, 0, 1), (8, 0, 1)]


@pytest.mark.usefixtures("up_to_a_finding")
def test_loop_that_only_has_the_same_registers_is_not_confirmed(bench, monkeypatch, elf):
    """With a planted error, the memory is not compared: the replay shows that the loop ends."""
    from rvlook.symbolic import endless, questions
    monkeypatch.setattr(endless, "rest_of", lambda state: ())
    search = searched(bench, monkeypatch, elf("verify_loops", "-DCOUNTED"), 20, rare_first(0))
    assert [it.what for it in search.findings.values()] == ["stuck"] and not any(it.is_confirmed for it in search.findings.values())
    assert questions.untrusted(search)


def test_all_work_shares_one_deadline(bench, monkeypatch, elf):
    """Each query and each replay begins before the end of the run, and no query may last longer."""
    from rvlook.symbolic import questions
    from rvlook.symbolic.replay import Replayer
    from rvlook.symbolic.translate import Z3
    asked, replayed = [], []
    checked, go = Z3.check, Replayer.go
    monkeypatch.setattr(Z3, "check", lambda self, asts, timeout: asked.append(time.perf_counter() + timeout / 1000) or checked(self, asts, timeout))
    monkeypatch.setattr(Replayer, "go", lambda self, *more, **named: replayed.append(self.deadline) or go(self, *more, **named))
    search = searched(bench, monkeypatch, elf("verify_parsers", "-DCBOR"), 4)
    ended = time.perf_counter()
    assert questions.reasons_not_covered(search) and not questions.is_complete(search)
    (deadline,) = set(replayed)
    assert asked and max(asked) < deadline and ended < deadline + 20


def test_replay_that_is_late_is_not_complete(bench, monkeypatch):
    """With planted errors, the time is over when the first path, or a finding, is replayed."""
    from rvlook.symbolic import questions
    search = searched(bench, monkeypatch, EXAMPLES / "enclaves" / "adds" / "image", 60)
    assert questions.is_complete(search)
    search.replayer.deadline, state = 0, search.first_state()
    state.step()
    search.replay(state, "exit")
    assert questions.reasons_not_covered(search) == ["the time is over before 1 paths were replayed"]
    search.not_replayed, search.not_confirmed = 0, 2
    assert questions.reasons_not_covered(search) == ["the time is over before 2 findings were replayed"] and not questions.is_complete(search)


def test_search_that_is_late_before_the_last_pass_is_not_complete(bench, monkeypatch):
    from rvlook.symbolic import questions
    search = searched(bench, monkeypatch, EXAMPLES / "enclaves" / "adds" / "image", 60)
    assert questions.is_complete(search)
    search.loops.is_final, search.loops.heads = False, {1: (SimpleNamespace(prefix="l"), SimpleNamespace(arrivals=[]))}
    assert questions.reasons_not_covered(search) == ["the time is over before the ends of loops were examined"] and not questions.is_complete(search)


def test_length_of_the_run_itself_is_not_left_out(rvlook, elf):
    done = rvlook("verify", elf("verify_parsers", "-DTLV"), "--monitor", "--length", "window_base:2")
    assert (done.returncode, done.stderr) == (2, "rvlook: error: --length leaves out the run itself, which has 3 at window_base\n")


@pytest.mark.parametrize("is_final, undecided, count", [(True, {}, 2), (False, {}, 1), (True, {("load", 8): 1}, 1)])
def test_search_without_a_doubt_goes_on_in_its_last_pass(monkeypatch, is_final, undecided, count):
    from rvlook.symbolic.strategy import LOOP_SEARCHES, Strategy
    runs, strategy = [], Strategy.__new__(Strategy)
    search = SimpleNamespace(loops=SimpleNamespace(is_final=is_final), undecided=undecided, is_outgrown=False)
    monkeypatch.setattr(Strategy, "is_done", lambda self: False)
    monkeypatch.setattr(Strategy, "add_search", lambda self, means: search)
    monkeypatch.setattr(Strategy, "run", lambda self, search, part, progress: runs.append(part) or search)
    strategy.search_merged(LOOP_SEARCHES[0], .8, None)
    assert runs == [.8, 1][:count]
