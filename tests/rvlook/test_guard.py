"""`guard`: no false alarm on the example with two hosts, planted bugs of isolation, each check, and declarations of ranges."""
import re
import shutil

import pytest

from support.monitor_mutants import MUTANTS
from support.monitors import MONITORS, RAM, build, variant
from conftest import EXAMPLES, ROOT

TWO = MONITORS / "two_enclaves"
EXCHANGE = ROOT / "tests" / "rvlook" / "monitors" / "exchange"
REUSE = EXCHANGE.parent / "reuse"
IMAGE, RANGES = TWO / "image", TWO / "ranges"
ADDS_RANGES = """
monitor 80000000-8000ffff
host 80010000-8003ffff
e0 80020000-80020fff
shared e0 rw- 80030000-80030fff
once e0
"""
# Mutants that break isolation, with the check by which guard finds each of them; an empty text if it does not find it.
ISOLATION = {name: check for check, names in {
    "context": (
        "x31_saved_wrong x30_not_saved x1_restored_from_x2 timer_enabled_in_the_host stvec_not_saved sscratch_not_saved "
        "sepc_not_saved scause_not_saved stval_not_saved mxr_not_switched spp_not_switched spie_not_switched sie_not_switched "
        "mode_always_s host_not_saved interrupt_skips_an_instruction interrupt_clears_a0 enclave_enters_in_u "
        "ecall_repeated ecall_from_u_is_a_call"),
    "registers": (
        "x4_not_restored interrupt_hands_over_a0"),
    "trap in M": (
        "mscratch_not_set_again mprv_set block_outside_ram_accepted slot_13_is_live measure_outside_ram first_byte_of_measure_checked"),
    "access": (
        "monitor_open monitor_range_halved monitor_range_doubled regions_open region_not_executable region_closed_to_its_enclave "
        "window_executable window_read_only window_closed window_of_0_bytes_open host_not_executable host_entry_for_enclaves_too "
        "slot_12_not_protected slot_3_not_protected pmpaddr5_not_written pmpcfg2_not_written napot_doubled entries_not_written_at_enter "
        "entries_not_written_at_create fresh_region_open half_a_page_accepted any_size_accepted any_base_accepted "
        "window_over_monitor region_over_own_window region_over_other_window window_over_other_region"),
    "zeros": (
        "exited_region_open entries_not_written_at_leave first_word_not_zeroed last_word_not_zeroed one_page_zeroed nothing_zeroed"),
    "": (
        "tvm_set overlap_of_one_side region_over_monitor a_slot_too_many "
        "any_state_entered run_of_a_stopped_enclave last_byte_of_measure_not_checked enclave_measures_another "
        "host_may_stop byte_written_after_the_monitor"),
    "integrity": (
        "slot_not_freed entries_not_written_at_destroy measure_into_a_region"),
    "redirect": (
        "scause_not_restored spie_not_set spp_not_set sie_not_cleared mxr_cleared_by_a_trap cause_one_too_high stval_zero "
        "sepc_after_the_instruction trap_stays_in_u")}.items() for name in names.split()}


@pytest.fixture(autouse=True)
def program(bench, monkeypatch):
    """Runs the built program in this process."""
    monkeypatch.setenv("RVBENCH", bench)


def setup_of(image, ram=RAM):
    """Returns the configuration of a run."""
    from rvlook.image.files import image_of
    from rvlook.monitors.sides import MonitorSetup, return_addresses
    loaded = image_of(str(image))
    return MonitorSetup(loaded, ram, ("setreg 10 80010000", "setreg 11 %x" % ram), return_addresses(loaded))


def violation_of(image, runs=("", "1-1", "1-2")):
    """Returns the first violation of some runs over the ranges of the two enclaves, or None."""
    from rvlook.monitors.guard import Guard
    from rvlook.monitors.ranges_file import ownership_of
    from rvlook.protocol.symbols import Symbols
    ownership, setup = ownership_of(str(RANGES), Symbols()), setup_of(image)
    return next((it for it in (Guard(setup, ownership, 4000, run).run() for run in runs) if it), None)


# ---- no false alarm

def test_example_with_two_enclaves_has_no_violation(rvlook):
    done = rvlook("guard", "--timers", "3", IMAGE, RANGES)
    lines = done.stdout.splitlines()
    assert (done.returncode, done.stderr) == (0, "")
    assert all(int(re.search(r"(\d+) switches", it)[1]) >= 6 for it in lines[:4])
    assert re.fullmatch(r"two runs:    14 pairs, private state changed at 35 returns, 1682 returns compared", lines[4])


@pytest.mark.parametrize("name", ["adds", "timer"])
def test_example_with_another_host_has_no_violation(rvlook, tmp_path, name):
    elf, ranges = variant(tmp_path, [], EXAMPLES / "enclaves" / name), tmp_path / "ranges"
    ranges.write_text(ADDS_RANGES)
    done = rvlook("guard", "--ram", "262144", "--timers", "2", "--steps", "3000", elf, ranges)
    assert (done.returncode, done.stderr) == (0, "")
    assert ", 2 switches" in done.stdout


# ---- what was not checked

def test_run_without_a_host_has_no_result(rvlook, tmp_path):
    """The monitor alone enters memory without a host. Each instruction there is illegal, so that no enclave runs."""
    ranges = tmp_path / "ranges"
    ranges.write_text(ADDS_RANGES)
    done = rvlook("guard", "--steps", "20", "--timers", "0", MONITORS / "own_monitor" / "image", ranges)
    assert done.returncode == 3 and "\ne0:          entered 0 times, left 0, continued 0, range given back 0\n" in done.stdout
    assert done.stderr == "rvlook: warning: these enclaves never ran: e0; let the host enter them, or remove them from RANGES\n"


def test_refused_create_has_no_result(rvlook, tmp_path):
    refusing = variant(tmp_path, [("monitor.c", "    if (!is_valid(region))\n", "    if (region.size)\n")], TWO)
    done = rvlook("guard", "--timers", "0", "--steps", "3000", refusing, RANGES)
    assert done.returncode == 3 and "these enclaves never ran: first, second, filler0," in done.stderr


def test_monitor_and_host_without_an_enclave_are_checked(rvlook, tmp_path):
    """The host of two enclaves loses the region of the first one, which these ranges give to the host."""
    ranges = tmp_path / "ranges"
    ranges.write_text("monitor 80000000-8000ffff\nhost 80010000-8002ffff\n")
    untried = rvlook("guard", "--timers", "0", "--steps", "1", IMAGE, ranges)
    assert untried.returncode == 3 and "no world trapped, so that M never ran after its boot" in untried.stderr
    tried = rvlook("guard", "--timers", "0", IMAGE, ranges)
    assert tried.returncode == 1 and "violation of access" in tried.stdout


def test_enclave_that_is_not_left_has_no_result(rvlook):
    """The limit of the steps ends the run while the first enclave runs."""
    done = rvlook("guard", "--timers", "0", "--steps", "880", IMAGE, RANGES)
    first = re.search(r"first: +entered 1 times, left (\d)", done.stdout)
    assert done.returncode == 3 and first and first[1] == "0"
    assert "these enclaves were entered and never left: first; use more --steps" in done.stderr


def test_enclave_that_does_not_continue_has_no_result(rvlook, tmp_path):
    ranges = tmp_path / "ranges"
    ranges.write_text(RANGES.read_text().replace(" filler9 ", " "))
    done = rvlook("guard", "--timers", "0", IMAGE, ranges)
    assert done.returncode == 3
    assert done.stderr == ("rvlook: warning: after they were left, these enclaves never continued: filler9; let the host continue them, or add "
                           "'once OWNER' to RANGES\n")


def test_code_that_was_not_executed_is_listed_by_function_and_line(rvlook, tmp_path):
    """No call has this number, so that neither the branch nor the function is executed."""
    edit = ("monitor.c", "static void call_of_host(void)\n{\n", "__attribute__((noinline)) void rare(void)\n{\n    timer_compare = 5;\n}\n\n"
            "__attribute__((noinline)) static void call_of_host(void)\n{\n    if (current.x[A6] == 77) {\n        rare();\n        timer_compare = 6;\n    }\n")
    elf = variant(tmp_path, [edit], TWO)
    line = 1 + (tmp_path / "monitor" / "monitor.c").read_text().splitlines().index("        rare();")
    done = rvlook("guard", "--timers", "1", elf, RANGES)
    shown = done.stdout.split("code of M: ")[1]
    assert done.returncode == 0 and re.search(r"^  rare +whole function  monitor\.c:\d+$", shown, re.M)
    (own,) = re.findall(r"^  call_of_host +monitor\.c:(.*)$", shown, re.M)
    assert "%d-%d" % (line, line + 1) in own and "measure_enclave" not in shown


def test_code_of_an_image_without_symbols_is_listed_by_address(rvlook):
    done = rvlook("guard", "--timers", "0", IMAGE, RANGES)
    assert re.search(r"code of M:   \d+ of \d+ instructions executed; not executed:\n  code without a symbol +800[0-9a-f]{5}-800", done.stdout)


def test_objects_name_owners_and_code_that_was_not_executed(rvlook, results):
    found = results("guard", "--timers", "0", IMAGE, RANGES)
    first = next(it for it in found if it["object"] == "owner")
    assert (first["name"], first["entered"], first["left"], first["continued"], first["given_back"]) == ("first", 3, 3, 1, 2)
    (code,) = [it for it in found if it["object"] == "unexecuted"][:1]
    assert code["first"] <= code["last"] and code["function"] is None


# ---- planted bugs

CHOSEN = [it for it in MUTANTS if it.name in ISOLATION]


def pytest_generate_tests(metafunc):
    """Selects the mutants that are run: each third one of those that guard finds, or all with --all-mutants."""
    if "mutant" in metafunc.fixturenames:
        is_all = metafunc.config.getoption("--all-mutants")
        chosen = CHOSEN if is_all else [it for it in CHOSEN if ISOLATION[it.name]][::3]
        metafunc.parametrize("mutant", chosen, ids=[it.name for it in chosen])


def test_planted_bug_is_found(mutant, tmp_path):
    found = violation_of(variant(tmp_path, [(mutant.file, mutant.old, mutant.new)], TWO))
    assert (found.check if found else "") == ISOLATION[mutant.name], found


def test_at_least_35_of_45_bugs_are_found():
    assert len(CHOSEN) == len(ISOLATION) >= 45
    assert sum(map(bool, ISOLATION.values())) * 45 >= 35 * len(ISOLATION)


def test_steps_in_m_that_depend_on_a_closed_range_are_found(rvlook, tmp_path):
    edit = ("monitor.c", "static void call_of_host(void)\n{\n", "static void call_of_host(void)\n{\n    if (enclaves[0].state == STOPPED_HERE)\n"
            "        for (volatile unsigned i = 0; i < *(unsigned char *)(enclaves[0].region.base + 4); i++)\n            ;\n\n")
    done = rvlook("guard", "--timers", "0", variant(tmp_path, [edit], TWO), RANGES)
    assert done.returncode == 1 and "violation of noninterference" in done.stdout and " M takes " in done.stdout


def test_byte_that_depends_on_a_closed_range_is_found(rvlook, tmp_path):
    edit = ("monitor.c", "    default: return answer(NOT_SUPPORTED, 0);\n    }\n}\n\nstatic void call_of_enclave",
            "    default: return answer(NOT_SUPPORTED, enclaves[0].state == FREE ? 0 : *(unsigned char *)enclaves[0].region.base);\n    }\n}\n\n"
            "static void call_of_enclave")
    done = rvlook("guard", "--timers", "0", variant(tmp_path, [edit], TWO), RANGES)
    assert done.returncode == 1 and "violation of noninterference" in done.stdout and " a1 at " in done.stdout


# ---- leaks between worlds

def exchanging(folder, edits, keeper_first=True):
    """Builds a changed monitor with the host of two enclaves, which it creates in one of two orders. Returns the arguments of guard."""
    copy = folder / "exchange"
    shutil.copytree(EXCHANGE, copy)
    text = (copy / "host.c").read_text(encoding="ascii")
    (copy / "host.c").write_text(text.replace("KEEPER_FIRST = 1", "KEEPER_FIRST = %d" % keeper_first), encoding="ascii")
    return "guard", "--timers", "0", variant(folder, edits, copy), copy / "ranges"


@pytest.mark.parametrize("keeper_first", [True, False])
def test_two_enclaves_in_both_orders_have_no_violation(rvlook, tmp_path, keeper_first):
    done = rvlook(*exchanging(tmp_path, [], keeper_first))
    assert (done.returncode, done.stderr) == (0, "") and "\ntwo runs:    3 pairs, " in done.stdout


@pytest.mark.parametrize("keeper_first", [True, False])
def test_memory_that_the_monitor_gives_another_enclave_is_found(rvlook, tmp_path, keeper_first):
    """The asker gets a word of the keeper, and publishes it in its window."""
    edit = ("monitor.c", "    case MONITOR_EXIT: return", "    case 0x20: return answer(0, *(unsigned *)value);\n    case MONITOR_EXIT: return")
    done = rvlook(*exchanging(tmp_path, [edit], keeper_first))
    assert done.returncode == 1 and "violation of noninterference" in done.stdout
    assert re.search(r"  a1 at 800150[0-9a-f]{2} is 5ec0e701 or a13f18fe, which depends on private state of keeper\n", done.stdout)


@pytest.mark.parametrize("source", ["3 * enclave->context.x[9]", "5 * enclave->context.sscratch"])
def test_function_of_a_private_register_is_found(rvlook, tmp_path, source):
    """The host gets a product, which is no mark."""
    edit = ("monitor.c", "    answer(why, value);\n    program_pmp();", "    answer(why, value ^ (why == STOPPED ? %s : 0));\n    program_pmp();" % source)
    done = rvlook(*exchanging(tmp_path, [edit]))
    assert done.returncode == 1 and "violation of noninterference" in done.stdout and " private state of keeper\n" in done.stdout


def test_unused_memory_of_the_monitor_is_found(rvlook, tmp_path):
    edit = ("monitor.c", "    default: return answer(NOT_SUPPORTED, 0);\n    }\n}\n\nstatic void call_of_enclave",
            "    default: return answer(NOT_SUPPORTED, *(unsigned *)0x8000c010);\n    }\n}\n\nstatic void call_of_enclave")
    done = rvlook(*exchanging(tmp_path, [edit]))
    assert done.returncode == 1 and ", which depends on unused memory of the monitor\n" in done.stdout


def test_memory_that_the_monitor_uses_late_is_not_unused(rvlook, tmp_path):
    """The monitor counts the calls of the host in a page that is all zeros after the boot."""
    edit = ("monitor.c", "static void call_of_host(void)\n{\n", "static void call_of_host(void)\n{\n    if (++*(unsigned *)0x8000c010 > 1000)\n        return;\n")
    done = rvlook(*exchanging(tmp_path, [edit]))
    assert (done.returncode, done.stderr) == (0, "") and "\ntwo runs:    3 pairs, " in done.stdout


def test_region_that_is_closed_only_by_run_is_found(rvlook, tmp_path):
    """The host could change a region between create, which measures it, and run."""
    edit = ("monitor.c", "    prepare(&enclaves[slot]);\n    program_pmp();\n", "    prepare(&enclaves[slot]);\n")
    done = rvlook(*exchanging(tmp_path, [edit]))
    assert done.returncode == 1 and "violation of access" in done.stdout
    assert re.search(r"  host at 8001[0-9a-f]{4} could store to 8001[45]000-8001[45]fff of (keeper|asker), which M had loaded at the trap at 8001", done.stdout)


def test_region_that_is_measured_by_run_has_no_violation(rvlook, tmp_path):
    """Create neither measures nor closes a region; run does both."""
    edits = [("monitor.c", "    measure_enclave(&enclaves[slot]);\n    prepare(&enclaves[slot]);\n    program_pmp();\n", "    prepare(&enclaves[slot]);\n"),
             ("monitor.c", "        return answer(BAD_STATE, 0);\n    enter(slot);", "        return answer(BAD_STATE, 0);\n    if (state == FRESH)\n"
              "        measure_enclave(&enclaves[slot]);\n    enter(slot);")]
    done = rvlook(*exchanging(tmp_path, edits))
    assert (done.returncode, done.stderr) == (0, "")


# ---- declarations

def ownership_from(folder, text):
    from rvlook.monitors.ranges_file import ownership_of
    from rvlook.protocol.symbols import Symbol, Symbols
    path = folder / "ranges"
    path.write_text(text)
    return ownership_of(str(path), Symbols([Symbol(0x80002000, 64, "slots", False)]))


def test_smallest_range_decides_who_owns_a_byte(tmp_path):
    found = ownership_from(tmp_path, ADDS_RANGES + "e1 r-x 80020800-800208ff\nhands t0 a7\n")
    assert [found.owner_of(at) for at in (0x80000000, 0x8001FFFF, 0x80020000, 0x80020800, 0x80020900, 0x80030000, 0x80040000)] == [
        "monitor", "host", "e0", "e1", "e0", "host", None]
    assert found.hands == {5, 17} and [it.may for it in found.open_to("e0")] == ["rwx", "rw-"]


@pytest.mark.parametrize("line", ["e1", "e1 80020000", "e1 80030000-80020000", "e1 rwxr 80020000-80020fff", "shared 80020000-80020fff",
                                  "e1 host 80020000-80020fff", "hands a9", "e1 80020000-8002zfff", "once", "e1 80020000-80020fff while",
                                  "e1 80020000-80020fff while slot=1", "e1 80020000-80020fff while slots>1", "e1 80020000-80020fff while calls<a",
                                  "while slots=1", "hands a0 while slots=1", "once e0 while slots=1", "secret slots", "secret slots 0",
                                  "table e 2 slots 20 region 0", "table e 2 slots 20 window 0 4", "table e 0 slots 20 region 0 4",
                                  "table e 2 slot 20 region 0 4", "table e 2 slots 20 region 0 4 window 8", "table e 2 slots 20 region 0 4 while x=0"])
def test_malformed_line_is_refused(tmp_path, line):
    from rvlook.errors import RvlookError
    with pytest.raises(RvlookError, match=r"ranges:7: expected 'OWNER"):
        ownership_from(tmp_path, ADDS_RANGES + line + "\n")


@pytest.mark.parametrize("text, missing", [("host 80010000-8003ffff\ne0 80020000-80020fff\n", "monitor"),
                                           ("monitor 80000000-8000ffff\ne0 80020000-80020fff\n", "host"),
                                           (ADDS_RANGES + "once e0 e7\n", "e7")])
def test_missing_owner_is_refused(tmp_path, text, missing):
    from rvlook.errors import RvlookError
    with pytest.raises(RvlookError, match="has no range of %s$" % missing):
        ownership_from(tmp_path, text)


def test_ranges_of_a_table_are_those_of_its_elements_that_count(tmp_path):
    found = ownership_from(tmp_path, ADDS_RANGES + "table slot 3 slots 20 region 4 8 window c 10 while 0!=0 calls<9  # a comment\nonce slot\n")
    words = {0x80002000: 1, 0x80002004: 0x80024000, 0x80002008: 0x1000, 0x8000200C: 0x80026000, 0x80002010: 0x2000,
             0x80002024: 0x80025000, 0x80002028: 0x1000, 0x80002040: 2, 0x80002044: 0x80028000, 0x80002048: 0x800}
    shown = [(str(it), it.owner, it.may, it.sharers) for it in found.active(lambda at: words.get(at, 0), 8).ranges if it.is_timed]
    assert shown == [("80024000-80024fff", "slot0", "rwx", ()), ("80026000-80027fff", "shared", "rw-", ("slot0",)),
                     ("80028000-800287ff", "slot2", "rwx", ())]
    assert not any(it.is_timed for it in found.active(lambda at: words.get(at, 0), 9).ranges)
    assert found.runs_once("slot2") and found.enclaves() == ["e0", "slot"]


@pytest.mark.parametrize("text, values", [("slots+4=10", {0x10: True, 0x11: False}), ("slots+4!=10", {0x10: False, 0: True}),
                                          ("80002004<10", {0xF: True, 0x10: False}), ("slots+4>=10", {0x10: True, 0xF: False})])
def test_condition_compares_the_word_at_a_place(tmp_path, text, values):
    found = ownership_from(tmp_path, ADDS_RANGES + "e1 80024000-80024fff while %s\n" % text)
    for value, is_there in values.items():
        assert ("e1" in found.active({0x80002004: value}.__getitem__, 0).enclaves()) == is_there


def test_condition_compares_the_calls_in_decimal(tmp_path):
    found = ownership_from(tmp_path, ADDS_RANGES + "e1 80024000-80024fff while calls>=10 calls<12\n")
    assert ["e1" in found.active(lambda at: 0, number).enclaves() for number in (9, 10, 11, 12)] == [False, True, True, False]


CONDITIONS = ("small 80014000-80014fff while %s\nlarge 80014000-80015fff while %s\nshared small rw- 80018000-80018fff while %s\n")
IN_TIME = {"table": (REUSE / "ranges").read_text(),
           "words": ADDS_RANGES.split("e0")[0] + CONDITIONS % (("enclaves!=0 enclaves+8=1000", "enclaves!=0 enclaves+8=2000") + ("enclaves!=0 enclaves+8=1000",)),
           "calls": ADDS_RANGES.split("e0")[0] + CONDITIONS % ("calls>=1 calls<4", "calls>=5 calls<8", "calls>=1 calls<4")}


@pytest.fixture(scope="module")
def reusing(tmp_path_factory):
    """The host that reuses memory, with the example monitor."""
    return variant(tmp_path_factory.mktemp("reuse"), [], REUSE)


@pytest.mark.parametrize("name", IN_TIME)
def test_memory_that_is_reused_has_no_violation(rvlook, reusing, tmp_path, name):
    """A larger enclave without a window comes after the first one. The calls are counted without timer interrupts only."""
    (tmp_path / "ranges").write_text(IN_TIME[name])
    done = rvlook("guard", "--timers", "0" if name == "calls" else "3", reusing, tmp_path / "ranges")
    assert (done.returncode, done.stderr) == (0, "") and " 2 ranges given back\n" in done.stdout


def test_memory_that_is_reused_has_false_violations_without_conditions(rvlook, reusing, tmp_path):
    (tmp_path / "ranges").write_text(re.sub(" while.*", "", IN_TIME["words"]))
    done = rvlook("guard", "--timers", "0", reusing, tmp_path / "ranges")
    assert done.returncode == 1 and "which belongs to " in done.stdout


def test_range_that_ends_without_zeros_is_found(rvlook, tmp_path):
    edit = ("monitor.c", "    while (word != end)\n        *word++ = 0;\n", "    while (++word < end - 900)\n        *word = 0;\n")
    done = rvlook("guard", "--timers", "0", variant(tmp_path, [edit], REUSE), REUSE / "ranges")
    assert done.returncode == 1 and "violation of zeros" in done.stdout and "80014000-80014fff of e0, which is not zeroed" in done.stdout


def test_table_that_never_has_an_enclave_has_no_result(rvlook, reusing, tmp_path):
    (tmp_path / "ranges").write_text((REUSE / "ranges").read_text().replace("while 0!=0", "while 0=77"))
    done = rvlook("guard", "--timers", "0", "--steps", "20", reusing, tmp_path / "ranges")
    assert done.returncode == 3 and "these enclaves never ran: e;" in done.stderr


def test_secret_of_the_monitor_is_found(rvlook, tmp_path):
    edits = [("monitor.c", "static unsigned ram_size;\n", "static unsigned ram_size;\nunsigned key[2] = {3, 5};\n"),
             ("monitor.c", "    default: return answer(NOT_SUPPORTED, 0);\n    }\n}\n\nstatic void call_of_enclave",
              "    default: return answer(NOT_SUPPORTED, key[1] * 7);\n    }\n}\n\nstatic void call_of_enclave")]
    *words, ranges = exchanging(tmp_path, edits)
    ranges.write_text(ranges.read_text() + "secret key 8\n")
    done = rvlook(*words, ranges)
    assert done.returncode == 1 and " a1 at " in done.stdout and ", which depends on secret memory of the monitor\n" in done.stdout


def test_grammar_of_ranges_is_on_the_page_and_in_the_help(rvlook):
    from rvlook.monitors.grammar import GRAMMAR
    assert "```\n%s\n```\n" % GRAMMAR in (ROOT / "docs" / "OWN_MONITOR.md").read_text(encoding="utf-8")
    assert GRAMMAR in rvlook("guard", "--help").stdout


def test_window_that_is_not_declared_is_a_violation(rvlook):
    done = rvlook("guard", "--timers", "0", IMAGE, "tests/rvlook/images/guard/ranges")
    assert done.returncode == 1
    assert "  first at 80014000 may access rw- 8001c000-8001cfff, which is neither its own nor shared with it\n" in done.stdout
    assert rvlook("guard", "--exit-zero", "--timers", "0", IMAGE, "tests/rvlook/images/guard/ranges").returncode == 0


def test_register_that_does_not_hand_over_is_a_violation(rvlook, tmp_path):
    ranges = tmp_path / "ranges"
    ranges.write_text(RANGES.read_text().replace("hands        a0 a1", "hands        a0"))
    done = rvlook("guard", "--timers", "0", IMAGE, ranges)
    assert done.returncode == 1 and "violation of context" in done.stdout and " with a1 " in done.stdout


# ---- traps in M

PROBE = "la t0, probe_handler\\n csrrw t1, mtvec, t0\\n mv t2, zero\\nprobe: lw t2, 0(t2)\\n nop\\n nop\\n csrw mtvec, t1"


def probing(folder, handler, probe=PROBE):
    """Builds a monitor that traps in M at each create, with this handler, whose lines are separated by semicolons."""
    lines = "        .section .text\n        .balign 4\n        .globl probe_handler\nprobe_handler:\n%s\n" % "\n".join(
        "        " + it.strip() for it in handler.split(";"))
    edits = [("start.s", "        .section .bss\n", lines + "        .section .bss\n"), ("monitor.c", "static void create(void)\n{\n", (
        "static void create(void)\n{\n    __asm__ volatile(\"%s\" ::: \"t0\", \"t1\", \"t2\", \"memory\");\n" % probe))]
    return exchanging(folder, edits)


@pytest.mark.parametrize("handler", ["csrr t0, mepc; addi t0, t0, 4; csrw mepc, t0; mret", "la t2, current; mret"])
def test_trap_in_m_that_returns_is_no_violation(rvlook, tmp_path, handler):
    """The handler returns to the next instruction, or repairs the address and returns to the same one."""
    done = rvlook(*probing(tmp_path, handler))
    assert (done.returncode, done.stderr) == (0, "")
    assert re.search(r"^trap in M:   2 times handled by M, at 8000[0-9a-f]{4}  .*monitor\.c:\d+$", done.stdout, re.M)


@pytest.mark.parametrize("handler, text", [
    ("csrr t0, mepc; addi t0, t0, 8; csrw mepc, t0; mret", ", after which M continues at 8000"),
    ("la t0, return_below; csrw mepc, t0; mret", ", after which M continues at 8000"),
    ("lui t0, 0x80010; csrw mepc, t0; mret", ", after which M continues at 80010000"),
    ("li t0, 0x1000; csrc mstatus, t0; la t0, return_below; jr t0", ", after which M enters S at 8001"),
    ("lw t0, 0(zero); mret", ", in the handler of a trap in M"),
    ("j .", "; M does not return within ")])
def test_trap_in_m_that_does_not_return_is_a_violation(rvlook, tmp_path, handler, text):
    done = rvlook(*probing(tmp_path, handler))
    assert done.returncode == 1 and "violation of trap in M after " in done.stdout
    assert re.search(r"^  trap in M at 8000[0-9a-f]{4}, 00000005:00000000" + re.escape(text), done.stdout, re.M)
    assert re.search(r"^  M was at 8000[0-9a-f]{4}  .*:\d+$", done.stdout, re.M)


def test_trap_in_m_without_a_vector_is_a_violation(rvlook, tmp_path):
    done = rvlook(*probing(tmp_path, "mret", PROBE.replace("la t0, probe_handler", "mv t0, zero")))
    assert done.returncode == 1 and ", whose vector 00000000 is not in memory of the monitor\n" in done.stdout


def test_loop_of_traps_ends_the_run(rvlook, tmp_path):
    """Without a host, each exception goes to address 0, where the next one comes."""
    ranges = tmp_path / "ranges"
    ranges.write_text(ADDS_RANGES)
    done = rvlook("guard", "--timers", "0", MONITORS / "own_monitor" / "image", ranges)
    assert done.returncode == 3
    assert "warning: a run ended in a loop of traps at 00000000: the instruction traps each time it continues\n" in done.stderr
    assert int(re.search(r"no timer: +(\d+) steps below M", done.stdout)[1]) < 100


def test_trap_in_m_is_a_violation(tmp_path):
    edit = ("monitor.c", "static void create(void)\n{\n", "static void create(void)\n{\n    __asm__ volatile(\"ebreak\");\n")
    found = violation_of(variant(tmp_path, [edit], TWO), ("",))
    assert found.check == "trap in M" and re.match("trap in M at 8000[0-9a-f]{4}, 0000000[0-9]:", found.text)


# ---- monitor and host as two files

def test_host_may_be_a_second_file(rvlook, tmp_path):
    """Both files are linked by themselves. The boot has a symbol of the host, and places of both have lines."""
    monitor = variant(tmp_path, [("monitor.c", "    case MONITOR_EXIT: return", "    case 0x20: return answer(0, *(unsigned *)value);\n"
                                  "    case MONITOR_EXIT: return")])
    host = tmp_path / "host.elf"
    shutil.copytree(EXCHANGE, tmp_path / "exchange")
    build(tmp_path, tmp_path / "exchange", host)
    (tmp_path / "boot").write_text("setreg 10 _start\nsetreg 11 30000\n")
    done = rvlook("guard", "--timers", "0", "--host", host, "--boot", tmp_path / "boot", monitor, EXCHANGE / "ranges")
    assert done.returncode == 1 and ", which depends on private state of keeper\n" in done.stdout
    assert re.search(r"  the trap was at 800150[0-9a-f]{2}  enclave_entry\+[0-9a-f]+  enclave\.s:\d+\n", done.stdout)
