"""`conform --deep`: bugs that show only in large blocks, after many calls, or with corner values in registers."""
import io

import pytest

from support.monitors import OWN, setup_of, variant

LOOP = "    while (word != end)\n        *word++ = 0;\n"
VALID = "!(block.base & (block.size - 1))"
HASHED = "for (unsigned i = 0; i < enclave->region.size; i++)"
NAPOT = "return block.base >> 2 | (block.size / 2 - 1) >> 2;"
SAME = "return one.size && other.size && (contains(one, other.base) || contains(other, one.base));"
CREATE, CALL = "static void create(void)\n{\n", "static void call(void)\n{\n"
BUGS = {
    "NAPOT wrong from 64 KiB": ("pmp.c", NAPOT, NAPOT[:-1] + " << (block.size >= 0x10000);", "block: region of 10000"),
    "NAPOT wrong from 128 KiB": ("pmp.c", NAPOT, NAPOT[:-1] + " << (block.size >= 0x20000);", "block: region of 20000"),
    "NAPOT of a window wrong from 2 MiB": ("pmp.c", NAPOT, NAPOT[:-1] + " << (block.size >= 0x200000);", "block: window of 200000"),
    "measurement stops at 32 KiB": ("measurement.c", HASHED, HASHED.replace("size;", "size && i < 0x8000;"), "block: region of 10000 bytes, other"),
    "measurement stops at 64 KiB": ("measurement.c", HASHED, HASHED.replace("size;", "size && i < 0x10000;"), "block: region of 20000 bytes, other"),
    "destroy clears 32 KiB": ("monitor.c", LOOP, LOOP.replace("end)", "end && (unsigned)word - enclaves[slot].region.base < 0x8000)"), "of 10000 bytes"),
    "destroy clears 1 MiB": ("monitor.c", LOOP, LOOP.replace("end)", "end && (unsigned)word - enclaves[slot].region.base < 0x100000)"), "of 200000 bytes"),
    "misaligned above 64 KiB": ("monitor.c", VALID, "!(block.base & (block.size - 1) & 0xffff)", "at other bases"),
    "overlap modulo 1 MiB": ("monitor.c", SAME, "one.base &= 0xfffff, other.base &= 0xfffff;\n    " + SAME, "100000 bytes apart"),
    "overlap modulo 2 MiB": ("monitor.c", SAME, "one.base &= 0x1fffff, other.base &= 0x1fffff;\n    " + SAME, "200000 bytes apart"),
    "256th create": ("monitor.c", CREATE, CREATE + "    static unsigned char count;\n\n    if (!++count)\n        return answer(NO_SLOT, 0);\n", "many creates"),
    "1000th call": ("monitor.c", CALL, CALL + "    static unsigned count;\n\n    if (++count == 1000)\n        current.x[A2] ^= 1;\n", "many calls"),
    "512th switch": ("monitor.c", "    host = current;\n    current =", "    static unsigned count;\n\n    host = current;\n    host.x[9] ^= ++count == 200;\n"
                     "    current =", "many switches"),
    "timer with a0 = 80000000": ("monitor.c", "        timer_compare = 0xffffffff;\n", "        timer_compare = 0xffffffff;\n"
                                 "        if (current.x[A0] == 0x80000000)\n            current.x[A0] = 0;\n", "corner values at interrupts"),
    "stop with t3 = 0": ("monitor.c", "        answer(0, 0); /* after resume */\n", "        answer(0, 0);\n        current.x[28] += !current.x[28];\n",
                         "corner values at stops"),
    "exception with s2 = -1": ("monitor.c", "    current.sepc = current.x[0];\n", "    current.sepc = current.x[0];\n"
                               "    current.x[18] += current.x[18] == 0xffffffff;\n", "corner values at exceptions"),
}
IN_THE_GATE = ("NAPOT wrong from 64 KiB", "measurement stops at 32 KiB", "destroy clears 32 KiB", "misaligned above 64 KiB", "overlap modulo 1 MiB",
               "256th create", "1000th call", "timer with a0 = 80000000", "exception with s2 = -1")


@pytest.fixture(autouse=True)
def program(bench, monkeypatch):
    """Runs the built program in this process."""
    monkeypatch.setenv("RVBENCH", bench)


def pytest_generate_tests(metafunc):
    """Selects the bugs that are compared: all with --all-mutants."""
    if "bug" in metafunc.fixturenames:
        metafunc.parametrize("bug", BUGS if metafunc.config.getoption("--all-mutants") else IN_THE_GATE)


def first_different(elf, only):
    """Returns the first script with a difference, of the deep scripts whose names contain a text, and its task."""
    from rvlook.monitors.conform import ScriptPlan, compare
    outcome = compare(setup_of(elf), ScriptPlan(0, 0, "1", only, is_deep=True))
    assert outcome.coverage.scripts
    return outcome


def test_bug_is_found(bug, tmp_path):
    file, old, new, script = BUGS[bug]
    outcome = first_different(variant(tmp_path, [(file, old, new)]), script)
    assert outcome.different and script in outcome.different.name


def test_names_of_large_scripts_have_each_power_of_two():
    from rvlook.monitors.directed import large_scripts
    names = {name for name, _ in large_scripts(0x400000)}
    for kind in ("block: region of %x bytes", "block: window of %x bytes", "block: regions of %x bytes at other bases", "block: beside a region of %x bytes"):
        assert {kind % (1 << n) for n in range(12, 22)} <= names
    assert {"block: %x bytes apart" % (1 << n) for n in range(12, 22)} <= names


def test_ram_that_is_given_is_that_of_all_scripts(tmp_path):
    from rvlook.monitors.conform import DEEP_RAM, ScriptPlan, tasks_of
    own = tasks_of(ScriptPlan(0, 0, "1", is_deep=True, has_ram=True), 0x30000)
    assert {it.ram for it in own} == {0} and not any("of 20000 bytes" in it.name for it in own if it.name.startswith("block"))
    assert {it.ram for it in tasks_of(ScriptPlan(0, 0, "1", is_deep=True), 0x30000)} == {0, DEEP_RAM}


def test_report_of_a_long_script_shows_its_ends():
    from rvlook.monitors.conform_text import DifferenceReport
    from rvlook.monitors.items import call
    from rvlook.monitors.pair import PlayedScript, PairStep
    from rvlook.output.printer import Printer
    stream = io.StringIO()
    DifferenceReport(None, None, Printer(stream=stream), None).show_items(PlayedScript("test", [PairStep(call(n), "host", "") for n in range(100, 200)]))
    lines = stream.getvalue().splitlines()
    assert len(lines) == 41 and lines[20] == "  ... 60 items"
    assert (lines[0].split(), lines[19].split(), lines[21].split(), lines[-1].split()) == tuple(
        ["host", "call", "%x" % n] for n in (100, 119, 180, 199))


def test_default_is_within_32_kib_and_deep_is_alike_for_the_example(rvlook):
    done = rvlook("conform", OWN / "image", "--deep", "--only", "block: region of 200000", "--jobs", "2")
    assert done.returncode == 0 and done.stdout.startswith("alike: 3 scripts")
    assert "no script has" in rvlook("conform", OWN / "image", "--only", "block: region of 200000").stderr
