"""`conform`: the example monitor is alike, each field that can differ is reported as itself, and the exit statuses and outputs."""
import re

import pytest

from support.monitors import MONITORS, OWN, RAM, first_different, setup_of, variant

IMAGE = OWN / "image"
ORDER = [("monitor.c", "    if (!is_valid(region))\n        return answer(BAD_REGION, 0);\n    if (window.size && !is_valid(window))\n"
          "        return answer(BAD_WINDOW, 0);\n", "    if (window.size && !is_valid(window))\n        return answer(BAD_WINDOW, 0);\n"
          "    if (!is_valid(region))\n        return answer(BAD_REGION, 0);\n")]
NOT_LOWERED = [("monitor.c", "        timer_compare = 0xffffffff;\n", "")]


@pytest.fixture(autouse=True)
def program(bench, monkeypatch):
    """Runs the built program in this process."""
    monkeypatch.setenv("RVBENCH", bench)


@pytest.fixture(scope="module")
def wrong_order(tmp_path_factory):
    """The monitor that checks the window before the region."""
    return variant(tmp_path_factory.mktemp("order"), ORDER)


# ---- the example

def test_example_is_alike_and_covers_every_cell(rvlook):
    done = rvlook("conform", IMAGE, "--symbols", OWN / "symbols", "--jobs", "2", "--tries", "8")
    assert (done.returncode, done.stderr) == (0, "")
    assert done.stdout.startswith("alike: ") and "\ncoverage: 66 of 66 cells\n" in done.stdout


def test_example_is_alike_under_exact():
    assert first_different(setup_of(IMAGE, exact=True), part=slice(None, None, 6)) is None


def test_jobs_give_the_same_result(rvlook):
    one = rvlook("conform", IMAGE, "--only", "measured", "--tries", "0")
    assert one.stdout == rvlook("conform", IMAGE, "--only", "measured", "--tries", "0", "--jobs", "3").stdout
    assert one.returncode == 0 and one.stdout.startswith("alike: 11 scripts")


def test_time_limit_counts_with_only_too(rvlook):
    done = rvlook("conform", IMAGE, "--only", "measured", "--tries", "0", "--seconds", "0")
    assert done.returncode == 3 and "the time limit of 0 seconds left out 10 scripts" in done.stderr


# ---- comparison

def observed(**changes):
    """An observation, with some fields replaced."""
    from rvlook.monitors.sides import BELOW, SideState
    lines = ["x%d=%08x" % (n, n) for n in range(32)] + ["pc=80010000"] + ["csr 100=%08x" % n for n, _ in enumerate(BELOW)]
    entries = "\n".join("pmp %d cfg=%s addr=%08x" % (n, "1f" if n == 15 else "00", 0xFFFFFFFF if n == 15 else 0) for n in range(16)).encode()
    whole = SideState(0x80010000, "S", "-", "host", "\n".join(lines).encode(), (0, 0, 0, 0, 0, 0), entries)
    return whole._replace(**changes)


def setup_like(is_exact=False):
    """The configuration of a comparison of two observations."""
    from rvlook.monitors.sides import MonitorSetup
    return MonitorSetup(None, RAM, (), (), exact=is_exact)


def names_of(own, is_exact=False):
    """The kinds and names of the differences from the observation without changes."""
    from rvlook.monitors.comparison import differences
    return [(it.kind.name, it.name) for it in differences(own, observed(), setup_like(is_exact))]


@pytest.mark.parametrize("number", range(1, 32))
def test_register_that_differs_is_named(number):
    below = observed().below.replace(b"x%d=%08x\n" % (number, number), b"x%d=deadbeef\n" % number)
    assert names_of(observed(below=below)) == [("register", "x%d" % number)]


def test_pc_and_mode_and_trap_that_differ_are_named():
    assert names_of(observed(below=observed().below.replace(b"pc=80010000", b"pc=80010004"))) == [("pc", "pc")]
    assert names_of(observed(mode="U")) == [("mode", "mode")]
    assert names_of(observed(trap="00000009:00000000")) == [("trap", "trap of the step")]


@pytest.mark.parametrize("number", range(10))
def test_supervisor_register_that_differs_is_named(number):
    from rvlook.monitors.sides import BELOW
    lines = observed().below.splitlines()
    lines[33 + number] = b"csr 100=12345678"
    assert names_of(observed(below=b"\n".join(lines))) == [("csr", BELOW[number])]


@pytest.mark.parametrize("number, name", enumerate(["mstatus", "mie", "mip"]))
def test_deciding_bits_that_differ_are_named(number, name):
    assert names_of(observed(above=tuple(int(n == number) for n in range(6)))) == [("csr", name)]


@pytest.mark.parametrize("number, name", enumerate(["mepc", "mcause", "mtval"], 3))
def test_machine_register_that_differs_is_named_only_under_exact(number, name):
    own = observed(above=tuple(int(n == number) for n in range(6)))
    assert names_of(own) == [] and names_of(own, True) == [("csr", name)]


def test_entries_that_differ_are_named_only_under_exact():
    own = observed(entries=observed().entries.replace(b"pmp 3 cfg=00 addr=00000000", b"pmp 3 cfg=00 addr=00000001"))
    assert names_of(own) == [] and names_of(own, True) == [("entry", "PMP entry 3")]


def test_access_rights_that_differ_are_named():
    from rvlook.monitors.comparison import differences
    own = observed(entries=observed().entries.replace(b"pmp 2 cfg=00 addr=00000000", b"pmp 2 cfg=18 addr=200051ff"))
    (it,) = differences(own, observed(), setup_like())
    assert (it.kind.name, it.own) == ("rights", "80000000-80013fff rwx, 80014000-80014fff ---, 80015000-8002ffff rwx")
    assert it.reference == "80000000-8002ffff rwx"


def test_access_over_a_boundary_of_two_entries_differs():
    """Two entries with equal rights differ from one, since an access across their boundary is refused."""
    whole = observed().entries.replace(b"pmp 1 cfg=00 addr=00000000", b"pmp 1 cfg=1f addr=20003fff")
    assert names_of(observed(entries=whole)) == [("rights", "access rights of S and U")]


def test_fault_in_m_is_the_only_difference():
    assert names_of(observed(fault="trap in M, 00000002:00000000", mode="U")) == [("fault", "trap in M, 00000002:00000000")]


def test_byte_that_differs_is_located():
    from rvlook.monitors.comparison import memory_difference
    rows = ["80010000:" + " 00" * 64, "80010040:" + " 00" * 64]
    other = [rows[0], "80010040: 00 00 07" + " 00" * 61]
    (it,) = memory_difference("\n".join(other).encode(), "\n".join(rows).encode())
    assert (it.name, it.place, it.own[:5]) == ("memory at 80010042", 0x80010042, "07 00")
    assert memory_difference(b"a", b"a") == []


def test_byte_that_m_writes_at_a_redirected_trap_is_found(tmp_path):
    edit = ("monitor.c", "    if (cause == (unsigned)TIMER_INTERRUPT) {\n", "    if (cause == 2)\n        *(volatile unsigned char *)(RAM_BASE + "
            "MONITOR_SIZE + 0xff0) ^= 1;\n    if (cause == (unsigned)TIMER_INTERRUPT) {\n")
    found = first_different(setup_of(variant(tmp_path, [edit])), "stvec with mode bits")
    assert found.differences[0].name == "memory at 80010ff0" and found.steps[-1].item.text == "illegal instruction"


# ---- shrinking

def shrunk_of(items, is_different, name="x1"):
    """Shrinks a list of numbers in place of items; a run differs if `is_different` accepts the numbers."""
    from rvlook.monitors import conform
    from rvlook.monitors.comparison import MonitorDifference, DifferenceKind
    from rvlook.monitors.pair import PlayedScript, PairStep

    def played(numbers):
        different = [MonitorDifference(DifferenceKind.register, is_different(numbers), "0", "1")] if is_different(numbers) else []
        return PlayedScript("test", [PairStep(it, "host", "") for it in numbers], different)

    original = conform.play
    conform.play = lambda setup, script, numbers, memory: played(numbers)
    try:
        return conform.Shrinker(None, played(items)).shrink()
    finally:
        conform.play = original


def test_shrinker_keeps_exactly_what_is_needed():
    found = shrunk_of(list(range(100)), lambda numbers: "x1" if {7, 50, 51, 93} <= set(numbers) else "")
    assert found.played.items == [7, 50, 51, 93] and found.runs < 150


def test_shrinker_does_not_slip_to_another_difference():
    found = shrunk_of(list(range(40)), lambda numbers: "x1" if {3, 30} <= set(numbers) else "x2" if 3 in numbers else "")
    assert found.played.items == [3, 30]


def test_shrinker_ends_with_an_empty_script():
    assert shrunk_of(list(range(5)), lambda numbers: "x1").played.items == []


# ---- the report

def test_report_names_the_last_instruction_and_its_line(rvlook, wrong_order):
    done = rvlook("conform", wrong_order, "--only", "two refusals")
    lines = done.stdout.splitlines()
    assert done.returncode == 1 and lines[0].startswith("different: 1 scripts")
    assert lines[1] == "script 'create, two refusals at once': different after 8 items; shrunk to 1 items in 7 runs"
    assert lines[2].split() == "host create a0=80014000 a1=1800 a2=80012000 a3=1800 a4=80014000 BadRegion".split()
    assert [it.split() for it in lines[3:6]] == [["x10"], ["own", "monitor", "fffffffd"], ["monitor", "of", "rvbench", "fffffffe"]]
    assert lines[6].startswith("    last written in M by lw a0, 40(t6) at ") and "start.s:" in lines[6]
    assert ", last stored by sw " in lines[7] and "monitor.c:" in lines[8]


def test_coverage_table_follows_a_difference_only_on_request(rvlook, wrong_order):
    words = ("conform", wrong_order, "--only", "two refusals")
    assert "coverage:" not in rvlook(*words).stdout
    assert re.search(r"\ncoverage: \d+ of 66 cells\n", rvlook(*words, "--table").stdout)


def test_missing_check_is_shown_as_the_branch_of_a_similar_call(rvlook, objects, tmp_path):
    """The monitor accepts an entry at the end of the region. A similar call with another bad entry is refused by both."""
    edit = ("monitor.c", "    if (entry % 4 || !contains(region, entry))\n", "    if (entry % 4 || (entry != region.base + region.size && !contains(region, entry)))\n")
    elf = variant(tmp_path, [edit])
    line = 1 + (tmp_path / "monitor" / "monitor.c").read_text().splitlines().index(edit[2].rstrip("\n"))
    done = rvlook("conform", elf, "--only", "entries")
    shown = done.stdout.split("the result of '")[1].splitlines()
    assert done.returncode == 1 and shown[0].startswith("create with a") and "' is BadEntry in both monitors; " in shown[0]
    assert [it.split()[0] for it in shown[1:4]] == ["after", "to", "not"] and "monitor.c:%d" % line in shown[1]
    status, found = objects("conform", elf, "--only", "entries")
    assert status == 1 and [it["result"] for it in found if it["object"] == "divergence"] == ["BadEntry"]


def test_trap_in_m_is_located(rvlook, tmp_path):
    elf = variant(tmp_path, [("monitor.c", "    if (slot == SLOTS)\n", "    *(volatile unsigned *)0 = slot;\n    if (slot == SLOTS)\n")])
    done = rvlook("conform", elf, "--only", "run, stop")
    assert done.returncode == 1 and "  trap in M, 00000007:00000000\n" in done.stdout
    assert "    trapped at sw " in done.stdout and "monitor.c:" in done.stdout


def test_written_byte_and_entry_have_writers(tmp_path):
    from rvlook.monitors.comparison import DifferenceKind
    from rvlook.monitors.writers import writers_of
    setup = setup_of(variant(tmp_path, [("monitor.c", "enclaves[slot].measurement[i];", "enclaves[slot].measurement[i] ^ 1;")]))
    played = first_different(setup, "measured byte 0")
    (writer,) = writers_of(setup, played, played.differences[0])
    assert played.differences[0].kind is DifferenceKind.memory and writer.text.startswith("sb ") and writer.address == played.differences[0].place
    other = tmp_path / "other"
    other.mkdir()
    setup = setup_of(variant(other, [("pmp.c", "cfg[WINDOW_ENTRY] = DATA", "cfg[WINDOW_ENTRY] = OPEN")]))
    played = first_different(setup, "run, stop")
    assert writers_of(setup, played, played.differences[0])[0].text.startswith("csrrw zero, pmpcfg3, ")


def test_scripts_are_inputs_of_trace_and_map(rvlook, wrong_order, tmp_path):
    folder = tmp_path / "scripts"
    done = rvlook("conform", wrong_order, "--only", "two refusals", "--scripts", folder)
    commands = [line.split()[1:] for line in done.stdout.splitlines() if line.startswith("  rvlook trace")]
    assert len(commands) == 2
    own, reference = (rvlook(*words) for words in commands)
    assert (own.returncode, reference.returncode) == (0, 0)
    assert own.stdout.splitlines()[-1].endswith("in S") and reference.stdout.splitlines()[-1].endswith("host is at 80010004 in S")
    assert "BadRegion" in reference.stdout
    assert all(rvlook("map", *words[1:]).returncode == 0 for words in commands)


# ---- options and exit statuses

def test_timer_line_is_lowered_by_the_store(rvlook, tmp_path):
    words = ("--only", "timer before step 1", "--lowered", "timer_compare")
    assert rvlook("conform", IMAGE, "--symbols", OWN / "symbols", *words).returncode == 0
    done = rvlook("conform", variant(tmp_path, NOT_LOWERED), *words)
    assert done.returncode == 1 and "\n  mip\n" in done.stdout
    assert rvlook("conform", IMAGE, *words).returncode == 2


def test_boot_file_replaces_the_lines(rvlook, tmp_path):
    boot = tmp_path / "boot"
    boot.write_text("# the host's entry\nsetreg 10 80010000\n\nsetreg 11 %x\n" % RAM)
    assert rvlook("conform", IMAGE, "--only", "reset", "--boot", boot).returncode == 0
    boot.write_text("setreg 10 80010004\nsetreg 11 %x\n" % RAM)
    done = rvlook("conform", IMAGE, "--only", "reset", "--boot", boot)
    assert done.returncode == 1 and "\n  pc\n    own monitor        80010004\n" in done.stdout
    boot.write_text("setrg 10 80010004\n")
    done = rvlook("conform", IMAGE, "--boot", boot)
    assert (done.returncode, done.stderr) == (2, "rvlook: error: boot line 'setrg 10 80010004': unknown command 'setrg'; did you mean 'setreg'?\n")


def test_stored_boot_has_the_default_ram():
    assert (MONITORS / "boot").read_text().split() == ["setreg", "10", "80010000", "setreg", "11", "100000"]
