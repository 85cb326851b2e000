"""`map --returns`: the access rights at each return from M, and states inside M in which S may access more than before and after."""
from conftest import EXAMPLES
from support.monitors import MONITORS, variant

TWO = MONITORS / "two_enclaves"
IMAGE = ("--no-monitor", "--script", MONITORS / "boot", TWO / "image", "--symbols", TWO / "symbols")
CLEARED = "    WRITE_CSR(pmpcfg3, 0);\n    WRITE_CSR(pmpcfg2, 0);\n    WRITE_CSR(pmpcfg1, 0);\n    WRITE_CSR(pmpcfg0, 0);\n"
LOWEST_FIRST = "    WRITE_CSR(pmpcfg0, 0);\n    WRITE_CSR(pmpcfg1, 0);\n    WRITE_CSR(pmpcfg2, 0);\n    WRITE_CSR(pmpcfg3, 0);\n"


def test_first_return_shows_what_the_host_may_access(rvlook):
    done = rvlook("map", "--returns", "--steps", "1400", *IMAGE)
    assert (done.returncode, done.stderr) == (0, "")
    assert done.stdout.splitlines()[0].endswith("to S at 80010000  _start")
    assert done.stdout.splitlines()[1] == "  80010000-800fffff    960K  S rwx  U rwx"
    assert done.stdout.splitlines()[2].startswith("1400 steps: bare is at ")


def test_returns_of_an_enclave_are_shown(rvlook, tmp_path):
    elf = variant(tmp_path, [], EXAMPLES / "enclaves" / "adds")
    done = rvlook("map", "--returns", "--script", MONITORS / "boot", elf)
    assert (done.returncode, done.stderr) == (0, "")
    found = done.stdout.splitlines()
    entered = next(n for n, line in enumerate(found) if " to S at 80020000  enclave_entry" in line)
    assert found[entered + 1] == "  80010000-8001ffff     64K  S rwx -> ---  U rwx -> ---"
    assert found[entered + 2] == "  80020000-80020fff      4K  S --- -> rwx  U --- -> rwx"
    assert sum(line.startswith("return at step ") for line in found) == 7
    assert any(line.startswith("return at step ") and " to S at 8002011c" in line for line in found), "a call without a switch"


def test_state_inside_m_that_opens_more_is_a_finding(rvlook, objects, tmp_path):
    elf = variant(tmp_path, [("pmp.c", CLEARED, LOWEST_FIRST)], EXAMPLES / "enclaves" / "adds")
    words = ("map", "--returns", "--script", MONITORS / "boot", elf)
    done = rvlook(*words)
    assert done.returncode == 1
    warnings = [line for line in done.stderr.splitlines() if line.startswith("rvlook: warning: in M at step ")]
    assert warnings and all(", and neither before the trap nor after it" in it for it in warnings)
    assert ": S may access rwx 80000000-" in warnings[0] and "pmp.c:" in warnings[0]
    status, found = objects(*words)
    returned = [it for it in found if it["object"] == "return"]
    assert status == 1 and len(returned) == 7
    assert sum(len(it["transients"]) for it in returned) == len(warnings)
    assert {it["first"] for one in returned for it in one["transients"]} == {"80000000"}


def test_run_under_the_monitor_is_refused(rvlook):
    image = EXAMPLES / "enclaves" / "adds" / "image"
    done = rvlook("map", "--returns", "--monitor", image)
    assert (done.returncode, done.stderr) == (
        2, "rvlook: error: --returns requires a bare image, but %s runs under the monitor; use --no-monitor\n" % image)
