"""Bare images: subcommands that need the monitor are refused in one line; the others distinguish modes."""
import pytest

from conftest import PROGRAMS, ROOT

IMAGE = str(PROGRAMS / "bare_user" / "image")
PMP, SUM = str(ROOT / "examples" / "programs" / "pmp" / "stdin"), str(ROOT / "examples" / "programs" / "sum" / "stdin")


@pytest.mark.parametrize("word", ["window", "timer"])
def test_subcommand_that_needs_the_monitor_is_refused(rvlook, word):
    done = rvlook(word, IMAGE)
    assert (done.returncode, done.stdout) == (2, "")
    assert done.stderr == "rvlook: error: %s requires the monitor of rvbench, but %s runs bare; use --monitor\n" % (word, IMAGE)


def test_touch_of_more_than_one_mode_has_a_world_for_each(objects):
    """bare_user enters U, which may execute its code and access its page, and M accesses more."""
    status, found = objects("touch", IMAGE)
    assert status == 0 and {it["world"] for it in found if it["object"] == "touched"} == {"M", "U"}
    executed = {world: {int(it["first"], 16) for it in found if it["object"] == "touched" and (it["world"], it["kind"]) == (world, "x")}
                for world in "MU"}
    assert min(executed["M"]) == 0x80000000 and min(executed["U"]) == 0x80000040


def test_touch_of_a_monitor_separates_m_from_the_host(rvlook):
    two = ROOT / "examples" / "monitors" / "two_enclaves"
    done = rvlook("touch", "--no-monitor", "--script", two.parent / "boot", "--steps", "2000", two / "image", "--symbols", two / "symbols")
    m, s = (part.splitlines() for part in done.stdout.split("\n\n")[:2])
    assert done.returncode == 0 and (m[0], s[0]) == ("M", "S")
    assert any(line.startswith("  wrote            80001") for line in m), "the monitor writes its data"
    assert not any(line.startswith("  wrote            80001") for line in s)
    assert [line.split()[1:4] for line in s if line.startswith("  permitted")] == [["80010000-800fffff", "960K", "rwx"]]


def test_touch_of_a_run_that_writes_pmp_registers_is_a_report(rvlook):
    done = rvlook("touch", PMP)
    assert done.returncode == 0 and done.stdout.startswith("bare\n")


@pytest.mark.parametrize("mode, count", [("M", 16), ("U", 4)])
def test_trace_selects_a_mode(objects, mode, count):
    steps = [it for it in objects("trace", IMAGE, "--world", mode, "--to", "20")[1] if it["object"] == "step"]
    assert len(steps) == count and {it["mode"] for it in steps} == {mode}


def test_touch_of_mode_m_alone_is_a_report(rvlook):
    done = rvlook("touch", SUM)
    assert done.returncode == 0 and "permitted" in done.stdout


@pytest.mark.parametrize("word", ["map", "trace", "page"])
def test_other_subcommands_take_a_bare_image(rvlook, word):
    assert rvlook(word, IMAGE).returncode == 0


def test_prompt_takes_a_bare_image(rvlook):
    assert "mode=U" in rvlook(IMAGE, stdin="until trap\nstep 1\nback 3\nstep 1\n").stdout


def test_kept_image_is_what_its_sources_give(objects, built):
    """The kept image and the one that a compiler makes now access the same bytes in each mode."""
    def accesses(image):
        return [(it["world"], it["kind"], it["first"], it["last"], it["count"]) for it in objects("touch", image)[1] if it["object"] == "touched"
                and it["kind"] != "x"]

    assert accesses(built("bare_user")) == accesses(IMAGE) != []


def test_until_below_goes_to_the_next_return_from_m(rvlook):
    """The images are bare_user, which enters U, and a monitor whose host calls it."""
    assert "mode=U" in rvlook(IMAGE, stdin="until below\n").stdout
    two = ROOT / "examples" / "monitors" / "two_enclaves" / "image"
    done = rvlook("--no-monitor", "--script", two.parents[1] / "boot", two, stdin="until below\nuntil below\nback 1\n")
    ran = [line for line in done.stdout.splitlines() if line.startswith("ran ")]
    assert ran[0].startswith("ran 564 pc=80010000 mode=S ") and " mode=S " in ran[1] and ran[1].endswith("trap=00000009:00000000")
    assert "next  mret  " in done.stdout.splitlines()[-2]


def test_until_below_does_nothing_if_m_does_not_return(rvlook):
    done = rvlook(SUM, stdin="until below\nreg 10\n")
    assert "not reached within 1000000 steps; the state is unchanged" in done.stdout


def test_until_below_requires_a_bare_image(rvlook):
    image = ROOT / "examples" / "enclaves" / "adds" / "image"
    done = rvlook("--monitor", image, stdin="until below\n")
    assert "until below requires a bare image; start with ./rvlook --no-monitor %s" % image in done.stdout


LEAKS = str(PROGRAMS.parent / "images" / "leak_bare" / "image")


@pytest.mark.parametrize("one, two, channels", [
    ("00000000", "01000000", ["pc", "steps"]), ("00000000", "04000000", ["address"]), ("03000000", "83000000", []),
    ("00000000", "0d000000", ["pc", "steps", "address"])])
def test_leak_compares_secrets_in_any_range_of_a_bare_image(objects, one, two, channels):
    status, found = objects("leak", LEAKS, "--at", "80000100", one, two)
    assert (status, found[-1]["channels"], found[-1]["compared"]) == (bool(channels), channels, ["pc", "steps", "address"])


def test_leak_of_a_bare_image_names_the_instruction(rvlook):
    done = rvlook("leak", LEAKS, "--at", "80000100", "00000000", "01000000")
    assert done.stdout.splitlines()[0] == "bare, from step 0, with 00000000 and with 01000000 at 80000100"
    assert "  pc      differs at step 4, 8000000c\n" in done.stdout


def test_leak_of_a_bare_image_takes_the_register_and_the_tries(rvlook):
    assert rvlook("leak", LEAKS, "--at", "x2@80000008", "00000000", "01000000").returncode == 1
    assert rvlook("leak", LEAKS, "--at", "80000100:4", "--tries", "3").returncode == 1
    assert rvlook("leak", LEAKS, "--at", "80000200:4", "--tries", "3").returncode == 0


def test_secret_of_a_bare_image_is_written_after_the_script(rvlook, tmp_path):
    (tmp_path / "script").write_text("step 3\n")
    done = rvlook("leak", LEAKS, "--script", tmp_path / "script", "--at", "80000100", "00000000", "01000000")
    assert done.returncode == 0 and done.stdout.startswith("bare, from step 3, ")


def test_leak_outside_the_ram_of_a_bare_image_is_refused(rvlook):
    done = rvlook("leak", LEAKS, "--at", "800ffffe", "00000000", "01000000")
    assert (done.returncode, done.stderr) == (2, "rvlook: error: the bytes at 800ffffe are outside the RAM\n")


def test_leak_of_a_bare_image_that_does_not_end_is_incomplete(rvlook):
    done = rvlook("leak", LEAKS, "--at", "80000300", "00", "01", "--steps", "5")
    assert (done.returncode, done.stderr) == (3, "rvlook: warning: --steps 5 ended the run while it was running\n")


def test_debugger_goes_to_the_next_return_from_m(debugger):
    """`monitor` of gdb takes `until below`, but not the checks of monitors, which name files."""
    two = ROOT / "examples" / "monitors" / "two_enclaves" / "image"
    with debugger(two, ("--no-monitor", "--script", str(two.parents[1] / "boot"))) as client:
        assert client.monitor("until below").startswith("ran 564 pc=80010000 mode=S ")
        assert "error command" in client.monitor("conform " + str(two))
