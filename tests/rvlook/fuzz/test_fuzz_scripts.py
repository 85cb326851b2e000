"""Inputs with mutated images, scripts and listings: rvlook refuses and replies exactly as the program does."""
import json
import subprocess

from support.fuzzing import fuzz
from support.hostile import check, run
from hypothesis import strategies as st

# The operands are as the bench has them: rvlook resolves names, which the bench refuses.
COMMANDS = ["step 1", "run 2", "reg 5", "regs", "mem 80000000 4", "poke 80000010 13", "setreg 5 12", "csr 300", "break 80000004", "pmp", "enclaves",
            "enclaves 5", "hart 0", "hart 1", "hart", "timer on", "# comment", "", "sched 0", "dis 80000000", "fly", "reg", "access M r 80000000 4"]
ODD = ["\x0b", "\x0c", "\x1c", "\x1f", "\x85", "\xa0", "\r", "\0", "\t", "  ", "\x1b[31m", "\xff", "#", " " * 121, "\r\r", "\xb2", "--"]
IMAGES = ["6f000000\n", "1305100093052000\n6f000000\n", "13051000\r\n6f000000\r\n", "", "93001\n", "13 05 10 00\n", "zz\n"]

line = st.builds(lambda text, odd, at: text[:at] + odd + text[at:], st.sampled_from(COMMANDS), st.sampled_from(ODD + [""] * 20), st.integers(0, 24))
script = st.builds(lambda lines, ends: "".join(it + end for it, end in zip(lines, ends)), st.lists(line, max_size=6),
                   st.lists(st.sampled_from(["\n", "\n", "\r\n"]), min_size=6, max_size=6))
inputs = st.builds(lambda image, script: (image + "--\n" + script).encode("latin-1"), st.sampled_from(IMAGES), script)
listings = st.builds(lambda lines: "\n".join(lines).encode("utf-8", "replace"),
                     st.lists(st.builds("8000000{} T {}".format, st.sampled_from("0048c"), st.text(max_size=12)), max_size=5))


def replies_of(bench, data):
    """The lines of the program for an input."""
    return subprocess.run([bench, "run"], input=data, capture_output=True, check=False).stdout.decode("latin-1").splitlines()


def test_replies_are_those_of_the_program(bench, tmp_path, fuzz_seconds):
    path = tmp_path / "input"

    def holds(data):
        path.write_bytes(data)
        wanted = replies_of(bench, data)
        done = run(bench, "trace", "--json", "--no-monitor", path, "--steps", "0")
        check(done)
        is_refused = any(it.startswith(("error ", "rvbench: ")) for it in wanted)
        assert (done.status != 0) == is_refused, (wanted, done.errors)
        if not any(it.startswith("rvbench: ") for it in wanted):
            found = [reply for it in map(json.loads, done.output.splitlines()) if it["object"] == "command" for reply in it["replies"]]
            assert found == [it for it in wanted if not it.startswith("ran ") and " pc=" not in it]

    fuzz(inputs, holds, 8, fuzz_seconds)


def test_explain_tells_the_faults_that_the_program_replies(bench, tmp_path, fuzz_seconds):
    path = tmp_path / "input"

    def holds(data):
        path.write_bytes(data)
        wanted = [it for it in replies_of(bench, data) if it.startswith(("error ", "rvbench: "))]
        done = run(bench, "explain", "--json", path)
        check(done)
        assert [it["reply"] for it in map(json.loads, done.output.splitlines())] == wanted

    fuzz(inputs, holds, 8, fuzz_seconds)


def test_listings_of_any_text_are_read(bench, tmp_path, fuzz_seconds):
    from rvlook.image.symbols import symbols_of

    def holds(data):
        symbols = symbols_of("listing", data)
        assert all(it.name.isprintable() for it in symbols.ordered)

    fuzz(listings, holds, 200, fuzz_seconds)
