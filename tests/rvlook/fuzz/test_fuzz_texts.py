"""Texts of any bytes: inputs for explain, lines of the prompt, files of ranges for guard, and scripts."""
from hypothesis import strategies as st
from support.fuzzing import fuzz
from support.hostile import check, run

from conftest import EXAMPLES

ADDS = EXAMPLES / "enclaves" / "adds"
MONITOR = EXAMPLES / "monitors" / "two_enclaves"
WORDS = ["step", "run", "back", "until", "map", "where", "help", "mem", "poke", "reg", "setreg", "csr", "break", "clear", "watch", "enclaves", "pmp",
         "access", "sched", "hart", "timer", "trap", "switch", "main", "halt", "main@80010000", "main+4", "a0", "mepc", "1", "0", "9" * 40, "9" * 5000,
         "-1", "80010000", "ffffffff", "host", "rw-", "shared", "hands", "monitor", "80010000-80010fff", "\x1b[2J", "\xff", "\u00b2", "--", "#"]
ENDS = ["\n", "\r\n", "\n\n", "\0", "\x0b", ""]

line = st.builds(lambda words, end: " ".join(words) + end, st.lists(st.sampled_from(WORDS), max_size=4), st.sampled_from(ENDS))
texts = st.lists(line, max_size=8).map(lambda it: "".join(it).encode("utf-8"))
data = st.one_of(texts, st.binary(max_size=60), st.builds(lambda a, b: b"6f000000\n--\n" + a + b, texts, st.binary(max_size=8)))


def test_explain_of_any_bytes(bench, fuzz_seconds):
    def holds(given):
        done = run(bench, "explain", "-", stdin=given)
        check(done)
        assert done.status in (0, 1)
        assert all(it.isprintable() for it in done.output.decode("utf-8", "replace").split("\n"))

    fuzz(data, holds, 10, fuzz_seconds)


def test_lines_of_the_prompt(bench, fuzz_seconds):
    def holds(given):
        done = run(bench, ADDS / "image", "--symbols", ADDS / "symbols", stdin=given)
        check(done)
        assert done.status in (0, 2)
        assert all(it.isprintable() for it in done.output.decode("utf-8", "replace").split("\n"))

    fuzz(data, holds, 10, fuzz_seconds)


def test_ranges_of_guard_and_scripts(bench, tmp_path, fuzz_seconds):
    path = tmp_path / "text"

    def holds(given):
        path.write_bytes(given)
        for words in (["guard", MONITOR / "image", path, "--timers", "1", "--steps", "50"], ["map", ADDS / "image", "--script", path, "--steps", "50"],
                      ["conform", MONITOR / "image", "--boot", path, "--seconds", "0"]):
            done = run(bench, *words)
            check(done)
            assert done.status in (0, 1, 2, 3)

    fuzz(data, holds, 4, fuzz_seconds)
