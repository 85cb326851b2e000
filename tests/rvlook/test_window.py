"""`window`: rows for double fetches and for bytes of another enclave, names of fields; with `--at` copies of parts of the secret, and public bytes."""
import sys
import types

import pytest

from conftest import ROOT

sys.path.insert(0, str(ROOT / "python"))
from rvlook.finders.secrets import copies_in  # noqa: E402
from rvlook.finders.window import Byte, Leftovers, reread  # noqa: E402
from rvlook.protocol.symbols import Symbols  # noqa: E402
from rvlook.protocol.symbols import ALL, Unit

KEY = ("--at", "key:20")
ANSWER = "window_base+10"  # of the program: it depends on the key, and is public
TAIL, LEAST, TOO_SHORT, ZEROS, WHOLE, TWICE = (1 << bit for bit in range(6))


@pytest.fixture
def window(objects, short_program, tmp_path):
    """Runs `window` with the leaks of a mask; gives its status and its objects."""
    def run(mask, *words, guesses=0):
        script = tmp_path / "script"
        script.write_text("poke leaks %02x\npoke guesses %02x\n" % (mask, guesses))
        return objects("window", *short_program("window_copies"), "--script", script, *words)
    return run


def copies(found):
    return [(it["at"], it["size"], it["offset"]) for it in found if it["object"] == "copy"]


def test_tail_of_the_secret_is_reported_with_its_length_and_offset(window):
    status, found = window(TAIL, *KEY, "--public", ANSWER)
    assert (status, copies(found)) == (1, [("80030800", 15, 5)])


def test_whole_secret_is_reported(window):
    assert copies(window(WHOLE, *KEY)[1]) == [("80030c00", 20, 0)]


def test_short_copies_are_reported_if_they_depend_on_the_secret(window):
    assert copies(window(LEAST | TOO_SHORT, *KEY)[1]) == [("80030900", 4, 3), ("80030a00", 3, 6)]


def test_short_secret_is_reported_as_a_whole(window):
    assert copies(window(TOO_SHORT, "--at", "key+6:3")[1]) == [("80030a00", 3, 0)]


def test_zeros_are_reported_if_they_depend_on_the_secret(window):
    assert copies(window(ZEROS, *KEY)[1]) == [("80030b00", 5, 12)]
    assert copies(window(0, *KEY)[1]) == []


def test_all_copies_are_reported(window):
    found = copies(window(TAIL | LEAST | WHOLE, *KEY)[1])
    assert found == [("80030800", 15, 5), ("80030900", 4, 3), ("80030c00", 20, 0)]


def test_what_the_host_wrote_itself_is_the_same_with_another_secret(window):
    status, found = window(0, *KEY, "--public", ANSWER, guesses=1)
    (it,) = (it for it in found if it["object"] == "copy")
    assert (status, it["at"], it["size"], it["secret"]) == (0, "80030100", 8, False)


def test_text_has_the_length_and_the_offset(rvlook, short_program, tmp_path):
    script = tmp_path / "script"
    script.write_text("poke leaks 11\n")
    lines = rvlook("window", *short_program("window_copies"), "--script", script, *KEY).stdout.splitlines()
    assert [line.split(None, 4)[1:] for line in lines if line.startswith("  copy")] == [
        ["80030800-8003080e", "15", "window_base+800", "bytes 5 to 19 of the 20-byte secret  depends on the secret"],
        ["80030c00-80030c13", "20", "window_base+c00", "all 20 bytes of the secret  depends on the secret"]]


def test_answer_depends_on_the_secret(window):
    assert window(0, *KEY)[0] == 1


@pytest.mark.parametrize("public", [(ANSWER,), ("80030010:4",), ("application:280",)])
def test_public_bytes_and_instructions_may_differ(window, public):
    status, found = window(0, *KEY, *(word for it in public for word in ("--public", it)))
    (it,) = (it for it in found if it.get("secret"))
    assert (status, it["first"], it["public"]) == (0, "80030010", True)


def test_public_bytes_may_have_a_copy(window):
    status, found = window(WHOLE, *KEY, "--public", ANSWER, "--public", "window_base+c00:20")
    assert status == 0 and [it["public"] for it in found if it["object"] == "copy"] == [True]


def test_copy_of_which_a_part_is_public_is_found(window):
    status, found = window(WHOLE, *KEY, "--public", ANSWER, "--public", "window_base+c00:19")
    assert status == 1 and [it["public"] for it in found if it["object"] == "copy"] == [False]


def test_public_needs_a_secret(rvlook, short_program):
    done = rvlook("window", *short_program("window_copies"), "--public", ANSWER)
    assert (done.returncode, done.stderr) == (2, "rvlook: error: --public requires --at PLACE\n")


def test_double_fetch_is_found_without_a_secret(window):
    assert window(TWICE)[0] == 1 and window(0)[0] == 0


def test_copies_are_maximal_and_none_covers_another():
    secret = bytes(range(1, 9)) * 2
    assert copies_in(b"\0\0" + secret[3:] + b"\0", secret) == [(2, 13, 3)]
    assert copies_in(secret[:6] + secret[1:5], secret) == [(0, 6, 0), (6, 4, 1)]
    assert copies_in(b"abcd", b"ab") == [(0, 2, 0)]
    assert copies_in(bytes(64), bytes(32)) == []
    assert copies_in(b"", b"secret") == []


def test_rows_name_the_fields_of_the_window(rvlook, built, tmp_path):
    script = tmp_path / "script"
    script.write_text("poke leaks 01\n")
    lines = rvlook("window", built("window_copies"), "--script", script, *KEY).stdout.splitlines()
    assert [line.split()[3] for line in lines if line.startswith(("  reads", "  copy"))] == ["window[0]", "window[2048]"]


def reread_rows(pairs, lines=()):
    """The rows of bytes that pairs of instructions load again, by offset."""
    found = {at: Byte(repeated_loads=dict.fromkeys(several, True)) for at, several in pairs.items()}
    return [(it.first, it.size, it.pcs) for it in reread(found, Symbols((), [Unit(ALL, lambda: lines)]))]


def test_bytes_that_two_lines_load_again_are_one_row():
    lines = [(0x80020000, "a.c:1"), (0x80020010, "a.c:2"), (0x80020020, None)]
    pairs = {n: [(0x80020000 + 4 * n, 0x80020010 + 4 * n)] for n in range(4)}
    assert reread_rows(pairs, lines) == [(0, 4, (0x80020000, 0x80020010))]
    assert [it[:2] for it in reread_rows(pairs)] == [(0, 1), (1, 1), (2, 1), (3, 1)]


def test_bytes_with_a_gap_are_two_rows():
    pair = (0x80020000, 0x80020010)
    assert reread_rows({0: [pair], 1: [pair], 3: [pair]}) == [(0, 2, pair), (3, 1, pair)]


def activation(world, before):
    return types.SimpleNamespace(world=world, number=1, before=before, enclave=types.SimpleNamespace(window=0x80030000))


def test_bytes_that_another_enclave_stored_are_received():
    leftovers, stored, loaded = Leftovers(), Byte(stored_at=0x80020000, values=bytearray([7])), Byte(input_at=0x80022000)
    assert leftovers.received(activation("e0", bytes(4)), {1: stored}) == {}
    assert leftovers.received(activation("e0", b"\0\7\0\0"), {1: loaded}) == {}
    assert leftovers.received(activation("e1", b"\0\7\0\0"), {0: loaded, 1: loaded}) == {1: (0x80020000, "e0")}
    assert leftovers.received(activation("e1", b"\0\10\0\0"), {1: loaded}) == {}
