"""Sessions of valid and mutated packets and noise: a request at the end has a reply, and the server ends with the debugger."""
import re

from support.fuzzing import fuzz
from support.hostile import HELLO
from hypothesis import strategies as st
from support.packets import monitor, packet, replies

GOOD = ["?", "g", "p0", "p20", "p40", "P5=12345678", "m80000000,40", "m0,4", "M80000010,2:4142", "X80000010,2:AB", "Z0,80000024,4", "z0,80000024,4",
        "Z2,80001060,4", "Z3,80001060,4", "z2,80001060,4", "vCont;c", "vCont;s:1", "vCont;r80000000,80000010:1", "bs", "bc", "Hg1", "Hc-1", "T1", "qC",
        "qfThreadInfo", "qThreadExtraInfo,1", "qSupported:multiprocess+", "qXfer:features:read:target.xml:0,fff", "qXfer:threads:read::0,fff",
        "vCont?", "qAttached", "QRvlookFresh", "qSymbol::", "Z0,80000024,4;X7,22ff2200272727"]
LINES = ["step 1\nreg 5", "mem 80000000 9999", "x" * 300, "\u00ff", "until trap", "back 99999999999", "sched 01", "catch", "schedule 2", "help", "quit",
         "gdb", "explain -", "rvlook", "trace --to 3", "map --help", "entered x", "window --slot 99", "measure /none 0 0 0 0 0"]
NUMBERS = ["0", "-1", "80000000", "ffffffff", "ffffffffffffffff", "f" * 40, "", "zz", "1_0", "0x10", " 1"]

right = st.sampled_from(GOOD)
with_number = st.builds(lambda text, number: re.sub(r"[0-9a-f]+", number, text, count=1), right, st.sampled_from(NUMBERS))
with_noise = st.builds(lambda text, noise, at: text[:at] + noise + text[at:], right, st.sampled_from(",;:=\n\0}*\x03\xff-"), st.integers(0, 30))
texts = st.one_of(right, with_number, with_noise)
packets = st.one_of(
    texts.map(packet), st.sampled_from(LINES).map(monitor), st.builds(packet, texts, st.sampled_from([b"zz", b"00"])),
    st.binary(max_size=20), st.sampled_from([b"+", b"-", b"\x03", b"$", b"$$$"]))
sessions = st.lists(packets, min_size=1, max_size=8)
REGISTERS = re.compile(rb"[0-9a-f]{264}\Z")


def test_server_replies_after_any_session(bench, tmp_path, fuzz_seconds):
    path = tmp_path / "program.elf"
    path.write_bytes(HELLO)

    def holds(session):
        found, errors = replies(bench, path, *session, b"\x03#00", packet("g"))
        assert REGISTERS.match(found[-1]), (found[-3:], errors)
        assert all(it.startswith("rvlook: ") for it in errors.splitlines()), errors

    fuzz(sessions, holds, 5, fuzz_seconds)
