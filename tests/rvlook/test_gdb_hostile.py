"""The gdb server: damaged and hostile packets get a reply, and none reaches the bench as a command; files are named over a port by
permission alone."""
import os
import re
import socket
import subprocess

import pytest
from support.hostile import HELLO, ROOT
from support.limits import HANG
from support.packets import REPLY, monitor, packet, replies, shown

REGISTERS = re.compile(rb"[0-9a-f]{264}\Z")


@pytest.fixture
def elf(tmp_path):
    path = tmp_path / "program.elf"
    path.write_bytes(HELLO)
    return path


def test_reads_of_any_length_are_bounded(bench, elf):
    found, _ = replies(bench, elf, *map(packet, ["m80000000,ffffffff", "m80000000,ffffffffffffffff", "m80000000,-1", "m 80000000,4", "m80000000,4"]))
    assert len(found[0]) == len(found[1]) == 2 * 0x2000
    assert found[2:4] == [b"E01", b"E01"]
    assert found[4] == HELLO[0x74:0x78].hex().encode() or len(found[4]) == 8


def test_watches_of_any_length_are_refused(bench, elf):
    found, _ = replies(bench, elf, *map(packet, ["Z2,80000000,ffffffff", "z2,80000000,ffffffff", "Z2,0,ffffffffffffffff", "Z2,80001000,4", "g"]))
    assert found[0].startswith(b"E.") and found[2].startswith(b"E.")
    assert found[1] == found[3] == b"OK"
    assert REGISTERS.match(found[4])


def test_packet_with_a_damaged_checksum_does_not_block_the_link(bench, elf):
    damaged = [packet("qC", it) for it in (b"zz", b"00", b"\n\n", b"\xff\xfe")]
    found, _ = replies(bench, elf, *damaged, packet("g"))
    assert len(found) == 1 and REGISTERS.match(found[0])


def test_packet_without_end_does_not_block_the_link(bench, elf):
    found, _ = replies(bench, elf, b"$" + b"a" * 300000, packet("g"))
    assert len(found) == 1 and REGISTERS.match(found[0])


def test_link_keeps_no_more_than_a_packet():
    from rvlook.gdb.link import LONGEST_PACKET, Gone, Link
    reading, writing = os.pipe()
    out, sink = os.pipe()
    link = Link(reading, sink)
    sizes = []
    for _ in range(40):
        os.write(writing, b"$" + b"a" * 60000 if not sizes else b"a" * 60000)
        link.drop()
        link.fill()
        sizes.append(len(link.buffer))
    os.close(writing)
    with pytest.raises(Gone):
        link.packet()
    assert max(sizes) <= LONGEST_PACKET + 65536
    for it in (reading, out, sink):
        os.close(it)


def test_register_takes_a_value_of_eight_digits_alone(bench, elf):
    values = ["zzzz", "zzzzzzzz", "1", "00000001\nsetreg 6 5", "0000\n\n00", "-0000001", "0x000001", "000000001"]
    found, _ = replies(bench, elf, *[packet("P5=" + it) for it in values], packet("p5"), packet("P5=78563412"), packet("p5"), packet("p6"))
    assert found == [b"E01"] * len(values) + [b"00000000", b"OK", b"78563412", b"00000000"]


def test_condition_that_cannot_be_evaluated_holds(bench, elf):
    from rvlook.gdb.conditions import holds
    codes = ["220516", "22ff1600", "16", "0600", "27", "3e", "21ffff", "2601ff27", ""]
    assert all(holds(bytes.fromhex(it), lambda number: [][number], lambda at, count: b"") for it in codes)
    found, _ = replies(bench, elf, packet("Z0,80000024,4;X4,22ff1600"), packet("vCont;c"))
    assert found[0] == b"OK"
    assert found[-1].startswith(b"T05")


def test_condition_of_no_bits_is_refused_by_the_evaluator():
    from rvlook.gdb.conditions import ExpressionError, extended
    with pytest.raises(ExpressionError):
        extended(5, 0)


def test_monitor_line_that_would_wait_is_refused(bench, elf):
    lines = ["explain -", "explain /dev/stdin", "measure /dev/stdin 80000000 1000 0 0 80000000", "gdb", "rvlook gdb", "rvlook", "rvlook rvlook",
             "entered x y", "catch a b", "step 1\nreg 5", "page --symbols /dev/zero"]
    found, _ = replies(bench, elf, *map(monitor, lines), packet("g"))
    assert found.count(b"OK") == len(lines)
    assert REGISTERS.match(found[-1])
    assert shown(found).count("is not a regular file") == 4


def test_line_feed_in_monitor_does_no_command(bench, elf):
    found, _ = replies(bench, elf, monitor("step 1\nsetreg 5 7"), monitor("reg 5"), monitor("reg 32"))
    assert "monitor takes a single line" in shown(found)
    assert "x5=00000000" in shown(found)


def test_page_of_monitor_shows_the_run_up_to_now(bench, elf):
    import base64
    import json
    import struct
    import zlib
    found, errors = replies(bench, elf, monitor("step 3"), monitor("page"), monitor("trace"))
    text = shown(found)
    packed = zlib.decompress(base64.b64decode(re.search(r'id="data">(.*?)</script>', text, re.S)[1]))
    assert json.loads(packed[4:4 + struct.unpack_from("<I", packed)[0]])["steps"] == 3
    assert "3 steps: bare is at" in text
    assert "rvlook: " not in text[text.index("<!DOCTYPE"):text.index("</html>")]


class Port:
    """rvlook gdb on a port of this machine, and a connection to it."""

    def __init__(self, bench, elf, *words):
        self.process = subprocess.Popen([str(ROOT / "rvlook"), "gdb", str(elf), "--port", "0", *words], stdin=subprocess.DEVNULL,
                                        stderr=subprocess.PIPE, env={**os.environ, "RVBENCH": bench, "TERM": "dumb"})
        line = next(it for it in self.process.stderr if b"localhost:" in it)
        self.connection = socket.create_connection(("localhost", int(line.rsplit(b":")[-1])))
        self.connection.settimeout(HANG)

    def __enter__(self):
        return self

    def __exit__(self, *_):
        self.connection.close()
        self.process.stderr.close()
        self.process.wait(HANG)

    def monitor(self, line):
        """Returns the output of a line of `monitor`."""
        self.connection.sendall(monitor(line))
        data = b""
        while b"$OK#" not in data and b"$E" not in data:
            data += self.connection.recv(65536)
        return shown(REPLY.findall(data))


NAMING = ["races --scripts {0}/ends", "page --sources {0}", "page --script {0}/file", "touch --lcov --symbols {0}/file",
          "measure {0}/file 80000000 1000 0 0 80000000", "explain {0}/file", "map --junit {0}/report"]


def test_debugger_on_a_port_names_no_file(bench, elf, tmp_path):
    (tmp_path / "file").write_text("secret 5\n")
    with Port(bench, elf) as port:
        for line in NAMING:
            text = port.monitor(line.format(tmp_path))
            assert "files are disabled for a debugger on a port; start with rvlook gdb --allow-files" in text, line
            assert "secret" not in text
        assert "80000000" in port.monitor("where")
    assert not (tmp_path / "scripts").exists()


@pytest.mark.parametrize("words", [(), ("--allow-files",)], ids=["without files", "with files"])
def test_debugger_makes_no_folder(bench, elf, tmp_path, words):
    folder = tmp_path / "folder"
    folder.mkdir()
    image = folder / "image.elf"
    image.write_bytes(elf.read_bytes())
    with Port(bench, image, *words) as port:
        image.unlink()  # `new` got the name of the image
        for line in ("new", "rvlook new", "rvlook new %s/mine" % folder, "new %s/mine" % folder):
            port.monitor(line)
        assert "new" not in port.monitor("help").split("subcommands over")[1].split(":")[1].split()
    assert not list(folder.iterdir())


@pytest.mark.parametrize("before", [b"+", b"-", b"++", b"+\x03+"])
def test_acknowledgement_does_not_hide_an_interrupt(bench, tmp_path, before):
    path = tmp_path / "image"
    path.write_text("6f000000\n")
    found, _ = replies(bench, path, packet("vCont;c"), before + b"\x03")
    assert [it for it in found if it[:1] in b"ST"][-1].startswith(b"T")


def test_debugger_on_a_port_names_files_by_permission(bench, elf, tmp_path):
    (tmp_path / "file").write_text("6f000000\n--\nsecret 5\n")
    with Port(bench, elf, "--allow-files") as port:
        assert "unknown command 'secret'" in port.monitor("explain %s/file" % tmp_path)


def test_monitor_of_lldb_acts_on_the_hart_that_halted_and_advises_for_lldb(bench, tmp_path):
    path = tmp_path / "image"
    path.write_text("6f000000\n")
    setup = [packet("qHostInfo"), packet("Hg2"), packet("p20"), monitor("step 2"), monitor("back 1"), monitor("hart 1"), monitor("step 1")]
    found, _ = replies(bench, path, *setup, words=["--monitor", "--harts", "2"])
    text = shown(found)
    assert "gdb shows" not in text
    assert "(lldb shows old registers until the program continues)" in text
    found, _ = replies(bench, path, *setup[:4], monitor("trace"), words=["--monitor", "--harts", "2"])
    assert "hart 0" in shown(found) and "hart 1  " not in shown(found)


def test_impatient_debugger_is_shown_that_there_is_still_work(monkeypatch):
    import select
    from rvlook.gdb import link as gdb_link
    monkeypatch.setattr(gdb_link, "SECONDS_TO_DOT", 0.1)
    monkeypatch.setattr(gdb_link, "SECONDS_BETWEEN_CHECKS", 0.05)
    reading, writing = os.pipe()
    out, sink = os.pipe()
    with gdb_link.Link(reading, sink).watched(is_impatient=True):
        assert select.select([out], [], [], HANG)[0]
    assert packet("O2e") in os.read(out, 4096)
    for it in (reading, writing, out, sink):
        os.close(it)
