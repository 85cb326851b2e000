"""Packets of the GDB remote serial protocol: encodes them, and collects the replies of rvlook gdb."""
import os
import re
import subprocess
import threading

from support.hostile import ROOT
from support.limits import HANG

REPLY = re.compile(rb"\$([^#]*)#[0-9a-f]{2}")


def packet(text, checksum=None):
    """Returns a packet, with its own checksum or another one."""
    data = text.encode("latin-1") if isinstance(text, str) else text
    return b"$%s#%s" % (data, b"%02x" % (sum(data) & 255) if checksum is None else checksum)


LAST, ANSWER = packet("qXfer:memory-map:read::0,fff"), b"<memory-map>"  # a packet that no test sends, and a part of its reply


def monitor(line):
    """Returns the packet of a line of `monitor`."""
    return packet("qRcmd," + line.encode().hex())


def replies(bench, image, *packets, words=()):
    """Sends packets to rvlook gdb; returns its replies without acknowledgements, and its standard error. Closes its input after the reply to a
    last packet, which ends the server."""
    server = subprocess.Popen([str(ROOT / "rvlook"), "gdb", str(image), *words], stdin=subprocess.PIPE, stdout=subprocess.PIPE,
                              stderr=subprocess.PIPE, env={**os.environ, "RVBENCH": bench, "TERM": "dumb"})
    clock = threading.Timer(HANG, server.kill)
    clock.start()
    server.stdin.write(b"".join([*packets, LAST]))
    server.stdin.flush()
    output = b""
    while ANSWER not in output:
        data = os.read(server.stdout.fileno(), 65536)
        output += data
        if not data:
            break
    _, errors = server.communicate()
    clock.cancel()
    assert b"Traceback" not in errors, errors.decode("latin-1")
    assert server.returncode >= 0, "it does not reply in %d seconds" % HANG
    return REPLY.findall(output[:output.rfind(b"$")]), errors.decode("utf-8", "replace")


def shown(found):
    """Returns the output that a debugger shows for replies to `monitor`."""
    return b"".join(bytes.fromhex(it[1:].decode()) for it in found if it[:1] == b"O" and it != b"OK").decode()
