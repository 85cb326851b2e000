"""The codes and the measurement in the HMAC examples match those of Python's hmac and hashlib."""
import hashlib
import hmac
import os
import re
import struct

import pytest

from models.monitor_bench import cut_at, image_of, lines_of, loaded

EXAMPLES = os.path.join(os.path.dirname(os.path.dirname(os.path.dirname(os.path.abspath(__file__)))), "examples", "enclaves")
REGION, REGION_SIZE, WINDOW, WINDOW_SIZE = 0x80020000, 0x2000, 0x80030000, 0x1000
RAM, RAM_BASE = 1 << 20, 0x80000000


def text_of(*names):
    with open(os.path.join(EXAMPLES, *names), encoding="ascii") as file:
        return file.read()


def key():
    """Returns the key in the source of the application, one letter per element."""
    row = re.search(r"key\[KEY_SIZE\] = \{(.*?)\};", text_of("hmac", "application.c"), re.S)
    return "".join(re.findall("'(.)'", row[1])).encode()


def messages(name):
    """Returns the message of an example's host: the string literal that its source copies."""
    return [it.encode() for it in re.findall(r'[{ ]"([^"]+)"[,}\[]', text_of(name, "host.c"))]


def measurement(name):
    """Returns the digest that create records for the region in the image."""
    image = image_of(cut_at(lines_of(text_of(name, "image") + text_of(name, "script")))[0])
    bytes_of_ram = loaded(image, "auto", RAM, True)[0]
    region = bytes(bytes_of_ram[REGION - RAM_BASE:REGION - RAM_BASE + REGION_SIZE])
    return hashlib.sha256(struct.pack("<5I", REGION, REGION_SIZE, WINDOW, WINDOW_SIZE, REGION) + region).hexdigest()


@pytest.mark.parametrize("name", ["hmac", "hmac_attacked"])
def test_codes_and_measurement(name):
    shown = text_of(name, "stdout")
    digests = re.findall("^[0-9a-f]{8}: ((?:[0-9a-f]{2} ?){32})$", shown, re.M)
    assert messages(name)
    for message in messages(name):
        assert hmac.new(key(), message, hashlib.sha256).digest().hex(" ") in digests
    assert " %s\n" % measurement(name) in shown
