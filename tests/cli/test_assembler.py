"""The assembler and the disassembler: rejected texts, round trips, and texts of the largest size."""
import re
import subprocess
from pathlib import Path

import pytest

from cli.cases import case
from support.limits import HANG

REFUSED = Path(__file__).with_name("refused_texts")
ESCAPES = {"n": "\n", "r": "\r", "t": "\t", "v": "\v", "f": "\f", "\\": "\\"}
MOST_BYTES, MOST_WORDS = 4194304, 65536
LETTERS = "abcdefghijklmnopqrstuvwxyz0123456789"


def answer(program, subcommand, data):
    """Runs the program for at most 20 seconds; returns the output and the status."""
    done = subprocess.run([program, subcommand], input=data, stdout=subprocess.PIPE, timeout=HANG, check=False)
    return done.stdout, done.returncode


def unescaped(text):
    """The bytes of a text with the escapes of printf's %b: \\0 and octal digits, \\x and hexadecimal digits, \\n and its like."""
    def byte(match):
        octal, digits, letter = match.groups()
        return ESCAPES[letter] if letter else chr(int(octal or "0", 8) if octal is not None else int(digits, 16))
    return re.sub(r"\\(?:0([0-7]{0,3})|x([0-9a-fA-F]{1,2})|(.))", byte, text).encode("latin-1")


def refused_texts():
    """Yields each rejected text with the line and the number of its error."""
    for line in REFUSED.read_text(encoding="latin-1").split("\n"):
        if line and not line.startswith("#"):
            number, fault, text = line.split(" ", 2)
            yield int(number), int(fault), unescaped(text.strip(" \t"))


def test_each_refused_text_has_its_line_and_error(bench):
    wrong, count = [], 0
    for number, fault, text in refused_texts():
        count += 1
        if answer(bench, "asm", text) != (b"rvbench: line %d fault %d\n" % (number, fault), 1):
            wrong.append(text)
    assert wrong == []
    assert count > 1100


def test_words_survive_disassembly_and_assembly(bench):
    words = case("dis/words_of_a_fixed_seed").stdin
    texts = b"".join(line.split(b" ", 1)[1] + b"\n" for line in answer(bench, "dis", words)[0].splitlines())
    assert texts.count(b"\n") > 3000
    assert answer(bench, "asm", texts) == (words, 0)


def nops(count):
    return b"nop\n" * count


def words(count):
    return b"13000000\n" * count


def fault(line, number):
    return b"rvbench: line %d fault %d\n" % (line, number), 1


SIZES = {
    "the_most_words": (nops(65536), (words(65536), 0)),
    "one_word_too_many": (nops(65537), fault(65537, 7)),
    "li_makes_the_last_two_words": (nops(65534) + b"li x1, 2048\nend: # no word\n", (words(65534) + b"b7100000\n93800080\n", 0)),
    "li_makes_the_last_word": (nops(65535) + b"li x1, 2047\n", (words(65535) + b"9300f07f\n", 0)),
    "li_makes_a_word_too_many": (nops(65535) + b"li x1, 2048\n", fault(65536, 7)),
    "too_many_words_come_before_a_label_twice": (b"a:\na:\n" + nops(65537), fault(65539, 7)),
    "a_number_out_of_range_in_the_line_of_a_word_too_many": (nops(65536) + b"li x1, 4294967296\n", fault(65537, 4)),
    "another_error_after_the_line_of_a_word_too_many": (nops(65537) + b"fly\n", fault(65537, 7)),
    "the_longest_text_of_comments": ((b"#" * 63 + b"\n") * 65536, (b"", 0)),
    "a_byte_too_many_of_comments": ((b"#" * 63 + b"\n") * 65536 + b"\n", (b"rvbench: too long\n", 1)),
    "line_feeds_alone": (b"\n" * MOST_BYTES, (b"", 0)),
    "an_error_after_line_feeds": (b"\n" * (MOST_BYTES - 3) + b"fly", fault(4194302, 2)),
    "an_error_in_a_text_that_is_too_long": (b"fly\n" + b"\n" * (MOST_BYTES - 3), (b"rvbench: too long\n", 1)),
    "a_line_of_letters": (b"a" * MOST_BYTES, fault(1, 1)),
}


@pytest.mark.parametrize("name", SIZES)
def test_texts_of_the_largest_size(bench, name):
    text, wanted = SIZES[name]
    assert answer(bench, "asm", text) == wanted


def labels(count):
    """Returns distinct labels of five letters and digits."""
    found = []
    for number in range(count):
        name, rest = "", number
        for _ in range(4):
            name, rest = LETTERS[rest % 36] + name, rest // 36
        found.append(LETTERS[rest] + name)
    return found


def test_as_many_labels_as_a_text_can_have(bench):
    lines = [it + ":" for it in labels(599185)]
    text = "\n".join(lines + [""]).encode()
    assert answer(bench, "asm", text) == (b"", 0)
    assert answer(bench, "asm", text + b"aaaaa:\n") == fault(599186, 6)
    assert answer(bench, "asm", text + lines[-1].encode() + b"\n") == fault(599186, 6)


def test_the_first_of_many_labels_that_occur_twice_is_reported(bench):
    text = "".join(it + ":\n" for it in labels(299592)).encode()
    assert answer(bench, "asm", text * 2) == fault(299593, 6)


def test_many_labels_are_used(bench):
    names = labels(MOST_WORDS)
    text = "".join("%s: jal x0, %s\n" % (it, it) for it in names).encode()
    assert answer(bench, "asm", text) == (b"6f000000\n" * MOST_WORDS, 0)


def test_an_unknown_label_among_many_is_reported(bench):
    names = labels(MOST_WORDS)
    lines = [it + ":" for it in names] + ["jal x0, " + it for it in names[:-1]] + ["jal x0, nowhere", ""]
    assert answer(bench, "asm", "\n".join(lines).encode()) == fault(131072, 5)


def test_many_words_are_disassembled(bench):
    text = (b"9300f0ff" * 4 + b"\n") * MOST_WORDS
    assert answer(bench, "dis", text) == (b"fff00093 addi x1, x0, -1\n" * (4 * MOST_WORDS), 0)
    assert answer(bench, "dis", text + b"93\n") == (b"rvbench: hex\n", 1)
