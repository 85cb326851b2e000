"""The format of the files tests/cases/TOPIC.cases: the command-line cases of a topic.

A case begins with a line that has its name, the expected exit status, and the arguments. Then come the lines of the input after <, and the expected
lines of the output after >. A last line without a line feed ends in a backslash. Escapes are

    \\\\       a backslash
    \\t \\r    a tab, a carriage return
    \\xHH     any other byte that is not printable ASCII, and a blank at the end of a line or in an argument
    \\e       an empty argument

Lines that begin with # are comments, and empty lines separate the cases. For example

    case reads_no_instruction 0 run --kind raw
    <ffffffff
    <--
    <step 1
    >ran 1 pc=00000000 mode=M world=bare why=done trap=00000002:ffffffff
"""
import re

SHORT = {0x5C: "\\\\", 0x09: "\\t", 0x0D: "\\r"}


class Case:
    """A case: its name (text), the arguments, the input and the expected output (bytes), and the expected status."""

    def __init__(self, name, words, stdin, stdout, status):
        self.name, self.words, self.stdin, self.stdout, self.status = name, words, stdin, stdout, status

    def __eq__(self, other):
        return vars(self) == vars(other)


def escaped(data, in_word=False):
    """Returns bytes as printable text."""
    text = "".join(SHORT.get(b) or (chr(b) if 32 <= b < 127 and not (in_word and b == 32) else "\\x%02x" % b) for b in data)
    return text[:-1] + "\\x20" if text.endswith(" ") else text


def restored(text):
    """Returns the bytes of such a text."""
    found = re.fullmatch(r"(?:[ -\[\]-~]|\\\\|\\t|\\r|\\x[0-9a-f]{2})*", text)
    if not found:
        raise ValueError("no text of a case: " + text)
    back = {"\\\\": "\\", "\\t": "\t", "\\r": "\r"}
    return re.sub(r"\\(?:x(..)|.)", lambda it: chr(int(it[1], 16)) if it[1] else back[it[0]], text).encode("latin-1")


def lines_of(mark, data):
    """Returns the lines of an input or output, each after its mark."""
    *lines, last = data.split(b"\n")
    return [mark + escaped(it) + "\n" for it in lines] + ([mark + escaped(last) + "\\\n"] if last else [])


def bytes_of(lines):
    """Returns the bytes of lines with marks. Only the last may lack a line feed."""
    parts = []
    for at, line in enumerate(lines):
        is_cut = len(line) - len(line.rstrip("\\")) & 1
        if is_cut and at + 1 < len(lines):
            raise ValueError("a line within has no line feed: " + line)
        parts.append(restored(line[:-1]) if is_cut else restored(line) + b"\n")
    return b"".join(parts)


def written(cases, comment):
    """Returns the text of a file with these cases."""
    texts = ["# " + comment + "\n"]
    for case in cases:
        head = ["case", case.name, str(case.status)] + [escaped(it, in_word=True) or "\\e" for it in case.words]
        texts.append("".join([" ".join(head) + "\n"] + lines_of("<", case.stdin) + lines_of(">", case.stdout)))
    return "\n".join(texts)


def read(text):
    """Returns the cases of a file. A line of unknown form is an error."""
    cases = []
    for part in re.split(r"^(?=case )", text, flags=re.M)[1:]:
        head, *lines = [it for it in part.split("\n") if it and not it.startswith("#")]
        found = re.fullmatch(r"case ([\w.]+) ([0-9]{1,3})((?: [^ ]+)*)", head)
        given = [it[1:] for it in lines if it.startswith("<")]
        wanted = [it[1:] for it in lines if it.startswith(">")]
        if not found or [*("<" + it for it in given), *(">" + it for it in wanted)] != lines:
            raise ValueError("this is no case: " + part[:200])
        words = [b"" if it == "\\e" else restored(it) for it in found[3].split()]
        cases.append(Case(found[1], words, bytes_of(given), bytes_of(wanted), int(found[2])))
    names = [it.name for it in cases]
    if len({*names}) < len(names):
        raise ValueError("two cases of one name")
    return cases
