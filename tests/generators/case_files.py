"""Files of generated cases. A case has a topic, a name, and texts under the keys stdin, stdout and optionally args (one argument per line) and
status, with one character per byte. One script generates all cases of a topic. The repository stores a line of cases/digests for each topic
(its name, the number of cases, the SHA-256 of their text, the script) and a readable sample in cases/samples. The tests generate the cases.
"""
import hashlib
import os
import sys

from models import case_format
from models.instruction_words import differing_from_llvm

CASES = os.path.join(os.path.dirname(os.path.dirname(os.path.abspath(__file__))), "cases")
DIGESTS = os.path.join(CASES, "digests")
SAMPLED, SHOWN = 3, 16  # cases of a topic, and lines of each part


def stdin(image, script):
    """Returns the input of an image of words by address, from 80000000, and of a script."""
    data = bytes(image.get(a, 0) for a in range(0x80000000, max(image, default=0) + 1)).hex()
    return "\n".join([data[i:i + 120] for i in range(0, len(data), 120)] + ["--"] + script) + "\n"


def computed(case):
    """Returns a case in the format of the files."""
    texts = {key: text.encode("latin-1") for key, text in case.files().items()}
    words = texts.get("args", b"").split(b"\n")[:-1]
    return case_format.Case(case.name, words, texts["stdin"], texts["stdout"], int(texts.get("status", b"0")))


def files_of(cases):
    """Returns the cases of each topic in the format of the files."""
    topics = {}
    for case in cases:
        topics.setdefault(case.topic, []).append(computed(case))
    return topics


def script():
    return os.path.basename(sys.argv[0])


def text_of_all(part):
    return case_format.written(part, "Written by tests/generators/%s; case_format.py says how it is read." % script())


def digest_of(topic, part):
    """Returns the line of a topic in cases/digests."""
    return "%s %d %s %s\n" % (topic, len(part), hashlib.sha256(text_of_all(part).encode("ascii")).hexdigest(), script())


def sample_of(part):
    """Returns a sample: evenly spaced cases of the topic, with the first lines of each part."""
    step = max(1, len(part) // SAMPLED)
    comment = "A sample of what tests/generators/%s writes: %d of %d cases, at most %d lines of input and of output of each."
    chosen = part[::step][:SAMPLED]
    text = case_format.written(chosen, comment % (script(), len(chosen), len(part), SHOWN))
    lines, shown, left_out = [], 0, 0
    for line in text.splitlines() + [""]:
        if line[:1] == (lines and lines[-1][:1]) and line[:1] in "<>" and line:
            shown += 1
            if shown > SHOWN:
                left_out += 1
                continue
        else:
            if left_out:
                lines.append("# and %d more" % left_out)
            shown, left_out = 1, 0
        lines.append(line)
    return "\n".join(lines[:-1]) + "\n"


def kept_of(topics):
    """Returns the texts of the stored files by path below cases; digests of other scripts are unchanged."""
    lines = {line.split()[0]: line for line in (text_of(DIGESTS) or "").splitlines(True)}
    lines = {topic: line for topic, line in lines.items() if line.split()[3] != script()}
    lines.update({topic: digest_of(topic, part) for topic, part in topics.items()})
    kept = {os.path.join("samples", topic): sample_of(part) for topic, part in topics.items()}
    return {**kept, "digests": "".join(lines[topic] for topic in sorted(lines))}


def differing(files):
    """Returns the files that are missing or differ."""
    return [name for name, text in files.items() if text_of(os.path.join(CASES, name)) != text]


def write(folder, files):
    for name, text in files.items():
        with open(os.path.join(folder, name), "w", encoding="ascii", newline="") as file:
            file.write(text)


def text_of(path):
    try:
        with open(path, encoding="latin-1", newline="") as file:
            return file.read()
    except FileNotFoundError:
        return None


def main(arguments, cases, words, usage):
    """Runs the command line of a generator; returns the exit status. `words` has the instruction words by text, for --check-with-llvm."""
    topics = files_of(cases)
    if arguments[:1] == ["--into"] and len(arguments) == 2:
        write(arguments[1], {topic + ".cases": text_of_all(part) for topic, part in topics.items()})
        return 0
    if arguments in (["--check"], ["--check-with-llvm"]):
        kept = kept_of(topics)
        wrong, count = (differing(kept), len(kept)) if arguments == ["--check"] else differing_from_llvm(words)
        print("\n".join(["differs: " + name for name in wrong] + ["%d compared, %d differ" % (count, len(wrong))]))
        return 1 if wrong else 0
    if arguments:
        print(usage)
        return 2
    os.makedirs(os.path.join(CASES, "samples"), exist_ok=True)
    write(CASES, kept_of(topics))
    print("%d cases, of which a sample is kept" % len(cases))
    return 0
