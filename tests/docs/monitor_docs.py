#!/usr/bin/env python3
"""python3 -m docs.monitor_docs --check: checks the commands and replies that docs/MONITOR.md, docs/AUTHORS.md, docs/COMMANDS.md and
examples/attacks/README.md quote from the examples. A quoted part begins with the name of its example, such as `# examples/enclaves/adds`.
Its lines are in the example's script in the same order, each with the reply of the model in monitor_bench.py and possibly a comment. A quote
has only the first line of a reply, or for `sched` all lines, separated by ` / `. If the example has two benches, a reply of both has no mark.
"""
import os
import re
import sys

from models.example_arguments import arguments_of
from models.monitor_bench import FORMS, Bench, Twins, cut_at, image_of, lines_of, setup_of

ROOT = os.path.dirname(os.path.dirname(os.path.dirname(os.path.abspath(__file__))))
PAGES = ("docs/MONITOR.md", "docs/AUTHORS.md", "docs/COMMANDS.md", "examples/attacks/README.md")


def text_of(*names):
    with open(os.path.join(ROOT, *names), encoding="ascii") as file:
        return file.read()


def session_of(name):
    """Returns each command of the example's script with the quoted form of its reply, from both benches if there are two."""
    image, script = cut_at(lines_of(text_of(name, "image") + text_of(name, "script")))
    first, second = cut_at(script)
    words = arguments_of(os.path.join(ROOT, name))
    setup = setup_of(words)
    slot = setup.pop("slot", 0)
    bench = Bench(image_of(image), **setup)
    session = [(line, quoted(line, bench.replies(line))) for line in first]
    twins = Twins(bench, slot) if words[0] == "twin" else None
    for line in second:
        replies = twins.replies(line)[0]
        marked = [it[3:] for it in replies if it.startswith("a: ")]
        session.append((line, quoted(line, marked or replies)))
    return session


def quoted(line, replies):
    """Returns the form in which a page quotes replies."""
    return " / ".join(replies if line.startswith("sched") else replies[:1])


def parts_of(text):
    """Yields the name of the example of each quoted part, and its lines."""
    for part in re.findall(r"^    # (examples/[\w/]+)\n((?:    .+\n)+)", text, re.M):
        yield part[0], [line.split(" # ")[0].strip() for line in part[1].splitlines()]


def is_quote_of(line, said):
    """Returns whether a line of the page is a command with its reply."""
    command, reply = said
    words = line.split()
    count = len(FORMS.get(words[0], ())) + 1
    return words[:count] == command.split() and words[count:] == reply.split()


def missing(text):
    """Returns the lines that no example has, and the number of all lines."""
    wrong, count = [], 0
    for name, lines in parts_of(text):
        session = iter(session_of(name))
        for line in lines:
            count += 1
            if not any(is_quote_of(line, said) for said in session):
                wrong.append("%s: %s" % (name, line))
                break
    return wrong, count


def main(arguments):
    if arguments != ["--check"]:
        print(__doc__)
        return 2
    wrong, count = missing("\n".join(text_of(*name.split("/")) for name in PAGES))
    print("\n".join(["differs: " + it for it in wrong] + ["%d compared, %d differ" % (count, len(wrong))]))
    return 1 if wrong or not count else 0


if __name__ == "__main__":
    sys.exit(main(sys.argv[1:]))
