#!/usr/bin/env python3
"""Builds the files `image` and `stdout` of each attack in examples/attacks, and of examples/programs/race.

The source of an attack is victim.s, or runner.s if the attack is not a twin run, and its attack.s. The source of the race is its program.s. The
module assembly_model.py assembles the image. The input is the image and the script, and the model in monitor_bench.py computes the output. If the
script has a secret, the output for its complement must be the same.

    python3 -m generators.attacks            builds all of them
    python3 -m generators.attacks --check    checks that they are up to date and that each attack fails: both benches reply the same to each
                                           line, both secrets give the same output, or the running enclave exits after it counted to 32

Independent of the code under test.
"""
import os
import sys

from models.assembly_model import assembled, disassembled, lines_of, read_line, words_of
from models.example_arguments import arguments_of
from models.monitor_bench import cut_at, wanted
from models.monitor_model import HOST_ENTRY

ROOT = os.path.dirname(os.path.dirname(os.path.dirname(os.path.abspath(__file__))))
EXAMPLES = os.path.join(ROOT, "examples")
SECRET = "# the secret"
RACE = os.path.join("programs", "race")
DIGITS = 120  # of a line of an image


def text_of(*names):
    try:
        with open(os.path.join(EXAMPLES, *names), encoding="ascii") as file:
            return file.read()
    except (FileNotFoundError, NotADirectoryError):
        return ""


def folders():
    attacks = (os.path.join("attacks", name) for name in os.listdir(os.path.join(EXAMPLES, "attacks")))
    return [*sorted(name for name in attacks if text_of(name, "attack.s")), RACE]


def is_twin(name):
    return arguments_of(name)[:1] == ["twin"]


def source_of(name):
    attack = text_of(name, "attack.s")
    return text_of("attacks", "victim.s" if is_twin(name) else "runner.s") + attack if attack else text_of(name, "program.s")


def has_secret(name):
    return SECRET in text_of(name, "script")


def parts_of_secret(stdin):
    """Splits a script into the lines before the secret, those of the secret, and those after it, which begin with a comment."""
    front, rest = stdin.split(SECRET, 1)
    comment, rest = rest.split("\n", 1)
    secret, behind = rest.split("#", 1)
    return front + SECRET + comment + "\n", secret.splitlines(), "#" + behind


def complement(line):
    """Returns a poke or a setreg of the complement."""
    word, place, value = line.split()
    return f"{word} {place} " + ("%02x" % (0xFF - int(value, 16)) if word == "poke" else "%08x" % (0xFFFFFFFF - int(value, 16)))


def other_of(stdin):
    front, secret, behind = parts_of_secret(stdin)
    return front + "".join(complement(line) + "\n" for line in secret) + behind


def image_of_words(words):
    """Returns the text of an image of these words."""
    digits = "".join(word.to_bytes(4, "little").hex() for word in words)
    return "".join(digits[at:at + DIGITS] + "\n" for at in range(0, len(digits), DIGITS))


def input_of(name):
    """Returns the input of rvbench: the image, then the script."""
    return text_of(name, "image") + text_of(name, "script")


def built(name):
    """Returns the texts of the files of a folder, by name."""
    words = assembled(source_of(name))
    assert isinstance(words, list), (name, words)
    image = image_of_words(words)
    stdout, status = wanted(image + text_of(name, "script"), arguments_of(name))
    assert status == 0, (name, stdout)
    return {"image": image, "stdout": stdout}


def are_alike(stdout):
    """Returns whether the replies of the two benches are equal, and there are any."""
    one, other = ([it[3:] for it in stdout.splitlines() if it.startswith(mark)] for mark in ("a: ", "b: "))
    return one == other != []


def has_counted(stdout):
    """Returns whether the last reply shows the exit of the enclave with 32."""
    return stdout.endswith("\nx10=00000000\nx11=00000020\n")


def fault_of(name):
    """Returns why an attack did not fail, or an empty text."""
    stdout = text_of(name, "stdout")
    if name == RACE:
        return ""
    if has_secret(name):
        other = wanted(other_of(input_of(name)), arguments_of(name))[0]
        return "" if other == stdout != "" else "its secret changes the output"
    if is_twin(name):
        return "" if are_alike(stdout) else "the benches differ"
    return "" if has_counted(stdout) else "the enclave has not counted to 32"


def main(arguments):
    if arguments not in ([], ["--check"]):
        print(__doc__)
        return 2
    wrong, count = [], 0
    for name in folders():
        for part, text in built(name).items():
            count += 1
            if not arguments:
                with open(os.path.join(EXAMPLES, name, part), "w", encoding="ascii") as file:
                    file.write(text)
            elif text_of(name, part) != text:
                wrong.append("%s/%s" % (name, part))
        wrong += [f"{name}: {it}" for it in [fault_of(name)] if it]
    print("\n".join(["differs: " + it for it in wrong] + ["%d compared, %d differ" % (count, len(wrong))]))
    return 1 if wrong else 0


if __name__ == "__main__":
    sys.exit(main(sys.argv[1:]))
