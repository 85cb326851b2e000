"""The attacks of `examples/attacks` with many secrets: not one byte of the output changes.

An attack by `twin` is made as single runs, each with another secret poked into the enclave at the point where the two benches diverge. The
attack on an enclave that runs on the other hart has another secret in its region and registers. Lines that name the region, and lines after
the one that enters the enclave, are left out, as the reference model decides.
"""
import random
import subprocess

import pytest

from generators.attacks import folders, has_secret, input_of, is_twin, other_of, parts_of_secret, text_of
from models.example_arguments import arguments_of
from models.monitor_bench import Bench, Twins, cut_at, image_of, lines_of, setup_of
from support.limits import HANG

SEED, SECRETS, POKES = 7, 6, 16


def parts_of(name):
    """Returns the first part of the input, the lines after it that do not access the enclave, its region, and the arguments."""
    words = arguments_of(name)
    image, scripts = cut_at(lines_of(input_of(name)))
    first, second = cut_at(scripts)
    setup = setup_of(words)
    slot = setup.pop("slot", 0)
    bench = Bench(image_of(image), **setup)
    for line in first:
        bench.replies(line)
    region = bench.machine.table[slot].region
    twins, passes = Twins(bench, slot), []
    for line in second:
        replies, ends = twins.replies(line)
        if ends:
            break
        if replies != ["error blind"]:
            passes.append(line)
    return [*image, "--", *first], passes, region, ["run", "--monitor", *words[1:]]


def pokes(chance, region):
    base, size = region
    return ["poke %08x %02x" % (base + chance.randrange(size), chance.randrange(256)) for _ in range(POKES)]


def output(program, words, lines):
    text = "".join(it + "\n" for it in lines)
    return subprocess.run([program, *words], input=text.encode(), stdout=subprocess.PIPE, timeout=HANG, check=True).stdout


def outputs_of_twin(program, name, chance):
    """Returns the outputs of an attack by `twin`: with each secret, and with a line that shows a byte of it."""
    front, rest, region, words = parts_of(name)
    assert len(rest) > 3
    secrets = [pokes(chance, region) for _ in range(SECRETS)]
    hidden = {output(program, words, [*front, *secret, *rest]) for secret in secrets}
    shown = {output(program, words, [*front, *secret, *rest, "mem %08x 64" % (int(secret[0].split()[1], 16) & ~63)]) for secret in secrets}
    return hidden, shown


def another(chance, line):
    """Returns the line with another byte if it is a poke, or another word if it is a setreg."""
    word, place, value = line.split()
    return f"{word} {place} {chance.getrandbits(4 * len(value)):0{len(value)}x}"


def outputs_of_secret(program, name, chance):
    """Returns the same for an attack on an enclave that runs on the other hart."""
    front, secret, behind = (it if isinstance(it, list) else it.splitlines() for it in parts_of_secret(input_of(name)))
    words = arguments_of(name)
    secrets = [[another(chance, line) for line in secret] for _ in range(SECRETS)]
    hidden = {output(program, words, [*front, *it, *behind]) for it in secrets}
    hidden |= {output(program, words, text.splitlines()) for text in (input_of(name), other_of(input_of(name)))}
    hidden |= {text_of(name, "stdout").encode()}
    shown = {output(program, words, [*front, *it, *behind, "hart 0", "regs"]) for it in secrets}
    return hidden, shown


@pytest.mark.parametrize("name", [it for it in folders() if is_twin(it) or has_secret(it)])
def test_the_secret_does_not_change_the_output(bench, name):
    chance = random.Random("%d/%s" % (SEED, name))
    hidden, shown = (outputs_of_twin if is_twin(name) else outputs_of_secret)(bench, name, chance)
    assert len(hidden) == 1
    assert len(shown) > 1, "no secret is shown by a line that names it"
