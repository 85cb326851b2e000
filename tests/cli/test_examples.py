"""The examples: each image is built from its sources, and the model produces the stored output."""
import subprocess

import pytest

from cli.cases import EXAMPLES, example_input
from models import monitor_bench
from models.example_arguments import argument_table, arguments_of
from support.limits import HANG

MONITORED = sorted(EXAMPLES / it for it in argument_table())
ATTACKS = sorted(it.parent for it in EXAMPLES.glob("attacks/*/attack.s"))
NAMED = {"ids": lambda it: str(it.relative_to(EXAMPLES))}


def output(program, *words, data):
    return subprocess.run([program, *words], input=data, stdout=subprocess.PIPE, timeout=HANG, check=True).stdout


def test_the_assembly_example_goes_there_and_back(bench):
    folder = EXAMPLES / "programs" / "assembly"
    image, text = (folder / "image").read_bytes(), (folder / "disassembly").read_bytes()
    assert output(bench, "asm", data=(folder / "program.s").read_bytes()) == image
    assert output(bench, "dis", data=image) == text
    assert output(bench, "dis", data=example_input(folder)) == text
    again = b"\n".join(line.split(b" ", 1)[1] for line in text.splitlines()) + b"\n"
    assert output(bench, "asm", data=again) == image


def test_the_elf_example_is_one_where_an_elf_file_is_required(bench):
    folder = EXAMPLES / "programs" / "elf"
    assert output(bench, "run", "--kind", "elf", data=example_input(folder)) == (folder / "stdout").read_bytes()


@pytest.mark.parametrize("folder", MONITORED, **NAMED)
def test_the_model_gives_the_output(folder):
    text, status = monitor_bench.wanted(example_input(folder).decode("latin-1"), arguments_of(folder))
    assert (text.encode("latin-1"), status) == ((folder / "stdout").read_bytes(), 0)


@pytest.mark.parametrize("folder", ATTACKS, **NAMED)
def test_the_sources_of_an_attack_give_its_image(bench, folder):
    start = "victim.s" if arguments_of(folder)[0] == "twin" else "runner.s"
    text = (folder.parent / start).read_bytes() + (folder / "attack.s").read_bytes()
    assert b"".join(output(bench, "asm", data=text).split()) == b"".join((folder / "image").read_bytes().split())


def test_the_source_of_the_race_gives_its_image(bench):
    folder = EXAMPLES / "programs" / "race"
    image = output(bench, "asm", data=(folder / "program.s").read_bytes())
    assert b"".join(image.split()) == b"".join((folder / "image").read_bytes().split())
