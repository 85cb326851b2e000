"""The program's assembler and disassembler agree with GNU's and LLVM's on every row of the encoding, and on random words, in both directions."""
import pytest

from peers.assemblers import comparison
from peers.assemblers.tools import Gnu, Llvm, Program, is_installed

WORDS = 20000
SEED = "gate"


@pytest.fixture(params=[Gnu, Llvm], ids=lambda it: it.name)
def other(request):
    """Returns another assembler; skips the test if it is not installed."""
    if not is_installed(request.param()):
        pytest.skip("%s or %s is not installed" % (request.param.missing, Gnu.missing))
    return request.param()


class Falsified(Program):
    """A program whose assembler changes a bit of one word, and whose disassembler knows one word less."""

    def assemble(self, texts):
        """Returns the words of texts. The last is false."""
        words = super().assemble(texts)
        return [*words[:-1], words[-1] ^ 1 << 20]

    def disassemble(self, words):
        """Returns the texts of words, without that of the first known word."""
        texts = super().disassemble(words)
        first = next(at for at, text in enumerate(texts) if text)
        return [*texts[:first], None, *texts[first + 1:]]


def test_every_row_is_assembled_alike(bench, other):
    found, count = comparison.compare_texts(Program(bench), other)
    assert found == [] and count > 19000


def test_every_row_is_disassembled_alike_and_assembled_again(bench, other):
    found, count = comparison.compare_words(Program(bench), other)
    assert found == [] and count > 19000


def test_random_words_are_the_same_instructions(bench, other):
    found, count = comparison.compare_random(Program(bench), other, SEED, WORDS)
    assert found == [] and count > WORDS * 0.99


def test_a_false_word_and_a_false_text_are_noticed(bench, other):
    falsified = Falsified(bench)
    assert comparison.compare_texts(falsified, other)[0]
    assert comparison.compare_words(falsified, other)[0]
    assert comparison.compare_random(falsified, other, SEED, 200)[0]


@pytest.mark.parametrize("example", [it[2] for it in comparison.FOREIGN], ids=[it[3] for it in comparison.FOREIGN])
def test_each_foreign_word_is_known_to_another_disassembler(bench, example):
    others = [it for it in (Gnu(), Llvm()) if is_installed(it)]
    if len(others) < 2:
        pytest.skip("%s or %s is not installed" % (Gnu.missing, Llvm.missing))
    assert Program(bench).disassemble([example]) == [None]
    assert any(it.disassemble([example])[0] for it in others)


def test_other_assemblers_have_no_text_for_an_empty_set_of_a_fence(bench, other):
    with pytest.raises(Exception, match="operand"):
        other.assemble(["fence 0, rw"])
    assert Program(bench).assemble(["fence 0, rw"]) == [0x0030000F]
