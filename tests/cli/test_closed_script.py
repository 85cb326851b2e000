"""The closed instance of declassification from input to output (docs/LAWS.md): the built program does what the theorem computes."""
import re
import subprocess

import pytest

from conftest import ROOT
from support.limits import HANG

SPEC = ROOT / "crates/rv_bench/specs/SecretScript.antt"
SECRETS = ["41", "5a"]


def text_of(name):
    """Returns the text of a definition of the specification, and `{}` for its argument."""
    body = re.search(rf"^{name}.*=\n((?:    .*\n)+)", SPEC.read_text(encoding="utf-8"), re.M)[1]
    return "".join("{}" if it == "digits" else it[7:-1] for it in re.findall(r'codes "[^"]*"|digits', body)).replace("\\n", "\n")


def output(bench, secret, *shown):
    """Returns the output for an input with a secret, with further lines before the step of the interrupt."""
    lines = text_of("secret_script").format(secret).replace("timer on\n", "timer on\n" + "".join(it + "\n" for it in shown))
    ran = subprocess.run([bench, "run", "--monitor", "--ram", "131072", "--kind", "raw"], input=(text_of("secret_prefix") + lines).encode(),
                         stdout=subprocess.PIPE, timeout=HANG, check=True)
    return ran.stdout.decode()


def test_outputs_are_equal(bench):
    first, second = (output(bench, it) for it in SECRETS)
    assert first == second
    assert "trap=80000007:00000000" in first and first.endswith("world=e0 why=done trap=-\n") and "x10=00000002\n" in first


@pytest.mark.parametrize("secret", SECRETS)
def test_secret_is_in_a0_before_the_interrupt(bench, secret):
    assert f"\nx10=000000{secret}\nran 1 pc=8001000c mode=S world=host" in output(bench, secret, "reg 10")


def test_region_differs(bench):
    assert output(bench, SECRETS[0], "mem 80018100 1") != output(bench, SECRETS[1], "mem 80018100 1")
