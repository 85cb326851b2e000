"""Builds the self test of Mbed TLS from a folder of its sources, and runs it on the bare machine, as the host, and as an enclave."""
from __future__ import annotations

import tempfile
import time
from dataclasses import dataclass
from pathlib import Path
from typing import List

from peers.gcc.building import FORMS, HERE as SUPPORT, Form, compile_with, link_form, run_counted, support

HERE = Path(__file__).resolve().parent
# The sources of the library that the configuration selects; a file that a version lacks is left out.
MODULES = ("aes", "arc4", "base64", "bignum", "bignum_core", "camellia", "ccm", "chacha20", "chachapoly", "cipher", "cipher_wrap", "constant_time",
           "des", "gcm", "md", "md5", "platform", "platform_util", "poly1305", "ripemd160", "sha1", "sha256", "sha512", "xtea")
FLAGS = ("-w", "-O2", "-std=gnu17", "-fno-pic")


@dataclass(frozen=True)
class Result:
    """How the self test ended in a form, an empty text for success; its steps, and the seconds of the run."""

    form: Form
    end: str
    steps: int
    seconds: float


def objects_of(library: Path, folder: Path) -> List[str]:
    """Compiles the modules of the library, and the test; returns the objects."""
    folders = (HERE / "include", SUPPORT / "include", library / "include", library / "library", HERE)
    options = [word for it in folders for word in ("-I", str(it))]
    options.append('-DMBEDTLS_CONFIG_FILE="freestanding_config.h"')
    made = []
    sources = [library / "library" / (name + ".c") for name in MODULES]
    for source in [*filter(Path.exists, sources), HERE / "self_test.c"]:
        made.append(str(folder / (source.stem + ".o")))
        compile_with(*FLAGS, *options, "-c", "-o", made[-1], str(source))
    return made


def run_self_test(program: str, library: Path) -> List[Result]:
    """Runs the self test in each form; raises `BuildFailed`."""
    found = []
    with tempfile.TemporaryDirectory(prefix="rvbench-library-") as scratch:
        folder = Path(scratch)
        shared, objects = support(folder), objects_of(library, folder)
        for form in FORMS:
            elf = folder / form.name
            link_form(form, objects, shared, elf)
            began = time.monotonic()
            end, steps = run_counted(program, elf, form)
            found.append(Result(form, end, steps, time.monotonic() - began))
    return found
