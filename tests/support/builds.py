"""Runs `examples/build` with either compiler."""
import os
import shutil
import subprocess

import pytest

from conftest import BUILD, ROOT
from support.limits import HANG

HAS_CLANG = bool(shutil.which("clang") and shutil.which("ld.lld") and shutil.which("llvm-objcopy"))
HAS_GCC = bool(shutil.which("riscv64-unknown-elf-gcc"))
COMPILERS = [pytest.param("--clang", marks=pytest.mark.skipif(not HAS_CLANG, reason="clang, lld or llvm is not installed")),
             pytest.param("--gcc", marks=pytest.mark.skipif(not HAS_GCC, reason="riscv64-unknown-elf-gcc is not installed"))]
with_clang = pytest.mark.skipif(not HAS_CLANG, reason="clang, lld or llvm is not installed")


def build(*arguments, command=BUILD, cwd=ROOT, compiler="--clang", **env):
    """Runs `build`; returns its `CompletedProcess`."""
    return subprocess.run([str(command), compiler, *map(str, arguments)], cwd=cwd, capture_output=True, text=True, timeout=HANG,
                          env={**os.environ, **env}, check=False)
