"""Runs GCC's tests by parallel threads, and compares what was left out with the list of the repository."""
from __future__ import annotations

import tempfile
from concurrent.futures import ThreadPoolExecutor
from dataclasses import dataclass, field
from pathlib import Path
from typing import Dict, List, Sequence

from .building import FORMS, HERE, BuildFailed, build, run, support
from .sources import Source

LIST = HERE / "left_out"


@dataclass
class Results:
    """The names of the tests that passed in each form, how others failed, and why others were left out."""

    passed: List[str] = field(default_factory=list)
    failed: Dict[str, str] = field(default_factory=dict)
    left_out: Dict[str, str] = field(default_factory=dict)


def run_all(program: str, sources: Sequence[Source], jobs: int) -> Results:
    """Builds and runs tests in each form."""
    results = Results()
    with tempfile.TemporaryDirectory(prefix="rvbench-gcc-") as scratch, ThreadPoolExecutor(jobs) as pool:
        folder = Path(scratch)
        shared = support(folder)
        for source, (why, failed) in zip(sources, pool.map(lambda it: _run(program, it, folder, shared), sources)):
            if why:
                results.left_out[source.name] = why
            elif failed:
                results.failed[source.name] = failed
            else:
                results.passed.append(source.name)
    return results


def _run(program: str, source: Source, folder: Path, shared: Dict[str, List[str]]) -> "tuple[str, str]":
    """Runs a test in each form; returns why it is left out, and how it failed."""
    if source.left_out:
        return source.left_out, ""
    try:
        made = build(source, folder, shared)
    except BuildFailed as why:
        return str(why), ""
    ends = ["%s: %s" % (form.name, end) for form in FORMS for end in [run(program, made[form.name], form)] if end]
    for path in made.values():
        path.unlink()
    return "", "; ".join(ends)


def listed() -> Dict[str, str]:
    """Returns the tests that the list of the repository leaves out, and why."""
    lines = [line for line in LIST.read_text(encoding="utf-8").splitlines() if line and not line.startswith("#")]
    return {name: why for name, _, why in (line.partition("  ") for line in lines)}


def write_list(left_out: Dict[str, str]) -> None:
    """Writes the list of the tests that are left out."""
    head = "# GCC's execution tests that are left out, and why: the first error of the compiler, or what this machine lacks.\n"
    LIST.write_text(head + "".join("%s  %s\n" % it for it in sorted(left_out.items())), encoding="utf-8")
