"""Which sources of a folder belong to the host, the enclave and the monitor, and the objects of each."""
from __future__ import annotations

import os
import re
from dataclasses import dataclass, field
from typing import List

from rvlook.build.objects import APART, C, CPP, Workshop
from rvlook.build.toolchain import BuildError
from rvlook.escapes import visible

KINDS = (*C, *CPP, ".s", ".S")  # the order in which sources are compiled and linked
MONITOR_ENTRY = re.compile(rb"\bENTRY\s*\(\s*monitor_entry\s*\)")  # finds the entry in the link.ld of a monitor
FIRST = ("start.s", "host.s", "enclave.s", "runtime.s")  # the sources that are compiled before all others
OF_HOST, OF_ENCLAVE = ("host", "start"), ("runtime", "application", "enclave")  # how the names of the sources of one side begin
IN_ENCLAVE = "-DIN_ENCLAVE"
DROP_UNUSED = ("-Wl,--gc-sections", "-Wl,-u,enclave_entry")


@dataclass
class Programs:
    """The compiled objects of a program: those of the host and those of the enclave."""
    host: List[str] = field(default_factory=list)  # paths
    enclave: List[str] = field(default_factory=list)  # paths
    drops_unused: bool = False  # whether functions that no one uses are dropped


def sources_in(folder: str) -> list[str]:
    """Returns the names of the sources of a folder, in the order in which they are compiled."""
    names = sorted(name for name in os.listdir(folder) if not name.startswith("."))
    return [name for kind in KINDS for name in names if name.endswith(kind)]


def has(folder: str, name: str) -> bool:
    """Returns whether the folder has a regular file of this name."""
    return os.path.isfile(os.path.join(folder, name))


def is_monitor(folder: str) -> bool:
    """Returns whether a folder has a monitor: a monitor.c, or a link.ld whose entry is monitor_entry."""
    if has(folder, "monitor.c") or not has(folder, "link.ld"):
        return has(folder, "monitor.c")
    with open(os.path.join(folder, "link.ld"), "rb") as file:
        return bool(MONITOR_ENTRY.search(file.read()))


def compile_monitor(workshop: Workshop, folder: str) -> None:
    """Compiles a monitor to one object whose sections begin with .monitor and whose only global name is monitor_entry."""
    prefix = "" if folder == workshop.folder else folder
    objects = [workshop.compile(os.path.join(prefix, source), "monitor.%s.o" % source, "-O1") for source in sources_in(folder)]
    objects += workshop.string_functions(objects, "monitor.string.o")
    merged = workshop.merge(objects, "merged")
    target = os.path.join(workshop.objects_folder, "monitor.o")
    workshop.copy_object(merged, target, "--prefix-alloc-sections=.monitor", "--keep-global-symbol=monitor_entry")


def compile_programs(workshop: Workshop) -> Programs:
    """Compiles the host and the enclave of the folder. Raises BuildError if a source does not compile."""
    programs = Programs([compile_start(workshop)], compile_entry(workshop))
    for source in sources_in(workshop.folder):
        if source not in FIRST:
            compile_source(workshop, source, programs)
    strings = workshop.string_functions(programs.host, "string.host.o")
    programs.host += strings
    if programs.enclave:
        of_enclave = workshop.string_functions(programs.enclave, "string.enclave.o")
        programs.enclave += of_enclave
        strings += of_enclave
        separate(workshop, programs)
    programs.drops_unused |= bool(strings)
    return programs


def compile_start(workshop: Workshop) -> str:
    """Compiles the code at which the host begins; returns its object."""
    own_start = next((name for name in ("start.s", "host.s") if has(workshop.folder, name)), None)
    return workshop.compile(own_start or os.path.join(workshop.shared, "host.s"), "start.o")


def compile_entry(workshop: Workshop) -> list[str]:
    """Compiles the code at which the enclave begins; returns its object, or nothing if the folder has no enclave."""
    if has(workshop.folder, "enclave.s"):
        return [workshop.compile("enclave.s", "runtime_start.o")]
    if not has(workshop.folder, "runtime.c"):
        return []
    runtime_source = "runtime.s" if has(workshop.folder, "runtime.s") else os.path.join(workshop.shared, "runtime.s")
    return [workshop.compile(runtime_source, "runtime_start.o")]


def compile_source(workshop: Workshop, source: str, programs: Programs) -> None:
    """Compiles a source for its side. One whose name belongs to neither is compiled for both; the linker drops unused functions of it."""
    if source.startswith(OF_HOST):
        programs.host.append(workshop.compile(source, source + ".o"))
    elif source.startswith(OF_ENCLAVE):
        programs.enclave.append(workshop.compile(source, source + ".o", IN_ENCLAVE))
    else:
        programs.host.append(workshop.compile(source, source + ".host.o", *APART))
        programs.enclave.append(workshop.compile(source, source + ".enclave.o", *APART, IN_ENCLAVE))
        programs.drops_unused = True


def separate(workshop: Workshop, programs: Programs) -> None:
    """Moves the enclave to sections that begin with .enclave. A name that both sides define, such as memcpy, becomes local to the enclave.

    An enclave cannot access memory of the host: raises BuildError if it uses a function that only the host has."""
    (of_host, _), (of_enclave, lacking) = workshop.names(programs.host), workshop.names(programs.enclave)
    for path in programs.enclave:
        workshop.copy_object(path, path, "--prefix-alloc-sections=.enclave")
    missing = sorted(lacking & of_host)
    if missing:
        raise BuildError("error: the enclave uses functions that only the host has: %s" % ", ".join(map(visible, missing)))
    both = sorted(of_enclave & of_host)
    if both:
        merged = workshop.merge(programs.enclave, "enclave.o")
        workshop.copy_object(merged, merged, *("--localize-symbol=" + name for name in both))
