"""Builds an image from a folder of C and assembly sources.

Builds the folder DIR, or examples/DIR, from all its C and assembly files and its link.ld, or the one in shared. Writes image, symbols (as nm
prints them) and listing (the disassembly) into the folder. FILE receives the ELF file with symbols and source lines.

A source whose name begins with host or start belongs to the host. With runtime, application or enclave it belongs to the enclave. Any other
source is compiled for both. IN_ENCLAVE is defined for the enclave. The host begins in start.s or host.s of the folder, else in
shared/host.s. An enclave with a runtime.c begins in its runtime.s, else in shared/runtime.s. CFLAGS adds options for the C compiler, as -Og
for debugging; a relative path in it is relative to DIR. The default compiler is clang with lld, else riscv64-unknown-elf-gcc.

A folder with a monitor.c, or with a link.ld whose entry is monitor_entry, is a monitor in mode M. All its sources in C, C++ and assembly are
linked. It begins at monitor_entry, and no constructor of C++ is called before it. With --with-monitor the folder MONITOR is such a monitor, and
the ELF file has the monitor, the host and the enclave of DIR. It begins in M at monitor_entry. If FILE is given, only FILE is written then, and
the folder DIR stays as it is.

Reports how many bytes each stack has, and warns if the host or the application has fewer than BYTES (1024).
"""
from __future__ import annotations

import io
import os
import re
import signal
import sys
import tempfile
from dataclasses import dataclass
from pathlib import Path
from typing import Any, List, NamedTuple, NoReturn, Sequence

from rvlook.build.linking import Script, install_file, install_outputs, link, report_lacking, report_stacks
from rvlook.build.objects import Workshop
from rvlook.build.programs import DROP_UNUSED, compile_monitor, compile_programs, has, is_monitor
from rvlook.build.toolchain import BuildError, toolchain_of
from rvlook.errors import print_plain
from rvlook.escapes import visible

USAGE = "usage: examples/build [--clang|--gcc] [--stack BYTES] [--with-monitor MONITOR] DIR [FILE]"
BYTES = re.compile(r"[0-9]{1,9}\Z")
INTERRUPTED = 130  # the exit status after Ctrl-C


@dataclass
class Request:
    """The parsed command line of a build."""
    compiler: str = ""  # empty: the default
    least: int = 1024  # bytes of the stack, at least
    monitor: str = ""  # the folder of the monitor, as it was given; empty for no monitor
    folder: str = ""  # the folder of the sources, as it was given
    elf_path: str = ""  # the file that receives the ELF file; empty: the ELF file is not kept


class Folders(NamedTuple):
    """The absolute paths of the folders."""
    folder: str  # the folder of the sources
    monitor: str  # empty without a monitor

    @property
    def is_monitor(self) -> bool:
        """Returns whether only a monitor is built."""
        return self.folder == self.monitor


def request_of(arguments: Sequence[str]) -> Request:
    """Parses the command line. Options come first; the first argument that is no option is the folder, even if it begins with a dash. Raises
    BuildError if the command line is invalid."""
    request, words = Request(), list(arguments)
    while words and take_option(request, words):
        pass
    if words[:1] == ["--"]:
        words.pop(0)
    if len(words) not in (1, 2) or not all(words):
        raise BuildError(USAGE)
    request.folder, request.elf_path = words[0], words[1] if len(words) == 2 else ""
    return request


def take_option(request: Request, words: List[str]) -> bool:
    """Takes an option from the front of the arguments; returns whether there was one. Raises BuildError if its value is invalid."""
    value = words[1] if len(words) > 1 else ""
    if words[0] in ("--clang", "--gcc"):
        request.compiler = words.pop(0)[2:]
        return True
    if words[0] not in ("--stack", "--with-monitor"):
        return False
    if words[0] == "--stack" and BYTES.match(value):
        request.least = int(value)
    elif words[0] == "--with-monitor" and value:
        request.monitor = value
    else:
        raise BuildError(USAGE)
    del words[:2]
    return True


def folder_of(name: str, examples: str) -> str:
    """Returns the absolute path of a folder, or of the folder in the examples. Raises BuildError if there is no such folder."""
    folder = next((path for path in (os.path.abspath(name), os.path.join(examples, name)) if os.path.isdir(path)), None)
    if folder is None:
        raise BuildError("error: no folder '%s', neither here nor in examples" % visible(name))
    return folder


def folders_of(request: Request, examples: str) -> Folders:
    """Returns the folders that are built. Raises BuildError if a folder does not exist or lacks a file that it needs."""
    folder = folder_of(request.folder, examples)
    monitor = folder_of(request.monitor, examples) if request.monitor else folder if is_monitor(folder) else ""
    if monitor and not is_monitor(monitor):
        raise BuildError("error: no monitor in '%s': it has no monitor.c, and no link.ld with ENTRY(monitor_entry)" % visible(request.monitor))
    if monitor and not has(monitor, "link.ld"):
        raise BuildError("error: no link.ld in '%s'" % visible(request.monitor or request.folder))
    if folder != monitor and not has(folder, "host.c"):
        raise BuildError("error: no host.c in '%s'" % visible(request.folder))
    return Folders(folder, monitor)


def build(request: Request, examples: str) -> None:
    """Builds a folder. Raises BuildError if the folder cannot be built."""
    folders = folders_of(request, examples)
    elf_path, shared = os.path.abspath(request.elf_path) if request.elf_path else "", os.path.join(examples, "shared")
    cflags = tuple(os.environ.get("CFLAGS", "").split())
    toolchain = toolchain_of(request.compiler)
    with tempfile.TemporaryDirectory(prefix="build.") as temporary_folder:
        workshop = Workshop(toolchain, folders.folder, shared, temporary_folder, cflags)
        elf = link_folders(workshop, folders, request.folder)
        report_lacking(elf, request.elf_path or request.folder)
        if not folders.is_monitor:
            report_stacks(workshop, elf, request.least)
        if elf_path and not any(flag.startswith("-O") for flag in cflags):
            print("build: optimised for size; to debug, build with CFLAGS=-Og", flush=True)
        if elf_path and folders.monitor and not folders.is_monitor:
            install_file(elf_path, Path(elf).read_bytes())
        else:
            install_outputs(workshop, elf, elf_path)


def link_folders(workshop: Workshop, folders: Folders, given: str) -> str:
    """Compiles and links the monitor, the host and the enclave; returns the path of the ELF file. `given` is the folder as a message names it."""
    if folders.monitor:
        compile_monitor(workshop, folders.monitor)
    if folders.is_monitor:
        return link(workshop, Script(("-T", os.path.join(folders.monitor, "link.ld")), "link.ld"), ())
    programs = compile_programs(workshop)
    is_own = has(folders.folder, "link.ld")
    script = "link.ld" if is_own else os.path.join(workshop.shared, "link.ld")
    options = ("-T", os.path.join(folders.monitor, "link.ld"), "-Wl,-e,monitor_entry") if folders.monitor else ()
    return link(workshop, Script((*options, "-T", script), visible(script), None if is_own else visible(given)),
                DROP_UNUSED if programs.drops_unused else ())


def main(arguments: Sequence[str], examples: str) -> int:
    """Builds a folder with these arguments; returns the exit status: 0, or 1 after an error. `examples` is the folder of the examples."""
    for number in (signal.SIGTERM, signal.SIGHUP):
        signal.signal(number, stop)
    for stream in (sys.stdout, sys.stderr):
        if isinstance(stream, io.TextIOWrapper):
            stream.reconfigure(errors="backslashreplace")
    if list(arguments) in (["-h"], ["--help"]):
        print("%s\n\n%s" % (USAGE, (__doc__ or "").strip()))
        return 0
    try:
        build(request_of(arguments), examples)
    except BuildError as fault:
        print_plain("build: %s" % fault if str(fault).startswith(("error: ", "usage: ")) else str(fault))
        return fault.status
    except OSError as fault:
        print_plain("build: error: %s" % visible(str(fault)))
        return BuildError.status
    except KeyboardInterrupt:
        return INTERRUPTED
    return 0


def stop(number: int, _: Any) -> NoReturn:
    """Handles a signal: ends the process with the status of the signal. The exception removes the temporary folder first."""
    sys.exit(128 + number)
