"""Shared code of the tests of hostile input: an ELF file whose names can be replaced, and rvlook in a child process with limits of time and memory.

The ELF file is that of `programs/hello`, built with `-g -gdwarf-4`; it is stored as digits, so that the tests need no compiler. Its source file
and one of its functions have names of 49 and 48 characters, which other names can replace."""
import importlib
import os
import pkgutil
import resource
import signal
import struct
import sys
import tempfile
from functools import lru_cache
from pathlib import Path
from typing import NamedTuple

from support.limits import HANG

ROOT = Path(__file__).resolve().parents[2]
FOLDER = ROOT / "tests" / "rvlook" / "programs" / "hello"
SOURCE = next(FOLDER.glob("*.c")).name
FUNCTION = "a_function_with_a_name_of_48_characters_________"
HELLO = bytes.fromhex((FOLDER / "elf.hex").read_text())
SECONDS, MEMORY = 60, 1 << 30  # of processor time, and bytes
SLACK = 1 << 29  # bytes of addresses that have no memory
FEW = ["--steps", "40"]  # the program halts after 23


def fitting(name, length):
    """Returns a name as bytes; it must not be longer than the one that it replaces."""
    data = name if isinstance(name, bytes) else os.fsencode(name)
    assert len(data) <= length, "the name does not fit"
    return data


def named(function=None, source=None, data=HELLO):
    """Returns the ELF file with other names: NULs end that of the function, and slashes are before that of the source file, which is an
    absolute path then."""
    if function is not None:
        data = data.replace(FUNCTION.encode(), fitting(function, len(FUNCTION)).ljust(len(FUNCTION), b"\0"))
    if source is not None:
        data = data.replace(SOURCE.encode(), fitting(source, len(SOURCE)).rjust(len(SOURCE), b"/"))
    return data


def sections_of(data):
    """Returns the offset and the size of each section by its name, and where its header is."""
    start, = struct.unpack_from("<I", data, 32)
    size, count, names = struct.unpack_from("<HHH", data, 46)
    headers = [struct.unpack_from("<10I", data, start + size * it) for it in range(count)]
    table = headers[names][4]
    return {data[table + it[0]:data.index(b"\0", table + it[0])].decode(): (it[4], it[5], start + size * at)
            for at, it in enumerate(headers)}


def patched(at, new, data=HELLO):
    """Returns the file with other bytes at an offset."""
    return data[:at] + new + data[at + len(new):]


class Done(NamedTuple):
    """How a run of rvlook ended: its status (minus the signal), its output, its errors, and bytes of memory more than this process had."""
    status: int
    output: bytes
    errors: bytes
    memory: int


def run(bench, *words, stdin=b"", seconds=SECONDS, memory=MEMORY):
    """Runs rvlook in a forked child, which has its modules already; a run takes a few hundredths of a second. A signal ends it after so many seconds
    of processor time, or if it hangs."""
    load()
    without_limit(bench)
    with tempfile.TemporaryFile() as given, tempfile.TemporaryFile() as output, tempfile.TemporaryFile() as errors:
        given.write(stdin)
        given.seek(0)
        before, limit = resident(), address_space() + memory + SLACK
        child = os.fork()
        if not child:
            in_child(bench, [str(it) for it in words], [it.fileno() for it in (given, output, errors)], seconds, limit)
        _, status, used = os.wait4(child, 0)
        output.seek(0)
        errors.seek(0)
        return Done(os.waitstatus_to_exitcode(status), output.read(), errors.read(), used.ru_maxrss * 1024 - before)


def resident():
    """Returns the bytes of memory that this process has; a forked child begins with as many."""
    return pages()[1] * resource.getpagesize()


def address_space():
    """Returns the bytes of addresses that this process uses, also without memory; a forked child begins with as many."""
    return pages()[0] * resource.getpagesize()


def pages():
    """Returns the sizes of this process that Linux reports, in pages."""
    with open("/proc/self/statm", encoding="ascii") as file:
        return [int(it) for it in file.read().split()]


def load():
    """Imports what a child needs. Python reports a lack of memory while it compiles a module as various other errors."""
    if str(ROOT / "python") not in sys.path:
        sys.path.insert(0, str(ROOT / "python"))
    import elftools.dwarf.dwarfinfo  # noqa: F401
    import elftools.elf.elffile  # noqa: F401
    import jinja2  # noqa: F401
    import rvlook.cli
    for it in pkgutil.iter_modules(rvlook.cli.__path__):
        importlib.import_module("rvlook.cli." + it.name)


@lru_cache(maxsize=None)
def without_limit(bench):
    """Returns a script that runs the program without the memory limit, which an unproved program with a sanitizer exceeds."""
    path = os.path.join(tempfile.mkdtemp(prefix="rvlook"), "bench")
    with open(path, "w", encoding="utf-8") as file:
        file.write('#!/bin/sh\nulimit -S -v unlimited\nexec "%s" "$@"\n' % bench)
    os.chmod(path, 0o755)
    return path


def in_child(bench, words, files, seconds, limit):
    """Runs rvlook with these arguments, and ends the process. The limit is that of its addresses, in bytes."""
    status = 101
    try:
        signal.signal(signal.SIGALRM, signal.SIG_DFL)
        signal.alarm(HANG)
        resource.setrlimit(resource.RLIMIT_CPU, (seconds, seconds))
        resource.setrlimit(resource.RLIMIT_AS, (limit, resource.RLIM_INFINITY))
        for number, file in enumerate(files):
            os.dup2(file, number)
        os.environ.update(RVBENCH=without_limit(bench), TERM="dumb")
        sys.stdin, sys.stdout, sys.stderr = open(0, closefd=False), open(1, "w", closefd=False), open(2, "w", closefd=False)
        from rvlook.__main__ import main
        status = main(words)
        sys.stdout.flush()
    except BaseException:  # also what only the fork would show
        import traceback
        traceback.print_exc()
    finally:
        sys.stderr.flush()
        os._exit(status if isinstance(status, int) else 102)


def check(done, notes=()):
    """Checks the properties of every run: no traceback, an end in time, and lines after `rvlook: ` without control characters."""
    errors = done.errors.decode("utf-8", "replace")
    assert "Traceback" not in errors and "internal error" not in errors, errors
    assert done.status >= 0, "signal %d, %s" % (-done.status, errors)
    assert done.memory < MEMORY
    for line in errors.split("\n")[:-1]:
        assert line.startswith(("rvlook: ", "rvbench: ", *notes)), errors
        assert line.isprintable(), repr(line)
