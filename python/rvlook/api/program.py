"""A program: an image with its symbols and types, from which machines start."""
from __future__ import annotations

import html
import io
import os
from dataclasses import replace
from functools import cached_property
from typing import Dict, Optional, Sequence, Union

from rvlook.api.machine import Machine
from rvlook.api.places import Place, PlaceLike, Places
from rvlook.errors import RvlookError, SymbolError
from rvlook.image.detect import reason_for_monitor
from rvlook.image.files import image_of, script_of
from rvlook.image.symbols import symbols_from
from rvlook.image.types import Type, Types, types_of
from rvlook.output.printer import Printer
from rvlook.page.page import page_template, show_page
from rvlook.protocol.commands import error_text, resolved_script
from rvlook.protocol.memory_map import MONITOR_END
from rvlook.protocol.nearest import meant
from rvlook.protocol.run import Run, Setup, run_of
from rvlook.protocol.schedule import LONGEST, alternating, random_schedule

SEED = "seed "  # the prefix of a random schedule
RAM = 1 << 20  # the default size of the RAM in bytes
STEPS = 1000000  # the number of steps of a run that a finder examines


class Constants:
    """The enumeration constants of the sources, as attributes."""

    def __init__(self, known: Dict[str, int]) -> None:
        self.__dict__.update(known)

    def __getattr__(self, name: str) -> int:
        if name.startswith("__"):
            raise AttributeError(name)
        raise SymbolError("no constant '%s'%s" % (name, meant(name, self.__dict__, "a compiler leaves out an enumeration that no code uses")))


class Page:
    """The page of a whole run, which a notebook shows."""

    def __init__(self, run: Run) -> None:
        text = io.StringIO()
        show_page(run, run.setup.symbols, Printer(as_json=False, stream=text), page_template(), [run.setup.image.name], [])
        self.html = text.getvalue()  # the text

    def _repr_html_(self) -> str:
        """Returns the page as a frame."""
        return "<iframe width='100%%' height='600' srcdoc=\"%s\"></iframe>" % html.escape(self.html)


class Program:
    """An image that was loaded. `start` returns a new machine at the end of its script."""

    def __init__(self, run: Run, files: Sequence[str] = (), has_boot: bool = False) -> None:
        self.run, self.setup, self.symbols = run, run.setup, run.setup.symbols  # the run, its configuration and its symbols
        self.files = files  # the options of a command line that name files
        self.has_boot = has_boot  # whether `boot` was given, which no command line repeats

    @property
    def name(self) -> str:
        """The path of the image."""
        return self.setup.image.name

    @cached_property
    def types(self) -> Types:
        """The structures, variables, constants and inlined functions by name."""
        return types_of(self.setup.image)

    @cached_property
    def places(self) -> Places:
        """The places of the program by name."""
        return Places(self.symbols, self.types)

    @cached_property
    def constants(self) -> Constants:
        """The enumeration constants of the sources, as in `program.constants.OPEN`."""
        return Constants(self.types.constants)

    def start(self, schedule: Union[int, str, None] = None, interrupts: Optional[int] = None) -> Machine:
        """Starts a machine. Use it in a `with`.

        `schedule` is for two harts: the steps of a turn (1 to 32), digits that name harts and repeat (`"0011"`), or `"seed 3"`. Without it only
        the selected hart steps. `interrupts` N interrupts an enclave that the test enters before every Nth of its steps.
        Raises RvlookError for another schedule."""
        digits = schedule_of(schedule)
        if digits and self.setup.harts == 1:
            raise RvlookError("a schedule requires two harts; load the program with harts=2")
        return Machine(self, digits, interrupts)

    def place(self, where: PlaceLike) -> Place:
        """Returns the place of a name or an address. Raises SymbolError for an unknown name, with the most similar name."""
        return self.places.find(where)

    def structure(self, name: str) -> Type:
        """Returns the type of a structure. Raises SymbolError for an unknown name, with the most similar name."""
        if name not in self.types.structures:
            raise SymbolError("no structure '%s'%s" % (name, meant(name, self.types.structures, "build the program with -g")))
        return self.types.structures[name]

    def page(self) -> Page:
        """Returns the page of the run of the whole program (docs/LOOK.md, page). Raises Unfinished without jinja2."""
        return Page(self.run)


def schedule_of(schedule: Union[int, str, None]) -> str:
    """Returns a schedule as digits that repeat; empty for None. Raises RvlookError if the schedule is invalid."""
    if isinstance(schedule, int) and 1 <= schedule <= LONGEST // 2:
        return alternating(schedule)
    text = "" if schedule is None else str(schedule)
    if text.startswith(SEED) and text[len(SEED):].isdigit():
        return random_schedule(int(text[len(SEED):]))
    if isinstance(schedule, int) or set(text) - {"0", "1"}:
        raise RvlookError("invalid schedule %r; use 1 to 32 steps of a turn, digits 0 and 1, or 'seed N'" % (schedule,))
    return text


def load(image: Union[str, os.PathLike[str]], *, monitor: Optional[bool] = None, harts: int = 1, ram: int = RAM, symbols: Optional[str] = None,
         script: Optional[str] = None, boot: bool = False, steps: int = STEPS) -> Program:
    """Loads a program: an ELF file, raw bytes, or the text of an image for rvbench.

    `monitor` selects the proved monitor (True) or the bare machine (False); by default the image decides. `harts` is 1 or 2, `ram` the bytes of
    RAM. `symbols` is a file with symbols, if the image has none. `script` is a file of commands that run first. `boot` passes a0 and a1 to a
    monitor of your own (docs/OWN_MONITOR.md, Boot). `steps` bounds the runs that finders examine.
    Raises RvlookError for a file, an image or a script line that cannot be used."""
    data = image_of(os.fspath(image))
    names = symbols_from(symbols, data)
    lines = resolved_script(data.script + script_of(script), names)
    has_monitor = bool(reason_for_monitor(data, lines)) if monitor is None else monitor
    setup = Setup(data, lines, has_monitor, ram, kind="auto", harts=harts, limit=steps, symbols=names)
    if harts > 1 and not setup.monitor:
        raise RvlookError("two harts require the monitor of rvbench; load the program with monitor=True")
    if boot:
        setup = replace(setup, lines=setup.with_script(["setreg 10 %x" % MONITOR_END, "setreg 11 %x" % ram], steps).lines + setup.lines)
    run = run_of(setup)
    if run.errors:
        raise RvlookError("\n".join(error_text(line, reply, names) for line, reply in run.errors))
    files = [word for name, path in (("--symbols", symbols), ("--script", script)) if path is not None for word in (name, path)]
    return Program(run, files, boot)
