"""A machine that runs a program: its state and memory, the ways to move it, the calls of the host, and who can access what."""
from __future__ import annotations

from typing import Any, List, Optional, TYPE_CHECKING

from rvlook.access.map import Cause, Event, EventFinder
from rvlook.api.host import MOST_WATCHED, WORD, EnclaveHandle, HostStepper, number_of
from rvlook.api.places import PlaceLike
from rvlook.api.stepper import UNTIL_THE_END, Snapshot
from rvlook.api.values import AccessMap, CallResult, Ending, Rights
from rvlook.api.views import View, bytes_for, value_of
from rvlook.api.writers import writer_of
from rvlook.errors import RvlookError
from rvlook.image.types import Type
from rvlook.protocol import names
from rvlook.protocol.bench_line import ended
from rvlook.protocol.nearest import meant
from rvlook.protocol.replies import Enclave, Location, enclave_of, poke_commands, register_values
from rvlook.protocol.timeline import Timeline, commands_of

if TYPE_CHECKING:
    from rvlook.api.program import Program

CREATE = ("region_base", "region_size", "window_base", "window_size", "enclave_entry")  # symbols of examples/shared/link.ld


class Registers:
    """The registers of the selected hart by name: `registers["a0"] = 1`, `registers["mepc"]`. Control and status registers are only read."""

    def __init__(self, machine: Machine) -> None:
        self.machine = machine  # the machine whose selected hart is read

    def __getitem__(self, name: str) -> int:
        if name == "pc":
            return self.machine.pc
        command = "reg %d" % names.NUMBER_OF[name] if name in names.NUMBER_OF else "csr %x" % csr_number(name)
        return register_values(self.machine.ask(command)[0])[0]

    def __setitem__(self, name: str, value: int) -> None:
        self.machine.do("setreg %d %x" % (number_of(name), value & 0xFFFFFFFF))


def csr_number(name: str) -> int:
    """Returns the number of a control and status register. Raises RvlookError for an unknown name, with the most similar name."""
    if name not in names.CSRS:
        raise RvlookError("no register '%s'%s" % (name, meant(name, [*names.NUMBER_OF, *names.CSRS])))
    return names.CSRS[name]


class Machine(HostStepper):
    """A machine at one step of its run. Use it in a `with`, which closes it. `trap` is the last trap since the last call that moved the machine, or
    None."""

    def __init__(self, program: Program, schedule: str = "", interrupts: Optional[int] = None, at: Optional[Snapshot] = None) -> None:
        super().__init__(program.setup, schedule, interrupts, at)
        self.program: Program = program  # the program that was loaded
        self.finder = EventFinder(program.run)  # reads access rights
        self.registers = Registers(self)  # the registers by name

    # ---- forward

    def step(self, count: int = 1) -> None:
        """Does steps of the selected hart, or of the schedule."""
        self.trap = None
        self.ask()
        if self.schedule:
            self.step_by(self.next_harts(count))
        else:
            self.timeline.set_stops(())
            while count > 0:
                count -= self.turn(count).steps
        self.read_consoles()

    def run_until(self, place: Optional[PlaceLike] = None, *, call: Optional[str] = None, world: Optional[str] = None,
                  touches: Optional[PlaceLike] = None, limit: Optional[int] = None) -> Machine:
        """Runs until one thing happens, and returns the machine. With `place` the next instruction is there, also at reset. With `call` a world has
        made this call of the monitor, and continues after it. With `world` the selected hart is in this world. With `touches` an instruction has
        loaded or stored a byte of this place.

        Raises NotReached, which says where the machine is instead, after `limit` steps (by default 10,000,000, or 200,000 with a schedule)."""
        if sum(goal is not None for goal in (place, call, world, touches)) != 1:
            raise RvlookError("run_until waits for one thing; give a place, call=, world= or touches=")
        if call is not None or world is not None:
            self.run_to_call(call, world, limit)
            return self
        addresses = self.addresses(place)
        if self.pc in addresses and not self.timeline.position:
            return self
        watched = self.watched(touches)
        ran = self.advance(addresses, watched, limit)
        if ran.why != "break" and not (ran.why.startswith("watch:") and int(ran.why[len("watch:"):], 16) in watched):
            self.fail("reaches %s" % place if place is not None else "touches %s" % touches, ran)
        return self

    def run(self, limit: Optional[int] = None) -> Ending:
        """Runs to the end of the program: finish(status), an endless loop, or a fault that no handler takes. Raises NotReached after
        `limit` steps."""
        ran = self.advance([UNTIL_THE_END], limit=limit)
        if self.status is not None:
            return Ending("finished", self.where, self.status)
        if ran.why == "break" or ran.why == "halted" and ran.trap:
            return Ending("fault", self.where)
        if ran.why != "halted":
            self.fail("ends", ran)
        return Ending("halted", self.where)

    def addresses(self, place: Optional[PlaceLike]) -> List[int]:
        """Returns the addresses of a place. Returns an empty list for None."""
        return [] if place is None else self.program.place(place).addresses

    def watched(self, place: Optional[PlaceLike]) -> List[int]:
        """Returns the addresses to watch for a place: each byte, or the first byte of each word if there are many. Returns an empty list for None.
        Raises RvlookError for a place that is too large."""
        if place is None:
            return []
        watched_place = self.program.place(place)
        size = watched_place.size or WORD
        stride = 1 if size <= MOST_WATCHED else WORD  # bytes from one watched byte to the next
        if size > MOST_WATCHED * stride:
            raise RvlookError("cannot watch %d bytes of %s; name a part of at most %d bytes" % (size, place, MOST_WATCHED * WORD))
        return [watched_place.address + n for n in range(0, size, stride)]

    def raise_timer(self, is_on: bool = True) -> None:
        """Sets or clears the pending timer interrupt of the selected hart."""
        self.do("timer on" if is_on else "timer off")

    # ---- calls of the host

    def create(self, region: PlaceLike = CREATE[0], size: PlaceLike = CREATE[1], window: PlaceLike = CREATE[2],
               window_size: PlaceLike = CREATE[3], entry: PlaceLike = CREATE[4]) -> EnclaveHandle:
        """Creates an enclave, and returns it; by default the one that the linker script names. Raises RvlookError if the monitor refuses it."""
        answer = self.call("create", region, size, window, window_size, entry)
        if answer.how != "done":
            raise RvlookError("the monitor refused create: %s" % answer)
        return EnclaveHandle(self, int(str(answer.value)))

    def call(self, name: str, *arguments: PlaceLike) -> CallResult:
        """Makes a call of docs/MONITOR.md as the host, with a0 to a4 as `arguments`, and returns the answer. Raises NotReached if a running
        enclave never gives one."""
        if name not in names.Call.__members__:
            raise RvlookError("no call '%s'; the calls are %s" % (name, ", ".join(names.Call.__members__)))
        values = {"a%d" % n: self.program.place(argument).address for n, argument in enumerate(arguments)}
        return self.ecall(**values, a6=names.Call[name].value, a7=names.KEY)

    def ecall(self, **registers: int) -> CallResult:
        """Executes an `ecall` of the host with these registers, and returns the answer. It serves calls that docs/MONITOR.md does not have: a0 of 0
        counts as `done` with a1, another a0 as `refused` with a0."""
        self.enter(registers)
        return self.answer()

    # ---- memory

    def __getitem__(self, path: PlaceLike) -> Any:
        place = self.program.place(path)
        if place.type.size:
            return value_of(self, place.address, place.type)
        if not place.size:
            raise RvlookError("the size of '%s' is unknown; use read(%r, SIZE)" % (path, path))
        return self.read(place.address, place.size)

    def __setitem__(self, path: PlaceLike, value: Any) -> None:
        place = self.program.place(path)
        kind = place.type if place.type.size else Type("bytes", place.size or len(value), element=Type("byte", 1))
        self.write(place.address, bytes_for(value, kind, str(path)))

    def read(self, place: PlaceLike, size: int) -> bytes:
        """Reads bytes, whatever the access rights are. Raises RvlookError outside the RAM."""
        return self.read_bytes(self.program.place(place).address, size)

    def write(self, place: PlaceLike, data: bytes) -> None:
        """Writes bytes, whatever the access rights are. Raises RvlookError outside the RAM."""
        self.do(*poke_commands(self.program.place(place).address, data))

    def view(self, structure: str, place: PlaceLike) -> View:
        """Returns a structure at a place, whose members are attributes: `view("request", "window_base").pin = b"27182818"`. Raises SymbolError if
        the place or the structure is unknown."""
        return View(self, self.program.place(place).address, self.program.structure(structure))

    # ---- access

    def access_map(self) -> AccessMap:
        """Returns the access rights of all worlds."""
        return AccessMap(self.event(), self.program.symbols)

    def event(self) -> Event:
        """Returns the present access rights as an event of `rvlook map`."""
        self.ask()
        self.finder.state = self.finder.state_of(self.timeline, self.timeline.worlds)
        return self.finder.event(self.steps, self.hart, Cause("now"), Location("%08x" % self.pc, self.mode, self.world))

    def rights(self, world: str, place: PlaceLike, size: Optional[int] = None) -> Rights:
        """Returns the rights of a world (on the bare machine, of a mode) to all `size` bytes of a place, such as `"rw-"`. The default size is that of
        the place, or 1. Different rights are joined by `/`. Raises RvlookError for a world that does not exist."""
        asked_place, event = self.program.place(place), self.event()
        first, end = asked_place.address, asked_place.address + (size or asked_place.size or 1)
        is_bare = event.columns[0].world == "bare"
        worlds = ["M", "S", "U"] if is_bare else [column.world for column in event.columns]
        if world not in worlds:
            raise RvlookError("no world '%s' after step %d; the worlds are %s" % (world, self.steps, ", ".join(dict.fromkeys(worlds))))
        texts_of_rows, all_rights = [], {}
        for row in (row for row in event.rows if row.range.first < end and first < row.range.end):
            rights_of_world = [rights for column in event.columns if is_bare or column.world == world
                               for mode, rights in row.may[column.name].items() if not is_bare or mode == world]
            all_rights.update(dict.fromkeys(rights_of_world))
            span, letters = "%08x-%08x" % (row.range.first, row.range.end - 1), "/".join(dict.fromkeys(rights_of_world))
            texts_of_rows.append("  ".join(filter(None, (span, letters, row.what))))
        if not texts_of_rows:
            raise RvlookError("%s is at %08x, outside the RAM" % (place, first))
        heading = "%s at %s, %08x-%08x, after step %d" % (world, asked_place.name, first, end - 1, self.steps)
        return Rights("/".join(all_rights), heading + ": " + "; ".join(texts_of_rows))

    @property
    def enclaves(self) -> List[Enclave]:
        """The table of the enclaves of the proved monitor, by slot. It is empty on the bare machine."""
        return [enclave_of(line) for line in self.ask("enclaves")[0]]

    def writer_of(self, place: PlaceLike) -> Optional[str]:
        """Returns what last stored the first byte of a place, as text: an instruction with its source line, step and world, or the test. None if
        nothing has. The run is repeated, which takes some 0.2 seconds."""
        return writer_of(self.setup, self.timeline.past, self.program.place(place).address)

    # ---- other times

    def restore(self, snapshot: Snapshot) -> Machine:
        """Returns to a snapshot: repeats the run from reset up to it. Returns the machine."""
        self.timeline.close()
        self.timeline = Timeline(self.setup, snapshot.past, snapshot.hart)
        self.take_over(snapshot)
        return self

    def fork(self) -> Machine:
        """Returns another machine at this point. Use it in a `with`."""
        return Machine(self.program, self.schedule, self.interrupts, self.snapshot())

    def script(self) -> str:
        """Returns the input of rvbench that repeats this run: the image, and a script with all steps and changes. Its first comment has the
        command."""
        lines = ["# rvbench %s < this file" % " ".join(self.setup.arguments()), *commands_of(self.timeline.past, 0, self.timeline.hart)]
        return (self.setup.image.text + b"--\n" + "".join(map(ended, lines)).encode("latin-1")).decode("latin-1")
