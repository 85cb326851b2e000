"""Replays a final state of `races` on rvbench before it is reported. Compares registers, control registers, modes, worlds, PMP entries, the enclave
table, and each byte of RAM. Also writes its schedule as an input of rvbench."""
from __future__ import annotations

import os
from typing import Iterable, Iterator, Sequence

from rvlook.errors import RvlookError
from rvlook.escapes import visible
from rvlook.finders.outcomes import Bytes, Observed, Register
from rvlook.finders.races.final_states import FinalState
from rvlook.finders.races.machine import Memory, RaceMachine, commands_of
from rvlook.protocol.bench import Bench
from rvlook.protocol.bench_line import ended
from rvlook.protocol.jobs import results_of
from rvlook.protocol.memory_map import RAM_BASE
from rvlook.protocol.replies import ROW, memory_commands, step_of
from rvlook.protocol.run import Setup

LONGEST_COMMENT = 118  # characters of a comment after `# `; rvbench takes lines of at most 120


class Replays:
    """Replays the schedules of final states on rvbench, and compares the states that they lead to."""
    def __init__(self, machine: RaceMachine) -> None:
        self.machine, self.process = machine, os.getpid()  # `process`: the id of the process that owns the benches
        self.rows: list[str] = []  # the replies of `mem` for all RAM after the script; empty before they are read
        self.ram_commands = memory_commands(RAM_BASE, machine.setup.ram)  # read all RAM

    def ram(self, bench: Bench) -> list[str]:
        """Reads all rows of RAM."""
        return [reply.decode() for reply in bench.replies_to(self.ram_commands)]

    def check_all(self, ends: Sequence[FinalState], jobs: int) -> Iterator[int]:
        """Replays final states in `jobs` processes; yields the index of each. Raises RvlookError if the bench comes to another state."""
        if jobs > 1 and len(ends) > 1:
            with self.machine.bench_after_script() as bench:
                self.rows = self.ram(bench)  # once, for all processes

        def check(index: int) -> int:
            if self.process != os.getpid():
                self.process = os.getpid()
                self.machine.reopen()
            self.check(ends[index])
            return index

        return results_of(check, len(ends), jobs)

    def check(self, end: FinalState) -> None:
        """Replays a final state, and its round twice; raises RvlookError if the bench comes to another state."""
        machine = self.machine
        with machine.bench_after_script() as bench:
            self.rows = self.rows or self.ram(bench)
            self.run_and_compare(bench, end, commands_of(end.schedule(), machine.hart_count))
            for _ in range(2 if end.round else 0):
                self.run_and_compare(bench, end, commands_of(end.round, machine.hart_count))

    def run_and_compare(self, bench: Bench, end: FinalState, commands: Sequence[str]) -> None:
        """Runs commands that lead to a final state, and compares the state after them."""
        machine, state, chosen_hart, reached = self.machine, end.state, 0, {}
        for command, lines in zip(commands, bench.ask(*commands)):
            if command.startswith("hart "):
                chosen_hart = int(command[5:])
            if command.startswith("step"):
                ran = step_of(lines[0])
                reached[chosen_hart] = ran.mode, ran.world
        for hart in range(machine.hart_count):
            number, pc, registers = machine.harts[state.harts[hart]]
            context = machine.contexts[number]
            registers_and_csrs = machine.registers_and_csrs(bench.ask(*machine.setup.choice(hart), "regs", *machine.context_commands))
            self.expect(end, registers_and_csrs, ((*registers, pc), context.csrs))
            self.expect(end, reached.get(hart, (context.mode, context.world)), (context.mode, context.world))
        self.expect(end, tuple(bench.ask("enclaves")[0]), machine.tables[state.table][0])
        self.expect(end, self.ram(bench), self.expected_rows(machine.memories[state.memory]))

    def expected_rows(self, memory: Memory) -> list[str]:
        """Returns the replies of `mem` for all RAM in a state with this memory: those after the script, with the rows of changed bytes replaced."""
        rows = list(self.rows)
        for row in {(address - RAM_BASE) // ROW for address in memory}:
            row_address = RAM_BASE + ROW * row
            row_bytes = self.machine.bytes_at(memory, row_address, ROW) or ()
            rows[row] = "%08x: %s" % (row_address, " ".join("%02x" % byte for byte in row_bytes))
        return rows

    @staticmethod
    def expect(end: FinalState, actual: object, expected: object) -> None:
        """Raises RvlookError if a value that the bench shows differs from the value in the search."""
        if actual != expected:
            raise RvlookError("the replay of final state %d on rvbench differs from the search: a dependency was missed" % end.number)


def questions_of(outcome: Observed, setup: Setup) -> list[str]:
    """Returns the commands of rvbench that show a part of the outcome."""
    if isinstance(outcome, Bytes):
        return memory_commands(outcome.at, outcome.count)
    if isinstance(outcome, Register):
        return [*setup.choice(outcome.hart), "reg %d" % outcome.number]
    return ["enclaves"]


def comment(text: str) -> str:
    """Returns a comment that the bench takes: one line of at most 120 printable ASCII characters."""
    return "# " + visible(text).encode("ascii", "backslashreplace").decode("ascii")[:LONGEST_COMMENT]


def input_of(setup: Setup, lines: Iterable[str], heading: str, *more: str) -> bytes:
    """Returns an input of the bench: the image, a heading and further comments, and the lines of a script."""
    all_lines = [*map(comment, (heading, *more)), *lines]
    return setup.image.text + b"--\n" + "".join(map(ended, all_lines)).encode("latin-1", "replace")


def command_of(setup: Setup) -> str:
    """Returns the command that runs an input of the bench."""
    return "./rvbench %s < this file" % " ".join(setup.arguments())


def script_of(machine: RaceMachine, end: FinalState, outcome: Sequence[Observed], heading: str) -> bytes:
    """Returns an input of the bench that replays the schedule of a final state, and shows its outcome."""
    setup = machine.setup
    lines = machine.lines_of_script() + commands_of(end.schedule(), machine.hart_count)
    if end.round:
        lines += ["# the loop that may repeat forever, twice"] + 2 * commands_of(end.round, machine.hart_count)
    for observed in outcome:
        lines += questions_of(observed, setup)
    return input_of(setup, lines, heading, command_of(setup))
