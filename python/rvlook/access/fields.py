"""Names of the fields of a window, from the structures to which the parameters of functions point."""
from __future__ import annotations

from typing import Sequence

from rvlook.access.activations import Activation
from rvlook.image.variables import Member, Parameter
from rvlook.protocol.replies import value_of
from rvlook.protocol.run import Run
from rvlook.protocol.symbols import Symbols

A0 = 10  # number of the register with the first argument


class WindowFields:
    """Names of the fields of a window. A field is a member of a structure to which an argument points."""
    def __init__(self, symbols: Symbols) -> None:
        self.symbols = symbols
        self.rows: list[tuple[int, Member]] = []  # address and member of each field; the first that fits names an address

    def add(self, address: int, members: tuple[Member, ...]) -> None:
        """Adds the members of the memory at an address, unless they are known. Members of unknown size (0) come last: they have no end."""
        if members and (address, members[0]) not in self.rows:
            rows = [(address + member.at, member) for member in members]
            self.rows = self.rows + rows if not members[0].size else rows + self.rows

    def name(self, address: int) -> str | None:
        """Returns the name of the field at an address, else a symbol, or None."""
        return self.known(address) or self.symbols.name(address)

    def member(self, address: int) -> tuple[int, Member] | None:
        """Returns the address and the member of the field at an address, or None."""
        return next(((at, row) for at, row in self.rows if at <= address < at + row.size), None)

    def known(self, address: int) -> str | None:
        """Returns the name of the field at an address, with the index of an array or an offset; None if no field is there."""
        for at, member in self.rows:
            if at <= address < at + member.size:
                offset = "+%x" % (address - at) if address > at else ""
                return member.name + (index_text((address - at) // member.element) if member.element else offset)
        for at, member in self.rows:
            if not member.size and at <= address:  # an array of unknown size
                return member.name + index_text((address - at) // member.element)
        return None


def index_text(index: int) -> str:
    """Returns an index in brackets."""
    return "[%d]" % index


class FieldReader:
    """Adds the fields that the calls of each activation of a run show."""
    def __init__(self, run: Run, parameters: Sequence[Parameter], fields: WindowFields) -> None:
        self.run, self.parameters, self.fields = run, parameters, fields  # `fields` receives the fields that are found
        self.read_functions: set[int] = set()  # functions whose arguments were read

    def read(self, activation: Activation) -> None:
        """Reads the arguments at the first call of each function in an activation."""
        functions = {parameter.function for parameter in self.parameters} - self.read_functions
        first_steps: dict[int, int] = {}
        for pc in (pc for pc in set(activation.pcs) if pc & -4 in functions):
            step = activation.steps[activation.pcs.index(pc)]
            first_steps[pc & -4] = min(step, first_steps.get(pc & -4, step))
        for step, function in sorted((step, function) for function, step in first_steps.items()):
            self.read_functions.add(function)
            with self.run.replay() as replay:
                replay.go(step - 1)
                for parameter in (parameter for parameter in self.parameters if parameter.function == function):
                    (reply,) = replay.bench.ask(*self.run.setup.choice(activation.hart), "reg %d" % (A0 + parameter.number))[-1]
                    value = value_of(reply)
                    if activation.enclave.shares(value):
                        self.fields.add(value, parameter.members)
