"""The Python API of rvlook, for tests that authors write (docs/TESTS.md): load a program, run a machine, be its host, ask who can access what,
and call the finders. Only the names in the table of docs/TESTS.md are promised.

    from rvlook.api import exited, load

    with load("program.elf").start() as machine:
        enclave = machine.create()
        assert machine.rights("host", "region_base", 4096) == "---"
        assert enclave.run() == exited(42)
"""
from rvlook.api import find
from rvlook.api.building import build
from rvlook.api.find import Finding, Findings
from rvlook.api.host import EnclaveHandle
from rvlook.api.machine import Machine
from rvlook.api.places import Place
from rvlook.api.program import Program, load
from rvlook.api.stepper import Snapshot
from rvlook.api.values import AccessMap, CallResult, Ending, NotReached, Rights, Trap, exited, interrupted, refused, stopped
from rvlook.api.views import View
from rvlook.errors import RvlookError, SymbolError

__all__ = ["AccessMap", "CallResult", "EnclaveHandle", "Ending", "Finding", "Findings", "Machine", "NotReached", "Place", "Program", "Rights",
           "RvlookError", "Snapshot", "SymbolError", "Trap", "View", "build", "exited", "find", "interrupted", "load", "refused", "stopped"]
