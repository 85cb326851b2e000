"""The descriptions that the debugger reads: the registers, by the features of RISC-V and one of rvbench; the memory map; and the harts."""
from __future__ import annotations

from xml.sax.saxutils import quoteattr
from typing import Iterable

from rvlook.protocol import names

ABI_KINDS = {"ra": "code_ptr", "sp": "data_ptr", "gp": "data_ptr", "tp": "data_ptr", "s0": "data_ptr"}
ROLES = {"sp": "sp", "s0": "fp", "ra": "ra", "pc": "pc"}  # the generic names that lldb has for registers
MODES = {"U": 0, "S": 1, "M": 3}  # the number of each mode, as the debugger shows it in `priv`
WORLDS = {**{"e%d" % slot: slot for slot in range(names.LAST_SLOT + 1)}, "host": names.LAST_SLOT + 1, "bare": names.LAST_SLOT + 2}
CORE_REGISTERS = [*names.ABI, "pc"]  # what `regs` shows, in its order
SAVED = ["ra", "sp", *("s%d" % number for number in range(12))]  # the registers with which the caller of a function continues
ENTERED = ["host_pc", *("host_" + name for name in SAVED)]  # the pc at which the host that entered the enclave continues, and its registers
REGISTERS = [*CORE_REGISTERS, *names.CSRS, "priv", "world", *ENTERED]
NUMBERS = {name: number for number, name in enumerate(REGISTERS)}
PC, PRIV, WORLD = (NUMBERS[name] for name in ("pc", "priv", "world"))
ARCHITECTURE, TRIPLE = "riscv:rv32", "riscv32-unknown-elf"

TARGET = """<?xml version="1.0"?><!DOCTYPE target SYSTEM "gdb-target.dtd">
<target version="1.0"><architecture>%s</architecture><osabi>none</osabi>
<feature name="org.gnu.gdb.riscv.cpu">%s</feature>
<feature name="org.gnu.gdb.riscv.csr">%s</feature>
<feature name="org.gnu.gdb.riscv.virtual">%s</feature>
<feature name="org.rvbench.world"><enum id="world" size="4">%s</enum>%s</feature></target>"""
MEMORY = """<?xml version="1.0"?><!DOCTYPE memory-map SYSTEM "gdb-memory-map.dtd">
<memory-map><memory type="ram" start="0x%x" length="0x%x"/></memory-map>"""


def register(name: str, kind: str = "int", more: str = "") -> str:
    """Returns the description of a register."""
    number = NUMBERS[name]
    if name in names.ABI:
        more += ' dwarf_regnum="%d"' % number
    if name in ROLES:
        more += ' generic="%s"' % ROLES[name]
    return '<reg name="%s" bitsize="32" regnum="%d" offset="%d" type="%s"%s/>' % (name, number, 4 * number, kind, more)


def target_text() -> str:
    """Returns target.xml."""
    core = "".join(register(name, "code_ptr" if name == "pc" else ABI_KINDS.get(name, "int")) for name in CORE_REGISTERS)
    csrs = "".join(register(csr, more=' group="csr" save-restore="no"') for csr in names.CSRS)
    values = "".join('<evalue name="%s" value="%d"/>' % entry for entry in WORLDS.items())
    own = register("world", "world", ' group="general" save-restore="no"')
    own += "".join(register(name, "code_ptr" if name == "host_pc" else "int", ' group="host" save-restore="no"') for name in ENTERED)
    return TARGET % (ARCHITECTURE, core, csrs, register("priv"), values, own)


def threads_text(lines: Iterable[str]) -> str:
    """Returns the list of harts with their descriptions."""
    threads = "".join('<thread id="%x" core="%d" name=%s/>' % (hart + 1, hart, quoteattr(line)) for hart, line in enumerate(lines))
    return '<?xml version="1.0"?><threads>%s</threads>' % threads
