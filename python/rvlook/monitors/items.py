"""The items of a script for two monitors. Each is done where the hart is: an instruction is put at pc, registers are set, and one step is done.
The rest of a script therefore keeps a meaning if an item is left out."""
from __future__ import annotations

import random
from functools import partial
from typing import NamedTuple

from rvlook.monitors.encodings import ECALL, NOP, SRET, csrr, csrw, jump, load, store
from rvlook.protocol.names import CSRS, KEY, NUMBERED, Call

MASK = 0xFFFFFFFF  # a word with all bits set
SSTATUS_VALUES = (0x100, 0x20, 2, 0x80000, 0, 0x122, 0x80122)  # values of sstatus with each of SIE, SPIE, SPP and MXR
T0, T1, T2 = 5, 6, 7  # registers that the instructions of the items use


class Item(NamedTuple):
    """One item of a script. The parts are done in the order of the fields `data`, `registers`, `word`, `line` and `steps`."""
    text: str  # the description of the item in a report
    word: int | None = None  # instruction that is poked at pc; None: the instruction there stays
    registers: tuple[tuple[int, int], ...] = ()  # number and value of each register that is set
    line: str = ""  # the new value of the timer line, on or off; empty: unchanged
    data: tuple[tuple[int, bytes], ...] = ()  # address and bytes that are poked
    steps: int = 1  # single steps that are done at the end: 0 or 1

    @property
    def call_number(self) -> int | None:
        """Returns a6 of a call, or None."""
        return dict(self.registers).get(16) if self.word == ECALL else None


def call(number: int, key: int = KEY, **arguments: int) -> Item:
    """Returns a call of the monitor; the arguments have their ABI names, a0 to a4."""
    registers = {int(name[1:]) + 10: value & MASK for name, value in arguments.items()}
    shown = " ".join("%s=%x" % (name, value & MASK) for name, value in arguments.items())
    name = NUMBERED[number].name if number in NUMBERED else "call %x" % (number & MASK)
    text = "%s %s" % (name, shown) + ("" if key == KEY else " a7=%x" % key)
    return Item(text.rstrip(), ECALL, tuple({**registers, 16: number & MASK, 17: key}.items()))


def create(base: int, size: int, window: int = 0, window_size: int = 0, entry: int | None = None) -> Item:
    """Returns a create; the entry is the region's base by default."""
    return call(Call.create, a0=base, a1=size, a2=window, a3=window_size, a4=base if entry is None else entry)


def call_with(number: Call, value: int) -> Item:
    """Returns a call of the monitor with one argument: a slot, or the value of an enclave that stops or exits."""
    return call(number, a0=value)


destroy, run, resume, stop, leave = (partial(call_with, call) for call in (Call.destroy, Call.run, Call.resume, Call.stop, Call.exit))


def measure(address: int, slot: int = 0) -> Item:
    """Returns a measure: the monitor stores the measurement of the enclave in a slot at an address."""
    return call(Call.measure, a0=slot, a1=address)


def instruction(text: str, word: int, **registers: int) -> Item:
    """Returns an item that executes an encoded instruction, after it has set `registers`, whose names are x1 to x31."""
    return Item(text, word, tuple((int(name[1:]), value & MASK) for name, value in registers.items()))


def set_csr(name: str, value: int) -> Item:
    """Returns an item that writes a value to a control and status register by csrw, from t0."""
    return instruction("csrw %s, %x" % (name, value), csrw(CSRS[name], T0), x5=value)


def get_csr(name: str) -> Item:
    """Returns a read of a control and status register into t1."""
    return instruction("csrr t1, %s" % name, csrr(T1, CSRS[name]))


def load_at(address: int, target: int = T2, width: int = 2) -> Item:
    """Returns a load of 1 << width bytes from an address, which t1 gets, into the register with number `target`."""
    return instruction("load %d bytes at %x" % (1 << width, address & MASK), load(target, T1, width), x6=address)


def store_at(address: int, source: int = T2, width: int = 2) -> Item:
    """Returns a store of 1 << width bytes of the register with number `source` to an address, which t1 gets."""
    return instruction("store %d bytes at %x" % (1 << width, address & MASK), store(source, T1, width), x6=address)


def jump_to(address: int) -> Item:
    """Returns a jump to an address, which t0 gets."""
    return instruction("jump to %x" % (address & MASK), jump(T0), x5=address)


def sret() -> Item:
    """Returns an sret."""
    return instruction("sret", SRET)


def nop() -> Item:
    """Returns a nop."""
    return instruction("nop", NOP)


def ecall_from_user(number: int) -> Item:
    """Returns an ecall with the registers of a call of the monitor, for U, whose ecalls are no calls of the monitor."""
    return instruction("ecall, a6=%x" % number, ECALL, x17=KEY, x16=number)


def set_registers(name: str) -> Item:
    """Returns an item that gives x1 to x31 random values, which the name determines."""
    draw = random.Random("registers %s" % name)
    return Item("set x1 to x31 (%s)" % name, None, tuple((n, draw.getrandbits(32) | 1) for n in range(1, 32)), steps=0)


def set_all(value: int) -> Item:
    """Returns an item that gives x1 to x31 one value."""
    return Item("set x1 to x31 to %x" % value, None, tuple((n, value) for n in range(1, 32)), steps=0)


def set_supervisor(name: str, stvec: int) -> list[Item]:
    """Returns items that give the S-mode registers random values, which the name determines."""
    draw = random.Random("supervisor %s" % name)
    values = {"stvec": stvec, "sscratch": draw.getrandbits(32), "sepc": draw.getrandbits(32) & ~3, "scause": draw.getrandbits(32),
              "stval": draw.getrandbits(32), "sstatus": draw.choice(SSTATUS_VALUES)}
    return [set_csr(csr, value) for csr, value in values.items()]


def poke(address: int, data: bytes) -> Item:
    """Returns an item that changes memory without a step."""
    return Item("poke %d bytes at %x" % (len(data), address), data=((address, data),), steps=0)


def timer(is_on: bool) -> Item:
    """Returns an item that raises or lowers the timer line without a step."""
    state = "on" if is_on else "off"
    return Item("timer " + state, line=state, steps=0)
