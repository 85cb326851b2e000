"""Decodes the replies of the bench (docs/COMMANDS.md)."""
from __future__ import annotations

import re
from functools import lru_cache
from typing import AnyStr, Iterable, NamedTuple, Optional, Tuple

RAN = re.compile(r"ran (\d+) pc=(\w+) mode=(\w) world=(\w+) why=(\S+) trap=(\S+)")
RAN_FIELDS = re.compile(rb"ran 1 pc=(\w+) mode=(\w) world=(\w+) why=\S+ trap=(\S+)")  # finds pc, mode, world and trap in the reply to one step
ROW = 64  # the most bytes that one `mem` shows
NO_TRAP = b"-"  # the trap of a step that has none
RanFields = Tuple[bytes, bytes, bytes, bytes]  # the groups of RAN_FIELDS: pc, mode, world and trap


class Location(NamedTuple):
    """The position of a hart."""
    pc: str  # eight hexadecimal digits
    mode: str  # M, S or U
    world: str  # bare, host, or an enclave such as `e0`


class RanTrap(NamedTuple):
    """The trap of a step, from the field `trap=` of its reply."""
    cause: str  # mcause, eight hexadecimal digits
    value: str  # mtval, eight hexadecimal digits


class Ran(NamedTuple):
    """The decoded reply of `step` or `run`."""
    steps: int  # the number of steps that were done
    pc: str  # the pc after these steps, eight hexadecimal digits
    mode: str  # the mode after these steps
    world: str  # the world after these steps
    why: str  # why the steps ended
    trap: Optional[RanTrap]  # the trap of the last step; None without a trap


class Enclave(NamedTuple):
    """A line of `enclaves`."""
    slot: int  # the number of the slot
    state: str  # Fresh, Running, Stopped or Exited
    base: int  # first address of the region
    size: int  # the size of the region, bytes
    window: int  # first address of the window
    window_size: int  # bytes
    entry: int  # address of its first instruction
    measurement: str  # the measurement (SHA-256), 64 hexadecimal digits

    @property
    def world(self) -> str:
        """Returns the world of the enclave."""
        return "e%d" % self.slot

    def has(self, address: int) -> bool:
        """Returns whether an address is in the region."""
        return self.base <= address < self.base + self.size

    def shares(self, address: int) -> bool:
        """Returns whether an address is in the window."""
        return self.window <= address < self.window + self.window_size


class PmpEntry(NamedTuple):
    """A line of `pmp`."""
    cfg: int  # the byte of pmpcfg
    addr: int  # pmpaddr, in units of 4 bytes


@lru_cache(maxsize=4096)
def trap_of(text: str) -> RanTrap | None:
    """Decodes the text after `trap=`; returns None for a hyphen."""
    return None if text == "-" else RanTrap(*text.split(":"))


def ran_of(line: str) -> Ran | None:
    """Decodes the reply of `step` or `run`; returns None for an error."""
    match = RAN.fullmatch(line)
    return Ran(int(match[1]), match[2], match[3], match[4], match[5], trap_of(match[6])) if match else None


def step_of(line: str) -> Ran:
    """Decodes the reply of `step` or `run`; raises ValueError if it is an error."""
    ran = ran_of(line)
    if ran is None:
        raise ValueError(line)
    return ran


def enclave_of(line: str) -> Enclave:
    """Decodes a line of `enclaves`."""
    words = line.split()
    base, size, window, window_size, entry = (int(word, 16) for word in words[3:8])
    return Enclave(int(words[1]), words[2], base, size, window, window_size, entry, words[8])


def entry_of(line: str) -> PmpEntry:
    """Decodes a line of `pmp`."""
    cfg, addr = line.split()[2:]
    return PmpEntry(int(cfg[4:], 16), int(addr[5:], 16))


def value_of(line: AnyStr) -> int:
    """Decodes the reply of `reg` or `csr`, or a line of `regs`: a name, an equals sign and eight hexadecimal digits."""
    return int(line[-8:], 16)


def register_values(lines: Iterable[AnyStr]) -> list[int]:
    """Decodes the reply of `regs`: the values of x0 to x31 and pc."""
    return [int(line[-8:], 16) for line in lines]


def bytes_of(line: str) -> bytes:
    """Decodes a reply of `mem`: an address, a colon, and the bytes in hexadecimal digits."""
    return bytes.fromhex(line.split(":")[1])


def memory_commands(address: int, size: int) -> list[str]:
    """Returns the commands that show `size` bytes of memory, at most ROW bytes each."""
    return ["mem %x %d" % (address + at, min(ROW, size - at)) for at in range(0, size, ROW)]


def poke_commands(address: int, data: bytes) -> list[str]:
    """Returns the commands that store bytes in memory, one for each byte."""
    return ["poke %x %02x" % (address + n, byte) for n, byte in enumerate(data)]


def step_fields(data: bytes) -> list[RanFields]:
    """Decodes the replies to single steps: pc, mode, world and trap of each. Most replies of a run come many times."""
    lines = data.splitlines()
    return list(map({line: fields_of(line) for line in set(lines)}.__getitem__, lines))


@lru_cache(maxsize=1 << 18)
def fields_of(line: bytes) -> RanFields:
    """Decodes the reply to a single step."""
    match = RAN_FIELDS.fullmatch(line)
    assert match
    return match[1], match[2], match[3], match[4]
