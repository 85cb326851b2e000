"""The location, the values and the copies of a secret. A secret is in the region of an enclave, written right after `create`; in the image,
written at reset; or in a register when an enclave first reaches an address. Its copies are maximal runs of bytes that the secret has in this
order."""
from __future__ import annotations

import random
import re
from contextlib import closing
from typing import Iterable, NamedTuple, Optional, Sequence

from rvlook.access.activations import Activations
from rvlook.access.map import Event, events
from rvlook.errors import RvlookError, Unfinished
from rvlook.protocol import names
from rvlook.protocol.memory_map import RAM_BASE
from rvlook.protocol.replies import poke_commands
from rvlook.protocol.run import End, Run
from rvlook.protocol.symbols import Symbols

REGISTER_AT = re.compile(r"(\w+)@(.+)\Z")
COUNT = re.compile(r"[0-9]{1,8}\Z")  # a number of bytes
CORNER_BYTES = (b"\0", b"\xff", b"\x7f", b"\x80", b"\x01", b"\x55", b"\xaa")  # the special values that each byte of a secret gets
WORD = 4  # bytes of a register
IN_IMAGE = "image:"  # begins the place of a secret that is written at reset
NEAR_INTERVAL = 3  # each pair with a number divisible by this has values that agree in a prefix
Bytes = bytes  # a member of Secret has that name
LEAST = 4  # the fewest bytes of a reported copy, unless the whole secret is shorter


class Secret(NamedTuple):
    """Bytes that are poked into memory after a step, or written to a register."""
    slot: int  # the slot of the enclave
    at: int  # the address; 0 for a register
    step: int  # the number of the step after which they are written
    bytes: Bytes  # the value; little-endian in a register
    register: int = 0  # the number of the register; 0 for memory
    hart: int = 0  # the hart of the register

    def lines(self) -> list[str]:
        """Returns the commands that set the secret."""
        if self.register:
            choice = ["hart %d" % self.hart] if self.hart else []
            return choice + ["setreg %d %x" % (self.register, int.from_bytes(self.bytes, "little"))]
        return poke_commands(self.at, self.bytes)

    def with_bytes(self, value: Bytes) -> Secret:
        """Returns the secret with another value."""
        return self._replace(bytes=value)

    def bytes_in(self, run: Run) -> Bytes:
        """Reads the value that the run itself gives."""
        with run.replay() as replay:
            replay.go(self.step)
            if self.register:
                return replay.bench.register(self.register).to_bytes(WORD, "little")
            return replay.bench.memory(self.at, len(self.bytes))

    def text(self) -> str:
        """Returns the location of the secret: a register or an address."""
        return names.abi_name(self.register) if self.register else "%08x" % self.at


def created(run: Run, slot: int) -> Event:
    """Returns the event at which the enclave of a slot is created. Raises Unfinished if the run creates no enclave in the slot."""
    event = next((event for event in events(run) if not isinstance(event, End) and event.cause == "create" and event.slot == slot), None)
    if event is None:
        raise Unfinished("no enclave is created in slot %d" % slot)
    return event


def place_and_size(text: str, symbols: Symbols) -> tuple[int, int | None]:
    """Parses PLACE or PLACE:BYTES. Returns the address, and the size: BYTES, else that of the symbol, else None. Raises RvlookError if the place is
    neither an address nor a symbol."""
    name, _, count = text.partition(":")
    at = symbols.address(name)
    if at is None or count and not COUNT.match(count):
        raise RvlookError("'%s' is neither a hexadecimal address nor a symbol" % text)
    symbol = symbols.by_name.get(name)
    size = symbol.size or None if symbol else None
    return at, int(count) if count else size


def secret_of(text: str, symbols: Symbols, run: Run, slot: int, size: int | None = None) -> Secret:
    """Returns the secret that --at names, all zeros. `size` is the length of the given values; None without values. Raises RvlookError if the size
    is unknown, or if the bytes are outside the RAM or the region."""
    register = REGISTER_AT.match(text)
    if register and register[1] in names.NUMBER_OF and text.split("@")[0] not in symbols.by_name:
        return register_secret(register, symbols, run, slot)
    is_image = text.startswith(IN_IMAGE)
    at, own_size = place_and_size(text[len(IN_IMAGE):] if is_image else text, symbols)
    count = size or own_size
    if not count:
        raise RvlookError("the size of '%s' is unknown; use --at PLACE:BYTES" % text)
    if is_image:
        return Secret(slot, at, 0, bytes(count))
    if not run.setup.monitor:  # any bytes of RAM, which are set after the script
        if not RAM_BASE <= at <= at + count <= RAM_BASE + run.setup.ram:
            raise RvlookError("the bytes at %08x are outside the RAM" % at)
        return Secret(0, at, run.length, bytes(count))
    event = created(run, slot)
    enclave = next(enclave for enclave in event.enclaves if enclave.slot == slot)
    if not enclave.base <= at <= at + count <= enclave.base + enclave.size:
        raise RvlookError("the bytes at %08x are outside the region of e%d" % (at, slot))
    return Secret(slot, at, event.step, bytes(count))


def register_secret(match: re.Match[str], symbols: Symbols, run: Run, slot: int) -> Secret:
    """Returns the secret in a register when the enclave first reaches an address. Raises Unfinished if the enclave never reaches the address."""
    pc, _ = place_and_size(match[2], symbols)
    with closing(Activations(run).all()) as activations:
        for activation in activations:
            steps = (step for step, step_pc in zip(activation.steps, activation.pcs) if step_pc & -4 == pc and activation.slot == slot)
            first = next(steps, None)
            if first is not None:
                return Secret(slot, 0, first - 1, bytes(WORD), names.NUMBER_OF[match[1]], activation.hart)
    raise Unfinished("the enclave in slot %d never reaches %08x" % (slot, pc))


class Pair(NamedTuple):
    """Two secrets whose runs are compared."""
    number: int  # the number of the pair, from 1
    first: Optional[Bytes]  # None: the secret of the program itself
    second: Bytes  # a secret that was drawn


def drawn_pairs(own: bytes, guesses: Sequence[bytes], seed: int, first: int, last: int) -> list[Pair]:
    """Returns the pairs with numbers `first` to `last` of an endless list. Every third pair has two values that agree in prefixes of different length
    with the secret itself or with a guess of the host, and equal neither. The other pairs compare the secret with the values of `drawn`."""
    values, rng = iter(drawn(len(own), seed, last)), random.Random(seed)
    pairs = []
    for number in range(1, last + 1):
        turn = number // NEAR_INTERVAL - 1
        if number % NEAR_INTERVAL == 0:
            near = guesses[turn // 2 % len(guesses)] if turn % 2 and guesses else own
            pairs.append(Pair(number, *near_pair(near, turn, rng)))
        else:
            value = next(values)
            pairs.append(Pair(number, first=None, second=value if value != own else bytes(byte ^ 0xA5 for byte in own)))
    return pairs[max(0, first - 1):]


def near_pair(value: bytes, turn: int, rng: random.Random) -> tuple[bytes, bytes]:
    """Returns two values that differ from `value` in one byte each: in turns 0 to 3 in its first and in its last byte, later in random bytes."""
    last = len(value) - 1
    indices = (0, last) if turn < 4 else sorted(rng.sample(range(last + 1), min(2, last + 1)))
    changed = [value[:index] + bytes([value[index] ^ rng.randrange(1, 256)]) + value[index + 1:] for index in indices]
    if changed[0] == changed[-1]:
        changed[-1] = value[:-1] + bytes([changed[0][-1] ^ 0xFF])
    return changed[0], changed[-1]


def drawn(size: int, seed: int, count: int) -> list[bytes]:
    """Returns the first `count` values, of `size` bytes each, of an endless list: corner values, then single bits and random values in turn."""
    rng = random.Random(seed)
    values = [corner * size for corner in CORNER_BYTES] + [bytes([1]) + bytes(size - 1), bytes(size - 1) + b"\x80"]
    bits = [1 << n for n in range(8 * size)]
    rng.shuffle(bits)
    for number in range(count - len(values)):
        value = rng.getrandbits(8 * size) if number % 2 else bits[number // 2 % len(bits)]
        values.append(value.to_bytes(size, "little"))
    return values[:count]


class Copy(NamedTuple):
    """Bytes that equal a part of the secret."""
    at: int  # index of the first byte in the data
    size: int  # number of bytes
    offset: int  # the offset of the equal part in the secret


def copies_in(data: bytes, secret: bytes) -> list[Copy]:
    """Returns the copies of parts of the secret in data, by index, without parts of equal bytes and parts that a longer copy covers."""
    least = min(LEAST, len(secret))
    copies: list[Copy] = []
    ends: dict[int, int] = {}  # the end of the last copy, by the difference of its index in the data and its offset in the secret
    for offset in range(len(secret) - least + 1):
        part = secret[offset:offset + least]
        at = data.find(part) if len(set(part)) > 1 else -1
        while at >= 0:
            if ends.get(at - offset, -1) < at + least:  # not in the last copy with this distance
                copy = extended(data, secret, at, offset, least)
                ends[at - offset] = copy.at + copy.size
                copies.append(copy)
            at = data.find(part, at + 1)
    return not_covered(copies)


def short_copies_in(data: bytes, other: bytes, secret: bytes) -> list[Copy]:
    """Returns the copies that `copies_in` leaves out, because they are short or have equal bytes. Their complements are in `other`, the same bytes
    of a run with the complement of the secret."""
    least = min(LEAST, len(secret))
    copies = []
    for at, (value, other_value) in enumerate(zip(data, other)):
        offset = secret.find(bytes([value])) if value ^ other_value == 0xFF else -1
        while offset >= 0:
            size = 1
            while data[at + size:at + size + 1] == secret[offset + size:offset + size + 1] != b"" and data[at + size] ^ other[at + size] == 0xFF:
                size += 1
            copies.append(Copy(at, size, offset))
            offset = secret.find(bytes([value]), offset + 1)
    return [copy for copy in not_covered(copies) if copy.size < least or len(set(data[copy.at:copy.at + copy.size])) == 1]


def extended(data: bytes, secret: bytes, at: int, offset: int, size: int) -> Copy:
    """Extends a copy of `size` bytes, at index `at` of the data and at `offset` of the secret, in both directions as far as the bytes are equal."""
    while at and offset and data[at - 1] == secret[offset - 1]:
        at, offset, size = at - 1, offset - 1, size + 1
    while at + size < len(data) and offset + size < len(secret) and data[at + size] == secret[offset + size]:
        size += 1
    return Copy(at, size, offset)


def not_covered(copies: Iterable[Copy]) -> list[Copy]:
    """Returns the copies that no longer copy covers. If copies are at the same bytes, returns the one with the lowest offset."""
    remaining, end = [], -1
    for copy in sorted(copies, key=lambda it: (it.at, -it.size, it.offset)):
        if copy.at + copy.size > end:
            remaining.append(copy)
            end = copy.at + copy.size
    return remaining
