"""The scripts of `conform`. The directed ones have every call, every refusal, every state, every switch, and the boundaries of all ranges. Each
refusal comes alone, and in each pair with the next ones, which shows the order. Large scripts have regions and windows of every size that fits the
RAM, corner values in all registers, and many calls.

In a random script, each item depends on the worlds and on the enclave table of the reference at that point."""
from __future__ import annotations

import random
from typing import Iterator, NamedTuple, Sequence

from rvlook.monitors.encodings import EBREAK, MRET, csrr, csrw, jump, load, store
from rvlook.monitors.items import (MASK, Item, call, create, destroy, ecall_from_user, get_csr, instruction, jump_to, leave, load_at, measure, nop,
                                   poke, resume, run, set_all, set_csr, set_registers, set_supervisor, sret, stop, store_at, timer)
from rvlook.protocol.memory_map import MONITOR_END, RAM_BASE
from rvlook.protocol.names import CSRS, KEY
from rvlook.protocol.replies import Enclave

PAGE = 0x1000  # bytes of the smallest region or window
HOST = MONITOR_END  # the address at which the host begins
HOST_HANDLER, HANDLER = HOST + 0x800, 0x800  # stvec of the host, and of an enclave, from its base on
WINDOW, OTHER_WINDOW = 0x80012000, 0x80013000  # two windows
FIRST, SECOND, THIRD = 0x80014000, 0x80018000, 0x8001C000  # bases of three regions
WIDE = 0x80020000  # the region of a larger enclave
SUPERVISOR_CSRS = ("stvec", "sscratch", "sepc", "scause", "stval", "sstatus")  # the S-mode registers that a script reads after a switch
FAULTS = (("illegal instruction", 0), ("ebreak", EBREAK), ("mret", MRET), ("csrr mstatus", csrr(7, CSRS["mstatus"])),
          ("csrw pmpcfg0", csrw(CSRS["pmpcfg0"], 7)), ("csrw mie", csrw(CSRS["mie"], 7)), ("csrr mscratch", csrr(7, CSRS["mscratch"])),
          ("load from 0", load(7, 0)), ("store to 0", store(7, 0)), ("jump to 2", jump(0, 2)), ("jump to 0", jump(0)))
HOST_SIZE = 16 * PAGE  # bytes that the host has before the first large block
CORNER_VALUES = (0, 1, 0x7F, 0x80, 0x7FFF, 0x8000, 0x7FFFFFFF, 0x80000000, 0x80000001, 0xFFFF0000, MASK, RAM_BASE + PAGE, HOST, FIRST)
MANY_CREATES, MANY_CALLS = 260, 1030  # more than eight bits count, and more than ten
VALID_CREATE = {"a0": FIRST, "a1": PAGE, "a2": WINDOW, "a3": PAGE, "a4": FIRST}  # base and size of region and window, and entry
ODD_SIZE = 0x1800  # no power of two, which the size of a region or window must be
INVALID_SLOTS = (1, 12, 13, 14, 16, 32, 64, 0x80000000, MASK, 0x100, 0x10000000)
BOUNDARY_OFFSETS = (-33, -32, -31, -30, -16, -2, -1, 0, 1, 31)  # bytes around a boundary, for the 32 bytes of a measurement
ITEM_WEIGHTS = {"call": 50, "access": 16, "csr": 8, "registers": 5, "sret": 4, "fault": 6, "timer": 6, "jump": 5}  # the weights of the kinds of items
CSRS_SET = ("sscratch", "sepc", "scause", "stval", "sstatus", "sie", "sip", "satp", "scounteren")
STATES = {"run": ("Fresh",), "resume": ("Stopped",)}  # the states of an enclave for which a call is valid
ANY_STATE = ("Fresh", "Stopped", "Exited")  # the same for other calls
RANDOM_CALLS = ("create", "create", "run", "run", "resume", "resume", "resume", "destroy", "measure", "odd")
MAX_ENCLAVES = 13  # the number of slots


def host() -> list[Item]:
    """Returns items that give the registers of the host values of its own."""
    return set_up(HOST, "host")


def set_up(base: int, name: str) -> list[Item]:
    """Returns items that give the running world register values that `name` determines, and a trap handler (stvec) in its memory from `base` on."""
    return [*set_supervisor(name, base + HANDLER), set_registers(name)]


def create0() -> Item:
    """Returns the create, into slot 0, that most scripts use."""
    return create(FIRST, PAGE, WINDOW, PAGE)


def directed_scripts(ram: int) -> Iterator[tuple[str, list[Item]]]:
    """Yields the name and the items of each script, for a RAM of this many bytes."""
    ram_end = RAM_BASE + ram
    yield "reset", [nop(), nop()]
    yield "three creates", [*host(), poke(FIRST, bytes(range(256)) * 16), create0(), create(SECOND, PAGE),
                            create(THIRD, PAGE, WINDOW, PAGE, THIRD + 0xFFC)]
    for scripts in (life_scripts, user_scripts, measured_scripts, slot_scripts, window_scripts, interrupt_scripts, exception_scripts, access_scripts):
        yield from scripts()
    yield from size_scripts(ram_end)


def life_scripts() -> Iterator[tuple[str, list[Item]]]:
    """Yields scripts that take enclaves through their states."""
    yield "run, stop, resume", [*host(), create0(), set_registers("1"), run(0), set_registers("2"), stop(0x1234), set_registers("3"), resume(0),
                                nop(), stop(7)]
    yield "run, exit", [*host(), create0(), set_registers("1"), run(0), *set_up(FIRST, "2"), leave(0x4321), nop(), resume(0), run(0)]
    yield "S-mode registers", [*host(), create0(), run(0), *set_up(FIRST, "e0"), stop(1), *set_supervisor("9", HOST_HANDLER), set_registers("9"),
                               resume(0), *map(get_csr, SUPERVISOR_CSRS), stop(2), resume(0), leave(3)]
    yield "two enclaves in turns", [
        *host(), create(FIRST, PAGE, WINDOW, PAGE), create(SECOND, PAGE, WINDOW, PAGE), run(0), *set_up(FIRST, "a"), stop(1), run(1),
        *set_up(SECOND, "b"), stop(2), set_registers("h2"), resume(0), nop(), timer(is_on=True), nop(), resume(1), nop(), stop(3), resume(0), stop(4),
        resume(1), leave(5), resume(0), leave(6), destroy(1), destroy(0)]
    yield "destroy zeroes the region", [*host(), poke(FIRST, b"\x5a" * PAGE), create0(), destroy(0), load_at(FIRST), load_at(FIRST + PAGE - 4)]
    yield "destroy of a stopped enclave, and another in its slot", [
        *host(), create0(), run(0), *set_up(FIRST, "x"), store_at(FIRST + 0x500), stop(1), destroy(0), create(SECOND, PAGE), run(0), nop(), stop(2),
        resume(0), nop(), leave(1), destroy(0), create(FIRST, 2 * PAGE), run(0), stop(9)]
    yield "exit, destroy, create again", [*host(), create0(), run(0), *set_up(FIRST, "x"), leave(2), destroy(0), create0(), run(0), stop(1),
                                          resume(0), leave(0)]


def user_scripts() -> Iterator[tuple[str, list[Item]]]:
    """Yields scripts with U, of an enclave and of the host."""
    to_user = [set_csr("sepc", FIRST + 0x100), set_csr("sstatus", 0), sret()]
    yield "an application in U", [*host(), create0(), run(0), *set_up(FIRST, "u"), *to_user, nop(), timer(is_on=True), nop(), set_registers("4"),
                                  resume(0), nop(), ecall_from_user(6), stop(5), resume(0), timer(is_on=True), nop(), resume(0), leave(1)]
    faults = [item for name, word in FAULTS for item in (*to_user, instruction(name, word), nop())]
    yield "exceptions of an application", [*host(), create0(), run(0), *set_up(FIRST, "u"), *faults, stop(1)]
    to_host_user = [set_csr("sepc", HOST + 0x400), set_csr("sstatus", 0), sret()]
    host_faults = [item for name, word in FAULTS for item in (*to_host_user, instruction(name, word), nop())]
    yield "exceptions of a process of the host", [*host(), create0(), *host_faults, *to_host_user, nop(), ecall_from_user(1), nop()]
    yield "calls from U", [*host(), create0(), *(item for number in range(9) for item in (*to_host_user, ecall_from_user(number))), run(0),
                           *set_up(FIRST, "u"), *(item for number in range(9) for item in (*to_user, ecall_from_user(number))), stop(1)]


def measured_scripts() -> Iterator[tuple[str, list[Item]]]:
    """Yields scripts whose measurements differ in one byte of the region, or in one number."""
    for at in (0, 1, 0x7FF, 0xFFE, 0xFFF):
        yield "measured byte %x" % at, [*host(), poke(FIRST + at, b"\x01"), create0(), measure(WINDOW), run(0), measure(WINDOW + 64)]
    for numbers in ((FIRST, PAGE, WINDOW, PAGE, FIRST + 4), (FIRST, PAGE, WINDOW, 2 * PAGE, FIRST), (FIRST, 2 * PAGE, WINDOW, PAGE, FIRST),
                    (FIRST, PAGE, 0, 0, FIRST), (FIRST, PAGE, OTHER_WINDOW, PAGE, FIRST), (FIRST, PAGE, 0x80, 0, FIRST)):
        yield "measured numbers %x %x %x %x %x" % numbers, [
            *host(), create(*numbers), measure(HOST + 0x400), run(0), store_at(FIRST + 0x40), measure(FIRST + 0x80), stop(0), measure(HOST + 0x440)]


def slot_scripts() -> Iterator[tuple[str, list[Item]]]:
    """Yields scripts with thirteen enclaves."""
    creates = [create(0x80014000 + n * PAGE, PAGE, WINDOW, PAGE) for n in range(13)]
    yield "thirteen enclaves, some of them run", [
        *host(), *creates[:12], run(6), *set_up(0x8001A000, "s"), stop(1), run(2), leave(2), run(8), timer(is_on=True), nop(), creates[12], run(6),
        resume(6), nop(), stop(3), run(2), resume(8), leave(1), destroy(2), creates[2]]
    yield "thirteen enclaves", [*host(), *creates, run(12), *set_up(0x80020000, "t"), stop(1), run(3), stop(2), destroy(12), destroy(5), destroy(2),
                                create(0x80016000, PAGE), create(0x80019000, PAGE), create(0x80020000, PAGE), resume(3), leave(1)]


def window_scripts() -> Iterator[tuple[str, list[Item]]]:
    """Yields scripts with windows and regions beside each other."""
    for window, base in ((FIRST - PAGE, FIRST), (FIRST + PAGE, FIRST), (FIRST, FIRST), (FIRST + PAGE, SECOND), (WINDOW, WINDOW)):
        yield "window %x, region %x" % (window, base), [*host(), create(base, PAGE, window, PAGE), run(0), stop(1)]
    blocks = ((FIRST, PAGE, 0, 0), (FIRST + PAGE, PAGE, 0, 0), (FIRST + 2 * PAGE, PAGE, 0, 0), (FIRST - PAGE, PAGE, 0, 0), (WINDOW, PAGE, 0, 0),
              (WINDOW + PAGE, PAGE, 0, 0), (THIRD, PAGE, FIRST, PAGE), (THIRD, PAGE, FIRST + PAGE, PAGE), (THIRD, PAGE, FIRST + 2 * PAGE, PAGE),
              (THIRD, PAGE, WINDOW, PAGE), (THIRD, PAGE, WINDOW, 2 * PAGE), (THIRD, PAGE, HOST, 2 * PAGE), (THIRD, PAGE, HOST, 4 * PAGE),
              (THIRD, PAGE, HOST, 8 * PAGE), (THIRD, PAGE, THIRD, PAGE), (THIRD, PAGE, 0x8000F000, PAGE), (HOST, 8 * PAGE, 0, 0))
    yield "regions and windows beside a live enclave", [
        *host(), create(FIRST, 2 * PAGE, WINDOW, 2 * PAGE), *(item for block in blocks for item in (create(*block), run(1), stop(1), destroy(1))),
        run(0), stop(1)]


def interrupt_scripts() -> Iterator[tuple[str, list[Item]]]:
    """Yields scripts that raise the timer line before each step of an enclave, and while the host runs."""
    body = [set_registers("i"), nop(), set_csr("sscratch", 77), nop(), stop(9)]
    for at in range(len(body) + 1):
        yield "timer before step %d" % at, [*host(), create0(), run(0), *body[:at], timer(is_on=True), nop(), set_registers("h"), resume(0),
                                            *body[at:], resume(0), nop(), leave(1)]
    yield "timer while the host runs", [*host(), create0(), timer(is_on=True), nop(), nop(), run(0), nop(), resume(0), nop(), stop(1),
                                        timer(is_on=True), nop(), resume(0), nop(), timer(is_on=True), stop(3), nop()]
    yield "timer lowered again", [*host(), create0(), run(0), timer(is_on=True), timer(is_on=False), nop(), stop(1)]
    yield "calls while the line is high", [*host(), timer(is_on=True), create0(), measure(WINDOW), destroy(0), create0(), run(0), nop(), nop()]
    yield "timer after exit", [*host(), create0(), create(SECOND, PAGE), run(0), leave(1), timer(is_on=True), nop(), run(1), nop(), nop(), resume(1),
                               leave(1)]


def exception_scripts() -> Iterator[tuple[str, list[Item]]]:
    """Yields scripts with each exception, which goes to S of the same world."""
    for status in (0, 2, 0x100, 0x122, 0x80000):
        faults = [item for name, word in FAULTS for item in (set_csr("sstatus", status), instruction(name, word), nop(), sret(), nop(),
                                                             instruction(name, word), nop())]
        yield "exceptions of the host, sstatus %x" % status, [*host(), *faults]
        yield "exceptions of an enclave, sstatus %x" % status, [*host(), create0(), run(0), *set_up(FIRST, "f"), *faults, timer(is_on=True),
                                                                nop(), nop()]
    yield "stvec with mode bits", [*host(), set_csr("stvec", HOST_HANDLER | 1), instruction("illegal instruction", 0), nop(), call(1, 0, a0=0)]
    for at in (WINDOW, FIRST, SECOND, RAM_BASE, 0x90000000):
        yield "jump to %x" % at, [*host(), create0(), create(SECOND, PAGE), run(0), *set_up(FIRST, "j"), jump_to(at), nop(), nop(),
                                  timer(is_on=True), nop()]


def access_scripts() -> Iterator[tuple[str, list[Item]]]:
    """Yields scripts with loads and stores at each boundary."""
    places = (RAM_BASE, HOST - 4, HOST, WINDOW - 4, WINDOW, WINDOW + PAGE - 4, WINDOW + PAGE, FIRST - 4, FIRST, FIRST + PAGE - 4, FIRST + PAGE,
              FIRST + PAGE - 2, WINDOW + PAGE - 2, WINDOW - 2, FIRST - 2)
    accesses = [item for at in places for item in (load_at(at), store_at(at))]
    yield "accesses of the host", [*host(), create0(), *accesses]
    yield "accesses of an enclave", [*host(), create0(), run(0), *set_up(FIRST, "t"), *accesses, stop(1)]
    yield "accesses of the host after a stop", [*host(), create0(), run(0), *set_up(FIRST, "t"), stop(1), *accesses]
    yield "accesses of the host after destroy", [*host(), create0(), destroy(0), *accesses]


def size_scripts(ram_end: int) -> Iterator[tuple[str, list[Item]]]:
    """Yields scripts with large regions, whose last bytes are zeroed by destroy."""
    for base, size in ((SECOND, 2 * PAGE), (SECOND, 4 * PAGE), (WIDE, 8 * PAGE)):
        if base + size <= ram_end:
            yield "region of %x bytes" % size, [*host(), poke(base + size - 16, b"\x77" * 16), poke(base, b"\x66" * 16), create(base, size),
                                                run(0), leave(0), destroy(0)]


def large_scripts(ram: int) -> Iterator[tuple[str, list[Item]]]:
    """Yields the name and the items of each script with large blocks, for a RAM of this many bytes."""
    end, size = RAM_BASE + ram, PAGE
    while size <= ram:
        base = -(-(HOST + HOST_SIZE) // size) * size
        if base + size <= end:
            yield from large_region_scripts(base, size, end)
            yield from large_window_scripts(base, size, end)
        if HOST + HOST_SIZE + size + 2 * PAGE <= end:
            yield "block: %x bytes apart" % size, blocks_apart(size)
        size *= 2
    sizes = [1 << n for n in range(ram.bit_length(), 32)]
    yield "block: larger than the RAM", [*host(), *(item for at in sizes for item in (create(RAM_BASE, at), create(FIRST, PAGE, RAM_BASE, at)))]


def accesses(base: int, size: int) -> list[Item]:
    """Returns loads and stores right before and right after the beginning, the middle and the end of a block."""
    return [item for at in (base, base + size // 2, base + size) for item in (load_at(at - 4), store_at(at - 4), load_at(at), store_at(at))]


def misaligned(base: int, size: int, end: int) -> list[int]:
    """Returns addresses near a block at which another block of this size is in RAM, but not at a multiple of its size."""
    return [at for at in (base + PAGE, base + size // 2, base + 4, base - size // 2, base - PAGE) if MONITOR_END <= at and at + size <= end]


def large_region_scripts(base: int, size: int, end: int) -> Iterator[tuple[str, list[Item]]]:
    """Yields the scripts with a region of `size` bytes from `base` on. `end` is the end of the RAM."""
    ends = accesses(base, size)
    yield "block: region of %x bytes" % size, [
        *host(), poke(base + size // 2, b"\x55" * 16), poke(base + size - 16, b"\x77" * 16), poke(base, b"\x66" * 16),
        create(base, size, WINDOW, PAGE), measure(WINDOW), *ends, run(0), *set_up(base, "l"), *ends, measure(base + size - 32),
        measure(base + size - 31), stop(0), measure(WINDOW + 64), *ends, resume(0), leave(0), destroy(0), *ends]
    yield "block: region of %x bytes, entry at its end" % size, [
        *host(), create(base, size, WINDOW, PAGE, base + size - 4), measure(WINDOW), run(0), stop(0), create(base, size, 0, 0, base + size)]
    yield "block: region of %x bytes, other last byte" % size, [
        *host(), poke(base + size - 1, b"\x01"), create(base, size), measure(WINDOW), destroy(0)]
    yield "block: regions of %x bytes at other bases" % size, [
        *host(), *(item for at in misaligned(base, size, end) for item in (create(at, size), run(0), stop(0), destroy(0)))]
    odd_sizes = [odd_size for odd_size in (size + PAGE, size * 3 // 2, size - PAGE, size + 4) if odd_size > PAGE]
    far_base = -(-base // (2 * size)) * 2 * size
    yield "block: regions of %x bytes that are no power of two" % size, [
        *host(), *(item for odd in odd_sizes for item in (create(far_base, odd), create(FIRST, PAGE, far_base, odd), run(0), stop(0), destroy(0)))]
    inner_bases = [at for at in (base, base + size // 2, base + size - PAGE) if size > PAGE]
    yield "block: a region of %x bytes over a small one" % size, [
        *host(), *(item for at in inner_bases for item in (create(at, PAGE), create(base, size), create(FIRST, PAGE, base, size), destroy(0)))]
    beside = [at for at in (base, base + PAGE, base + size // 2, base + size - PAGE, base - PAGE, base + size) if at + PAGE <= end]
    yield "block: beside a region of %x bytes" % size, [
        *host(), create(base, size), *(item for at in beside for item in (create(at, PAGE), run(1), stop(0), destroy(1))),
        *(item for at in beside for item in (create(FIRST, PAGE, at, PAGE), run(1), stop(0), destroy(1)))]


def large_window_scripts(base: int, size: int, end: int) -> Iterator[tuple[str, list[Item]]]:
    """Yields the scripts with a window of `size` bytes from `base` on. `end` is the end of the RAM."""
    ends = accesses(base, size)
    yield "block: window of %x bytes" % size, [
        *host(), create(FIRST, PAGE, base, size), run(0), *set_up(FIRST, "w"), *ends, measure(base + size - 32), measure(base + size - 31), stop(0),
        *ends, destroy(0)]
    yield "block: windows of %x bytes at other bases" % size, [
        *host(), *(item for at in misaligned(base, size, end) for item in (create(FIRST, PAGE, at, size), run(0), stop(0), destroy(0)))]


def blocks_apart(size: int) -> list[Item]:
    """Returns a script with regions and windows at addresses that differ by `size` bytes."""
    lower, upper = HOST + HOST_SIZE, HOST + HOST_SIZE + size
    return [*host(), create(lower, PAGE), create(upper, PAGE), create(upper + PAGE, PAGE, lower + PAGE, PAGE),
            create(upper + PAGE, PAGE, lower, PAGE), run(0), stop(0), run(1), stop(1), run(2), stop(2)]


def corner_scripts() -> Iterator[tuple[str, list[Item]]]:
    """Yields scripts with the same value in all registers at an interrupt, a call and an exception."""
    turns = [item for value in CORNER_VALUES for item in (set_all(value), timer(is_on=True), nop(), set_all(value ^ MASK), resume(0))]
    yield "corner values at interrupts", [*host(), create0(), run(0), *set_up(FIRST, "c"), *turns, leave(1)]
    stops = [item for value in CORNER_VALUES for item in (set_all(value), stop(value), set_all(value ^ MASK), resume(0))]
    yield "corner values at stops", [*host(), create0(), run(0), *set_up(FIRST, "c"), *stops, leave(MASK)]
    faults = [item for value in CORNER_VALUES for item in (set_all(value), instruction("illegal instruction", 0), set_all(value), call(0, a0=value))]
    yield "corner values at exceptions", [*host(), *faults, create0(), run(0), *set_up(FIRST, "c"), *faults, stop(0)]


def long_scripts() -> Iterator[tuple[str, list[Item]]]:
    """Yields scripts with many calls."""
    creates = [item for _ in range(MANY_CREATES) for item in (create(SECOND, PAGE, 0, 0), measure(WINDOW, 1), load_at(WINDOW + 28), destroy(1))]
    yield "many creates", [*host(), create0(), *creates, run(0), stop(1)]
    calls = [call(8, a0=n) for n in range(MANY_CALLS)]
    yield "many calls", [*host(), create0(), run(0), *set_up(FIRST, "n"), stop(1), *calls, resume(0), stop(2), resume(0), leave(1)]
    switches = [item for n in range(MANY_CREATES) for item in (stop(n), resume(0))]
    yield "many switches", [*host(), create0(), run(0), *set_up(FIRST, "n"), *switches, leave(1)]


def refusal_scripts(ram: int) -> Iterator[tuple[str, list[Item]]]:
    """Yields the name and the items of each script, for a RAM of this many bytes."""
    ram_end = RAM_BASE + ram
    yield from create_refusals(ram_end)
    yield from number_scripts()
    yield from state_scripts()
    yield from measure_scripts(ram_end)
    yield from boundary_scripts(ram_end)


def bad_create(at: int, *refusals: str) -> Item:
    """Returns a create of a region at an address whose arguments have the errors for which the monitor gives these refusals."""
    arguments = {**VALID_CREATE, "a0": at, "a4": at}
    if "Overlap" in refusals:
        arguments.update(a2=at, a3=PAGE)
    if "BadWindow" in refusals:
        arguments["a3"] = ODD_SIZE
    if "BadEntry" in refusals:
        arguments["a4"] = at + 2
    if "BadRegion" in refusals:
        arguments["a1"] = ODD_SIZE
    return call(1, **arguments)


def create_refusals(ram_end: int) -> Iterator[tuple[str, list[Item]]]:
    """Yields scripts with each refusal of create, alone, with each later one, and with thirteen live enclaves."""
    names = ("BadRegion", "BadWindow", "Overlap", "BadEntry")
    yield "create, each refusal", [*host(), *(item for name in names for item in (bad_create(FIRST, name), destroy(0)))]
    pairs = [bad_create(FIRST, earlier, later) for n, earlier in enumerate(names) for later in names[n + 1:]]
    yield "create, two refusals at once", [*host(), *(item for pair in pairs for item in (pair, destroy(0)))]
    creates = [create(0x80014000 + n * PAGE, PAGE) for n in range(13)]
    refused = [bad_create(ram_end - PAGE, name) for name in names]
    yield "create, each refusal before NoSlot", [*host(), *creates, *refused]
    last = create(ram_end - PAGE, PAGE)
    yield "create, NoSlot", [*host(), *creates, last, destroy(7), last, create(ram_end - 2 * PAGE, PAGE)]
    yield "create, window of size 0", [*host(), call(1, **{**VALID_CREATE, "a2": 0xDEADBEEF, "a3": 0}), run(0), stop(1)]


def number_scripts() -> Iterator[tuple[str, list[Item]]]:
    """Yields scripts with wrong values of a7 (the key) and a6 (the number of the call), and with calls that only the other world may make."""
    yield "a7", [*host(), *(call(1, key, **VALID_CREATE) for key in (0, KEY - 1, KEY | 0x80000000)), call(1, 8, **VALID_CREATE)]
    yield "a6", [*host(), *(call(number, **VALID_CREATE) for number in (0, 8, 9, 0x101, 0x80000001, MASK, 0x10001))]
    yield "a7 of a call with a bad slot", [*host(), *(call(number, 0, a0=13, a1=0) for number in (2, 3, 4, 5))]
    calls_of_host = [*(call(number, **VALID_CREATE) for number in (0, 1, 2, 3, 4, 8, MASK)), create(SECOND, PAGE), destroy(0)]
    yield "calls of the other world", [*host(), call(6, a0=1), call(7, a0=1), create0(), call(6, a0=0), call(7, a0=0), run(0), *calls_of_host,
                                       call(6, 0, a0=1), leave(0)]


def state_scripts() -> Iterator[tuple[str, list[Item]]]:
    """Yields scripts with each call of a slot in each state, and with other slots."""
    states: tuple[tuple[str, list[Item]], ...] = (
        ("that does not exist", []), ("that is Fresh", [create0()]), ("that is Stopped", [create0(), run(0), stop(1)]),
        ("that is Exited", [create0(), run(0), leave(1)]), ("that was interrupted", [create0(), run(0), timer(is_on=True), nop()]))
    for name, setup in states:
        items = [item for request in (run(0), resume(0), destroy(0), measure(WINDOW)) for item in (*setup, request, nop(), leave(9), destroy(0))]
        yield "each call of an enclave " + name, [*host(), *items]
    for number in (2, 3, 4):
        yield "slots of call %d" % number, [*host(), create0(), run(0), stop(1), *(call(number, a0=slot) for slot in INVALID_SLOTS)]
    yield "slots of measure", [*host(), create0(), run(0), stop(1), *(measure(WINDOW, slot) for slot in INVALID_SLOTS)]
    yield "NoEnclave before BadAddress", [*host(), measure(0, 0), measure(0, 13), create0(), measure(0, 1), measure(0, 0)]


def measure_scripts(ram_end: int) -> Iterator[tuple[str, list[Item]]]:
    """Yields scripts that store the 32 bytes of a measurement around each boundary."""
    places = (FIRST, FIRST + PAGE, ram_end, MONITOR_END, 1 << 32, 0, WINDOW, WINDOW + PAGE)
    addresses = [at + n & MASK for at in places for n in BOUNDARY_OFFSETS]
    yield "measure by the host", [*host(), create0(), *(measure(at) for at in addresses)]
    yield "measure by the enclave", [*host(), create0(), run(0), *set_up(FIRST, "m"), *(measure(at, 0xFFFF) for at in addresses), leave(0)]
    yield "measure into another window", [
        *host(), create(FIRST, PAGE, WINDOW, PAGE), create(SECOND, PAGE, OTHER_WINDOW, PAGE), measure(WINDOW, 1), measure(OTHER_WINDOW, 0),
        measure(SECOND - 32, 1), measure(SECOND + PAGE, 0), run(1), measure(OTHER_WINDOW), measure(WINDOW), measure(OTHER_WINDOW + PAGE - 32),
        measure(OTHER_WINDOW + PAGE - 31)]
    yield "measure across the region and a window beside it", [
        *host(), create(FIRST, PAGE, FIRST + PAGE, PAGE), measure(FIRST + PAGE - 16), run(0), measure(FIRST + PAGE - 16), stop(0),
        measure(FIRST + PAGE)]


def boundary_scripts(ram_end: int) -> Iterator[tuple[str, list[Item]]]:
    """Yields scripts with regions, windows and entries at the boundaries of what create accepts."""
    blocks = [(FIRST, n) for n in (0, 1, 4, 8, 0x800, 0xFFF, 0x1001, 0x3000, 0x8000, 0x20000, 0x80000000, MASK)]
    blocks += [(FIRST + n, PAGE) for n in (1, 4, 0x800)]
    blocks += [(at, PAGE) for at in (0, 0x7FFFF000, RAM_BASE, 0x8000F000, HOST, ram_end - PAGE, ram_end, 0xFFFFF000)]
    blocks += [(ram_end - 2 * PAGE, 2 * PAGE), (ram_end - PAGE, 2 * PAGE)]
    blocks += [(RAM_BASE, 0x10000), (RAM_BASE, 0x20000), (0, RAM_BASE), (RAM_BASE, RAM_BASE)]
    uses = [run(0), stop(1), destroy(0)]
    yield "regions", [*host(), *(item for base, size in blocks for item in (create(base, size, WINDOW, PAGE), *uses))]
    yield "windows", [*host(), *(item for base, size in blocks for item in (create(THIRD, PAGE, base, size), *uses))]
    offsets = (-4, -1, 0, 1, 2, 3, 4, PAGE - 4, PAGE - 2, PAGE, -FIRST, MASK - FIRST)
    yield "entries", [*host(), *(item for n in offsets for item in (create(FIRST, PAGE, WINDOW, PAGE, FIRST + n), *uses))]


class ReferenceState(NamedTuple):
    """The state of the reference, on which the next items depend."""
    world: str  # the world that runs
    mode: str  # the mode of the world
    pc: int  # the pc of the world
    table: Sequence[Enclave]  # the table of the enclaves


class RandomScript:
    """The source of a random script, which a seed determines. Some scripts create thirteen enclaves."""

    def __init__(self, seed: str, ram: int) -> None:
        self.draw, self.end, self.is_begun = random.Random("conform %s" % seed), RAM_BASE + ram, False  # `end`: of the RAM
        self.fills_table = self.draw.random() < .3  # whether the script creates thirteen enclaves
        self.makers = {"call": self.call, "access": self.access, "csr": self.csr, "registers": self.registers, "sret": self.sret,
                       "fault": self.fault, "timer": self.timer, "jump": self.jump}

    def items(self, state: ReferenceState) -> list[Item]:
        """Returns the next items."""
        draw = self.draw
        if not self.is_begun:
            self.is_begun = True
            return [*set_supervisor(str(draw.random()), HOST_HANDLER), set_registers(str(draw.random()))]
        if state.world != "host" and (not MONITOR_END <= state.pc < self.end or draw.random() < .06):
            return [timer(is_on=True), nop()]
        if state.mode == "U":
            return self.user_items(state)
        return self.makers[draw.choices(list(ITEM_WEIGHTS), list(ITEM_WEIGHTS.values()))[0]](state)

    def user_items(self, state: ReferenceState) -> list[Item]:
        """Returns items for U."""
        draw = self.draw
        kind = draw.randrange(5)
        if kind < 2:
            return [nop()] if kind else [ecall_from_user(draw.randrange(8))]
        return (self.access, self.fault, self.timer)[kind - 2](state)

    def running_enclave(self, state: ReferenceState) -> Enclave | None:
        """Returns the enclave that runs, or None."""
        return next((enclave for enclave in state.table if enclave.world == state.world), None)

    def boundary(self, state: ReferenceState) -> int:
        """Returns a boundary of a range."""
        boundaries = [RAM_BASE, MONITOR_END, self.end]
        for enclave in state.table:
            boundaries += [enclave.base, enclave.base + enclave.size]
            if enclave.window_size:
                boundaries += [enclave.window, enclave.window + enclave.window_size]
        return self.draw.choice(boundaries)

    def block_base(self, size: int) -> int:
        """Returns a random base in RAM for a block of `size` bytes, a multiple of its size."""
        return (MONITOR_END + self.draw.randrange(2, (self.end - MONITOR_END) // PAGE) * PAGE) & -size

    def call(self, state: ReferenceState) -> list[Item]:
        """Returns a call of the world that runs."""
        draw = self.draw
        if state.world != "host":
            return [draw.choice((stop(draw.getrandbits(32)), stop(draw.getrandbits(32)), leave(draw.getrandbits(32)), self.random_measure(state, 0),
                                 call(draw.choice((0, 1, 2, 3, 4, 8)), a0=draw.randrange(3))))]
        if self.fills_table and len(state.table) < MAX_ENCLAVES and draw.random() < .6:
            return [create(self.block_base(PAGE), PAGE)]
        kind = draw.choice(RANDOM_CALLS)
        return self.random_create(state) if kind == "create" else self.slot_call(state, kind)

    def slot_call(self, state: ReferenceState, kind: str) -> list[Item]:
        """Returns a call of the host, of a kind in RANDOM_CALLS without `create`, that names a slot; often one for which the call is valid."""
        draw = self.draw
        slots = [enclave.slot for enclave in state.table if enclave.state in STATES.get(kind, ANY_STATE)]
        slot = draw.choice(slots) if slots and draw.random() < .8 else draw.choice((0, 1, 2, 3, 12, 13, MASK, draw.getrandbits(32)))
        if kind == "measure":
            return [self.random_measure(state, slot)]
        if kind == "odd":
            return [call(draw.choice((0, 6, 7, 8, MASK)), draw.choice((KEY, KEY, 0)), a0=slot)]
        if kind == "run":
            fresh = next((enclave for enclave in state.table if enclave.slot == slot and enclave.state == "Fresh"), None)
            return [run(slot), *(set_up(fresh.base, str(draw.random())) if fresh else ())]
        return [resume(slot) if kind == "resume" else destroy(slot)]

    def random_create(self, state: ReferenceState) -> list[Item]:
        """Returns a create, which is often valid."""
        draw = self.draw
        size, window_size = draw.choice((PAGE, PAGE, PAGE, 2 * PAGE, 4 * PAGE)), draw.choice((0, PAGE, PAGE, 2 * PAGE))
        base, window = self.block_base(size), self.block_base(window_size) if window_size else draw.getrandbits(32)
        entry = base + draw.choice((0, 0, 0, 4, size - 4))
        if draw.random() < .12:  # from here on, replaces values by ones that are often invalid
            base = draw.choice((self.boundary(state), 0, self.end - size, 0xFFFFF000, base + 4))
        if draw.random() < .12:
            window = self.boundary(state)
        if draw.random() < .06:
            size, entry = draw.choice((0, 0x1800, 0x40000, 0x80000000)), draw.choice((base, 0))
        if draw.random() < .06:
            entry = draw.choice((base + 2, base + size, base - 4))
        has_bytes = MONITOR_END <= base < self.end - 16
        data = bytes(draw.getrandbits(8) for _ in range(16))
        return [*((poke(base, data),) if has_bytes else ()), create(base, size, window, window_size, entry)]

    def random_measure(self, state: ReferenceState, slot: int) -> Item:
        """Returns a measure near a boundary."""
        return measure(self.boundary(state) + self.draw.choice((-32, -31, -16, -1, 0, 1, 64, self.draw.randrange(0x800))), slot)

    def access(self, state: ReferenceState) -> list[Item]:
        """Returns a load or a store near a boundary."""
        draw = self.draw
        at, width, register = self.boundary(state) + draw.randrange(-6, 6), draw.randrange(3), draw.randrange(8, 16)
        return [load_at(at, register, width) if draw.random() < .5 else store_at(at, register, width)]

    def csr(self, _: ReferenceState) -> list[Item]:
        """Returns a write of an S-mode register."""
        return [set_csr(self.draw.choice(CSRS_SET), self.draw.getrandbits(32))]

    def registers(self, _: ReferenceState) -> list[Item]:
        """Returns new values of all registers."""
        return [set_registers(str(self.draw.random()))]

    def sret(self, state: ReferenceState) -> list[Item]:
        """Returns an sret into the code of the world that runs."""
        enclave = self.running_enclave(state)
        return [set_csr("sepc", enclave.base + enclave.size // 2 if enclave else HOST + 0x400), sret()]

    def fault(self, _: ReferenceState) -> list[Item]:
        """Returns an instruction that traps."""
        return [instruction(*self.draw.choice(FAULTS))]

    def timer(self, _: ReferenceState) -> list[Item]:
        """Returns a change of the timer line, and a step."""
        return [timer(self.draw.random() < .8), nop()]

    def jump(self, state: ReferenceState) -> list[Item]:
        """Returns a jump in the code of the world that runs."""
        enclave = self.running_enclave(state)
        return [jump_to(enclave.base + 4 * self.draw.randrange(64) if enclave else HOST + 4 * self.draw.randrange(256))]
