"""Tests of a monitor of one's own on the bare machine, with the host and the enclave of `adds`. Each test also runs under the proved monitor, so
the tests say what both do (docs/TESTS.md)."""
from pathlib import Path

import pytest

from rvlook.api import build, exited, load, refused

MONITOR = Path(__file__).parents[1]
ENCLAVE = MONITOR.parents[1] / "enclaves" / "adds"
REGION, WINDOW, PAGE, ANY = 0x80020000, 0x80030000, 0x1000, 0x80040000
SLOTS = 13
CHANGED = ("gp", "tp", *("s%d" % n for n in range(12)))  # registers that no call uses
INPUTS = bytes([2, 0, 0, 0, 40, 0, 0, 0])  # the two numbers in the window


@pytest.fixture(scope="module", params=["proved", "bare"])
def program(request, tmp_path_factory):
    """The host and the enclave, under the proved monitor and under the monitor of this folder."""
    is_own = request.param == "bare"
    elf = build(ENCLAVE, tmp_path_factory.mktemp("elf") / "adds.elf", monitor=MONITOR if is_own else None)
    return load(elf, monitor=not is_own, boot=is_own)


@pytest.fixture
def host(machine):
    """The machine at the first instruction of the host."""
    return machine.run_until("_start")


@pytest.fixture
def world(host):
    """The name of the host for `rights`: on the bare machine it is a mode."""
    return "S" if host.world == "bare" else "host"


def test_the_host_cannot_access_the_monitor(host, world):
    assert host.rights(world, 0x80000000, 0x10000) == "---"


def test_create_takes_the_region_from_the_host(host, world):
    host.create()
    assert host.rights(world, REGION, PAGE) == "---"
    assert host.rights(world, WINDOW, PAGE) == "rwx"


def test_a_running_enclave_has_its_region_and_its_window(host, world):
    enclave = host.create()
    enclave.run(until="enclave_entry")
    inside = "e0" if world == "host" else "S"
    assert host.rights(inside, REGION, PAGE) == "rwx"
    assert host.rights(inside, WINDOW, PAGE) == "rw-"
    assert host.rights(inside, "_start", 4) == "---"


def test_the_enclave_adds_two_numbers(host):
    enclave = host.create()
    host.write(WINDOW, INPUTS)
    assert enclave.run() == exited(42)


def test_the_registers_of_the_host_survive(host):
    marks = {"x%d" % n: 0x1000 + n for n in range(1, 32)}
    for name, mark in marks.items():
        host.registers[name] = mark
    enclave = host.create()
    enclave.run(until="application")
    for name in CHANGED:
        host.registers[name] = 0x5000  # as the enclave may
    enclave.finish()
    assert {name: host.registers[name] for name in marks} == marks


def test_destroy_gives_the_region_back_as_zeros(host, world):
    enclave = host.create()
    enclave.run()
    enclave.destroy()
    assert host.read(REGION, PAGE) == bytes(PAGE)
    assert host.rights(world, REGION, PAGE) == "rwx"


@pytest.mark.parametrize("region, size, window, window_size, entry, why", [
    (REGION + 4, PAGE, WINDOW, PAGE, REGION, "BadRegion"),
    (REGION, 0x1800, WINDOW, PAGE, REGION, "BadRegion"),
    (0x80000000, PAGE, WINDOW, PAGE, 0x80000000, "Overlap"),
    (REGION, PAGE, REGION, PAGE, REGION, "Overlap"),
    (REGION, PAGE, WINDOW, 12, REGION, "BadWindow"),
    (REGION, PAGE, WINDOW, PAGE, REGION + PAGE, "BadEntry"),
    (REGION, PAGE, WINDOW, PAGE, REGION + 2, "BadEntry")],
    ids=["misaligned region", "size of no power of two", "monitor", "window in the region", "small window", "entry outside", "misaligned entry"])
def test_create_refuses(host, region, size, window, window_size, entry, why):
    assert host.call("create", region, size, window, window_size, entry) == refused(why)


def test_an_enclave_that_exited_cannot_run_again(host):
    enclave = host.create()
    enclave.run()
    assert enclave.run() == refused("BadState")
    assert enclave.resume() == refused("BadState")


def test_a_slot_without_an_enclave_is_refused(host):
    for name in ("run", "resume", "destroy"):
        assert host.call(name, 0) == refused("NoEnclave")


def test_the_slots_end(host):
    created = [host.call("create", ANY + n * PAGE, PAGE, 0, 0, ANY + n * PAGE) for n in range(SLOTS + 1)]
    assert [it.value for it in created[:SLOTS]] == list(range(SLOTS))
    assert created[SLOTS] == refused("NoSlot")


def test_a_call_with_another_number_is_refused(host):
    assert host.ecall(a0=0, a6=99, a7=0x0A454E43) == refused("NotSupported")
