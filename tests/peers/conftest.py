"""Fixtures of the comparisons with other tools."""
import pytest

from peers.qemu import emulator


@pytest.fixture(scope="session")
def qemu_version():
    """Returns the first line of QEMU's version; skips the test if QEMU is not installed."""
    found = emulator.version()
    if found is None:
        pytest.skip("qemu-system-riscv32 (Debian: qemu-system-misc) is not installed")
    return found


@pytest.fixture(scope="session")
def qemu_72(qemu_version):
    """Skips the test unless QEMU is 7.2, whose deviations the table has."""
    if "version 7.2" not in qemu_version:
        pytest.skip("the table of deviations is that of QEMU 7.2, and not of %s" % qemu_version)
    return qemu_version
