"""Tests of the key store: who can access the key, what the PIN protects, and what a host can do. The test is the host (docs/TESTS.md)."""
import hmac
from importlib.util import find_spec

import pytest
from hypothesis import given, settings, strategies

from rvlook.api import exited, refused, stopped
from rvlook.api.strategies import structure

pytestmark = pytest.mark.program("..")

PIN, KEY = b"27182818", b"a key that one enclave has, 32 b"
REFUSED, TOLD, OPENED = 1, 2, 3
CHALLENGE = bytes(range(16))
CODE = hmac.digest(KEY, CHALLENGE, "sha256")


@pytest.fixture
def window(enclave, constants):
    """The window, with a request to open the store."""
    window = enclave.window("request")
    window.command, window.challenge = constants.OPEN, CHALLENGE
    return window


# ---- the key

def test_after_create_the_host_cannot_access_the_key(machine):
    assert machine.rights("host", "key") == "rwx"
    machine.run_until(call="create")
    assert machine.rights("host", "key") == "---"
    assert machine.rights("e0", "key") == "rwx"


def test_the_key_never_appears_in_the_window(machine, enclave, window):
    window.pin = PIN
    enclave.run()
    assert KEY not in machine.read("window_base", 4096)
    assert window == {"work": bytes(64)}


def test_destroy_erases_the_key(machine, enclave):
    enclave.destroy()
    assert machine["key"] == bytes(32)
    assert machine.rights("host", "key") == "rwx"


# ---- the PIN

def test_the_right_pin_opens_the_store(enclave, window):
    window.pin = PIN
    assert enclave.run() == stopped(OPENED)
    assert window == {"code": CODE}


def test_after_three_wrong_pins_the_store_still_refuses(enclave, window):
    window.pin = b"27182817"
    assert enclave.run() == stopped(REFUSED)
    for _ in range(2):
        assert enclave.resume() == stopped(REFUSED)
    assert window == {"code": bytes(32)}


def test_the_status_needs_no_pin(enclave, window, constants):
    window.command = constants.STATUS
    assert enclave.run() == stopped(TOLD)


def test_a_store_that_has_ended_cannot_be_resumed(enclave, window, constants):
    window.command = constants.END
    assert enclave.run() == exited(0)
    assert enclave.resume() == refused("BadState")


# ---- a host that changes the window while the enclave runs

def test_the_pin_is_read_only_once(enclave, window):
    window.pin = b"00000000"
    enclave.run(touches=window["challenge"])  # it has read the PIN
    window.pin = PIN                          # too late
    assert enclave.finish() == stopped(REFUSED)


def test_the_challenge_is_read_only_once(enclave, window):
    window.pin = PIN
    enclave.run(until="authenticate")
    window.challenge = bytes(16)
    assert enclave.finish() == stopped(OPENED)
    assert window == {"code": CODE}


@pytest.mark.interrupts(None, 97, 1009)
def test_timer_interrupts_change_no_answer(enclave, window):
    window.pin = PIN
    assert enclave.run() == stopped(OPENED)
    assert window == {"code": CODE}


# ---- any request

@settings(deadline=None, max_examples=50, derandomize=True)
@given(pin=strategies.binary(min_size=8, max_size=8))
def test_no_other_pin_opens_the_store(program, pin):
    with program.start() as machine:
        enclave = machine.create()
        window = enclave.window("request")
        window.command, window.pin = program.constants.OPEN, pin
        assert enclave.run() == stopped(OPENED if pin == PIN else REFUSED)


@settings(deadline=None, max_examples=20, derandomize=True)
@given(strategies.data())
def test_the_key_stays_inside_for_any_requests(program, data):
    with program.start() as machine:
        enclave = machine.create()
        for enter in (enclave.run, enclave.resume, enclave.resume):
            enclave.window("request").assign(data.draw(structure(program, "request", command=strategies.sampled_from([1, 2]))))
            assert enter() in (stopped(TOLD), stopped(REFUSED), stopped(OPENED))
            assert KEY not in machine.read("window_base", 4096)
            assert machine.rights("host", "key") == "---"


# ---- searches

@pytest.mark.finds_nothing("leaks", "pin", values=[b"12345678", b"27182800"])
def test_the_pin_check_takes_equal_time():
    """Compares two machines with other PINs."""


@pytest.mark.finds_nothing("leaks", "key:32", tries=2, public="window_base+1c:32")
def test_only_the_code_depends_on_the_key():
    """Compares machines with other keys; the code is public."""


@pytest.mark.finds_nothing("window", "key:32", public="window_base+1c:32")
def test_there_is_no_double_fetch():
    """Examines each load from the window."""


@pytest.mark.finds_nothing("inputs", "key:32", public="window_base+1c:32", runs=40)
def test_the_host_cannot_misuse_the_store():
    """Varies what the host gives."""


@pytest.mark.skipif(not find_spec("z3"), reason="python3-z3 is not installed")
@pytest.mark.verified("key:32", public="window_base+1c:32", must_know="pin:8")
def test_all_paths_for_all_keys_and_pins():
    """Passes only if the result is COMPLETE."""
