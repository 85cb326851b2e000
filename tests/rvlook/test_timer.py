"""`timer`: an enclave that ends Stopped, a host that does not resume, and an enclave with another result."""
import pytest

PATIENCE = ["poke patience+1 00", "poke patience+2 00", "poke patience 0%d"]  # interrupts after which the host gives up
STOPS_ONCE = ["poke stops 01", "poke resumes_value 00"]  # and the host does not resume it


@pytest.fixture
def timer(objects, short_program, tmp_path):
    """Runs `timer` after the lines of a script; returns its status and its last object."""
    def run(*lines):
        script = tmp_path / "script"
        script.write_text("".join(line + "\n" for line in lines))
        status, found = objects("timer", *short_program("timer_host"), "--script", script)
        return status, found[-1]
    return run


def test_enclave_that_exits_comes_to_the_same_end(timer):
    status, found = timer()
    assert (status, found["same"], found["interrupts"]) == (0, True, found["steps"])


def test_enclave_that_ends_stopped_comes_to_the_same_end(timer):
    status, found = timer(*STOPS_ONCE)
    assert (status, found["same"], found["difference"]) == (0, True, None)


def test_enclave_that_stops_and_is_resumed_comes_to_the_same_end(timer):
    status, found = timer("poke stops 02")
    assert (status, found["same"]) == (0, True)


@pytest.mark.parametrize("count", [0, 3])
def test_host_that_does_not_resume_is_no_finding(timer, count):
    status, found = timer(PATIENCE[0], PATIENCE[1], PATIENCE[2] % count)
    assert (status, found["same"], found["interrupts"], found["difference"]["step"]) == (3, None, count + 1, count + 1)


def test_message_says_that_the_host_does_not_resume(rvlook, short_program, tmp_path):
    script = tmp_path / "script"
    script.write_text("\n".join(PATIENCE) % 3 + "\n")
    done = rvlook("timer", *short_program("timer_host"), "--script", script)
    assert done.returncode == 3
    assert "not resumed by the host" in done.stdout and "different result" not in done.stdout
    assert done.stderr == ("rvlook: error: the host does not resume the enclave in slot 0 after the timer interrupt at its step 4; "
                           "timer requires a host that always resumes it\n")


def test_enclave_that_returns_the_number_of_interrupts_is_found(timer):
    status, found = timer("poke tells_count 01")
    assert (status, found["same"]) == (1, False)


def test_enclave_that_stops_with_another_value_is_found(timer):
    """The host resumes only after the value 36, so the enclave is the reason if it does not resume."""
    status, found = timer("poke tells_count 01", "poke stops 01")
    assert (status, found["same"], found["difference"]["expected"]) == (1, False, "x10=00000001 x11=00000024")


def test_run_that_steps_cut_short_is_reported(rvlook, short_program):
    done = rvlook("timer", *short_program("timer_host"), "--steps", "60")
    assert (done.returncode, done.stderr) == (3, "rvlook: warning: --steps 60 ended the run while the enclave in slot 0 was running\n")
