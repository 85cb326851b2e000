"""Bugs that are planted into the examples with tests of an author: for each one the changed text, and the test that notices it."""
from dataclasses import dataclass

STORE, HARTS, MONITOR = "enclaves/store", "enclaves/two_harts", "monitors/own_monitor"
READS_PIN = "    for (int i = 0; i < PIN_SIZE; i++)\n        given[i] = window->pin[i];\n"


@dataclass(frozen=True)
class Bug:
    """A changed text of a source file of an example, which occurs once in it. `test` notices it."""
    name: str
    folder: str
    file: str
    old: str
    new: str
    test: str


BUGS = (
    Bug("pin_check_ends_at_the_first_wrong_digit", STORE, "application.c", "        differs |= given[i] ^ pin[i];\n",
        "        if (given[i] != pin[i])\n            return 0;\n", "test_the_pin_check_takes_equal_time"),
    Bug("pin_is_read_twice", STORE, "application.c", "    if (!is_pin(given))\n", READS_PIN + "    if (!is_pin(given))\n", "test_the_pin_is_read_only_once"),
    Bug("challenge_is_read_late", STORE, "application.c", "    authenticate(challenge, window->code);\n    return OPENED;\n",
        "    authenticate((const unsigned char *)window->challenge, window->code);\n    return OPENED;\n", "test_the_challenge_is_read_only_once"),
    Bug("status_needs_the_pin", STORE, "application.c", "    if (command == STATUS)\n        return TOLD;\n", "", "test_the_status_needs_no_pin"),
    Bug("last_digit_is_not_compared", STORE, "application.c", "    unsigned differs = 0;\n    for (int i = 0; i < PIN_SIZE; i++)\n",
        "    unsigned differs = 0;\n    for (int i = 0; i < PIN_SIZE - 1; i++)\n", "test_after_three_wrong_pins_the_store_still_refuses"),
    Bug("key_in_the_window", STORE, "application.c", "    authenticate(challenge, window->code);\n    return OPENED;\n",
        "    authenticate(challenge, window->code);\n    for (int i = 0; i < KEY_SIZE; i++)\n        window->work[i] = key[i] ^ INNER_PAD;\n"
        "    return OPENED;\n", "test_the_key_never_appears_in_the_window"),
    Bug("wrong_pad", STORE, "application.c", "OUTER_PAD = 0x5c", "OUTER_PAD = 0x5d", "test_the_right_pin_opens_the_store"),
    Bug("end_is_a_request", STORE, "application.c", "command != END; command", "command != 7; command", "test_a_store_that_has_ended_cannot_be_resumed"),
    Bug("pin_of_zeros_opens", STORE, "application.c", "    if (!is_pin(given))\n", "    if (!is_pin(given) && given[0])\n",
        "test_no_other_pin_opens_the_store"),
    Bug("one_pin_opens_without_the_last_digit", STORE, "application.c", "    if (!is_pin(given))\n",
        "    if (!is_pin(given) && (given[0] != 'x' || given[1] != 7))\n", "test_all_paths_for_all_keys_and_pins"),
    Bug("wrong_sum", HARTS, "application.c", "window[ANSWER] + 1", "window[ANSWER] + 2", "test_the_enclave_still_answers"),
    Bug("wrong_sign_of_running", HARTS, "application.c", "window[IS_RUNNING] = 1", "window[IS_RUNNING] = 2", "test_the_enclave_says_that_it_runs"),
    Bug("enclave_does_not_wait", HARTS, "application.c", "    while (!window[ANSWER])\n        ;\n", "", "test_the_enclave_waits_for_the_number"),
    Bug("load_of_the_window", HARTS, "host.c", "load_cause = attempt_load(REGION);\n    store", "load_cause = attempt_load(WINDOW);\n    store",
        "test_the_other_host_is_refused"),
    Bug("store_to_the_window", HARTS, "host.c", "attempt_store(REGION)", "attempt_store(WINDOW + 64)", "test_the_other_host_is_refused"),
    Bug("destroy_of_another_slot", HARTS, "host.c", "enclave_destroy(0)", "enclave_destroy(1)", "test_the_other_host_is_refused"),
    Bug("run_of_another_slot", HARTS, "host.c", "enclave_run(0)", "enclave_run(3)", "test_the_other_host_is_refused"),
    Bug("other_host_does_not_wait", HARTS, "host.c", "    while (!window[IS_RUNNING])\n        ;\n", "", "test_no_schedule_lets_the_other_host_in"),
    Bug("enclave_is_not_destroyed", HARTS, "host.c", "destroyed = enclave_destroy(created.value)", "destroyed = created",
        "test_the_enclave_still_answers"),
    Bug("monitor_open", MONITOR, "pmp.c", "    cfg[0] = CLOSED;", "    cfg[0] = OPEN;", "test_the_host_cannot_access_the_monitor"),
    Bug("regions_open", MONITOR, "pmp.c", "slot == world ? OPEN : CLOSED", "OPEN", "test_create_takes_the_region_from_the_host"),
    Bug("window_executable", MONITOR, "pmp.c", "cfg[WINDOW_ENTRY] = DATA", "cfg[WINDOW_ENTRY] = OPEN",
        "test_a_running_enclave_has_its_region_and_its_window"),
    Bug("window_closed", MONITOR, "pmp.c", "cfg[WINDOW_ENTRY] = DATA", "cfg[WINDOW_ENTRY] = CLOSED", "test_the_enclave_adds_two_numbers"),
    Bug("destroy_leaves_the_data", MONITOR, "monitor.c", "        *word++ = 0;", "        word++;", "test_destroy_gives_the_region_back_as_zeros"),
    Bug("x9_not_restored", MONITOR, "start.s", "        lw      x9, 36(t6)\n", "", "test_the_registers_of_the_host_survive"),
    Bug("state_is_ignored", MONITOR, "monitor.c", "    if (enclaves[slot].state != state)\n        return answer(BAD_STATE, 0);\n", "",
        "test_an_enclave_that_exited_cannot_run_again"),
    Bug("free_slot_is_live", MONITOR, "monitor.c", "slot < SLOTS && enclaves[slot].state != FREE;", "slot < SLOTS;",
        "test_a_slot_without_an_enclave_is_refused"),
    Bug("misaligned_entry", MONITOR, "monitor.c", "if (entry % 4 || ", "if (", "test_create_refuses"),
    Bug("slot_0_is_never_free", MONITOR, "monitor.c", "    int slot = 0;\n", "    int slot = 1;\n", "test_the_slots_end"))
