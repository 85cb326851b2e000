"""Races: every two calls on one slot, region or window, one on each hart, in each order of their steps. The keeper is an enclave in slot 1, which is
entered if both calls are made by enclaves."""
from itertools import combinations_with_replacement

from generators.harts_case import HartsCase, divided
from models.monitor_model import (BAD_ADDRESS, BAD_STATE, CREATE, DESTROY, EXIT, EXITED, INTERRUPTED, MEASURE, NO_ENCLAVE, OVERLAP, RESUME, RUN,
                           STOP, STOPPED)

BASE, PAGE, WINDOW = 0x80020000, 0x1000, 0x80040000
KEEPER = BASE + PAGE
ORDERS = ("01", "10", "0011", "0101")
REGION = (BASE, PAGE, WINDOW, PAGE, BASE)  # the arguments of the create of slot 0
OF_HOST = {"create": (CREATE, *REGION), "destroy": (DESTROY, 0), "run": (RUN, 0), "resume": (RESUME, 0), "measure": (MEASURE, 0, WINDOW),
           "measure_into": (MEASURE, 1, BASE + 0x100)}
OF_ENCLAVE = {"stop": (STOP, 7), "exit": (EXIT, 9), "timer": (), "measure_itself": (MEASURE, 0, WINDOW)}
RESULTS = {"stop": STOPPED, "exit": EXITED, "timer": INTERRUPTED, "measure_itself": 0}  # a0 of the hart on which it was done
LEFT = {"stop": "Stopped", "exit": "Exited", "timer": "Stopped", "measure_itself": "Running"}
SHOWN = ("3a0", "3a3", "3b1", "3be", "304")  # entries 0 to 3 and 12 to 15, the places of the region and the window, and mie


def after(state, act):
    """Returns the expected state of slot 0 after a call of a host in this state of the slot, and the status; none if an enclave is entered."""
    if act == "create":
        return ("Fresh", 0) if state is None else (state, OVERLAP)
    if act == "measure_into":
        return (state, 0) if state is None else (state, BAD_ADDRESS)
    if state is None:
        return None, NO_ENCLAVE
    if act == "measure":
        return state, 0
    if act == "destroy":
        return (state, BAD_STATE) if state == "Running" else (None, 0)
    is_taken = act == {"Fresh": "run", "Stopped": "resume"}.get(state)
    return ("Running", None) if is_taken else (state, BAD_STATE)


# ---- before and after a race

def new_case(name):
    return divided(HartsCase("races", name))


def create(case, slot, base):
    for i in range(3):
        case.place(base + 4 * i, "ecall")
    case.create(base, window=(WINDOW, PAGE), wants=slot)


def brought(case, state, hart=0):
    """Brings slot 0 into a state, or leaves it free, with the keeper in slot 1; a running enclave runs on this hart."""
    case.on(0)
    create(case, 0, BASE)
    if 1 not in case.machine.table:
        create(case, 1, KEEPER)
    if state in ("Stopped", "Exited"):
        case.enter(0)
        case.leave(STOP if state == "Stopped" else EXIT, 5)
    elif state == "Running":
        case.on(hart)
        case.enter(0)
    elif state is None:
        case.call(DESTROY, 0, wants=(0, 0))


def cleared(case):
    """Exits and destroys every enclave, except a keeper that was not entered."""
    for number, hart in enumerate(case.machine.peers):
        if hart.world is not None:
            case.on(number)
            case.say("timer on", "step 1")
    case.on(0)
    for slot, enclave in sorted(case.machine.table.items()):
        if (slot, enclave.state) != (1, "Fresh"):
            case.call(DESTROY, slot, wants=(0, 0))


def ready(case, hart, *call):
    """Brings a hart to the step before its call, or before a timer interrupt, with ecalls after it."""
    case.on(hart)
    if call:
        case.ready(*call)
    else:
        case.say("timer on")
    for start in [case.machine.pc] + ([case.machine.host.pc] if case.machine.world is not None else []):
        for place in (start, start + 4):
            case.place(place, "ecall")


def shown(case):
    for hart in range(2):
        case.on(hart)
        case.say("reg 10", "reg 11", *("csr " + number for number in SHOWN))
    case.say("enclaves")


def race(case, order, acts, *wanted):
    """Makes two calls, the first on hart 0; the statuses are the expected ones."""
    for hart, act in enumerate(acts):
        ready(case, hart, *{**OF_HOST, **OF_ENCLAVE}[act])
    case.say("sched " + order)
    for hart, status in enumerate(wanted):
        given = case.machine.peers[hart].regs[10]
        assert status in (None, given), (case.name, order, hart, hex(given), hex(status))
    shown(case)
    case.say("mem %x 4" % BASE, "mem %x 4" % WINDOW)


def statuses(state, acts, order):
    """Returns the expected statuses of two calls of hosts, in the order of the harts; none after more than these two steps."""
    statuses = [None, None]
    for hart in map(int, order if len(order) == 2 else ""):
        state, statuses[hart] = after(state, acts[hart])
    return statuses


# ---- the pairs

def of_two_hosts():
    for acts in combinations_with_replacement(OF_HOST, 2):
        case = new_case("%s_and_%s" % acts)
        for state in (None, "Stopped") if "create" in acts else ("Fresh", "Stopped", "Exited"):
            for order in ORDERS:
                case.comment("slot 0 is %s: %s" % (state or "free", order))
                brought(case, state)
                race(case, order, acts, *statuses(state, acts, order))
                cleared(case)


def of_a_host_and_an_enclave():
    """The enclave in slot 0 exits on one hart while the host of the other hart makes a call."""
    for i, of_enclave in enumerate(OF_ENCLAVE):
        for j, of_host in enumerate(OF_HOST):
            hart = (i + j) % 2
            acts = (of_enclave, of_host) if hart == 0 else (of_host, of_enclave)
            case = new_case("%s_and_%s_of_a_host" % (of_enclave, of_host))
            for order in ORDERS:
                case.comment("slot 0 runs on hart %d: %s" % (hart, order))
                brought(case, "Running", hart)
                statuses = [None, None]
                if len(order) == 2:
                    met = "Running" if order[0] != str(hart) else LEFT[of_enclave]
                    statuses[hart], statuses[1 - hart] = RESULTS[of_enclave], after(met, of_host)[1]
                race(case, order, acts, *statuses)
                cleared(case)


def of_two_enclaves():
    """Two enclaves with one window, each on its hart."""
    for acts in combinations_with_replacement(OF_ENCLAVE, 2):
        case = new_case("%s_and_%s_of_enclaves" % acts)
        for order in ORDERS:
            case.comment("slot 0 runs on hart 0, slot 1 on hart 1: " + order)
            brought(case, "Running", 0)
            case.on(1)
            case.enter(1)
            race(case, order, acts, *((RESULTS[it] for it in acts) if len(order) == 2 else ()))
            cleared(case)


def of_two_creates():
    """Overlaps: two regions of different sizes, a region and a window in either order, and two windows, which are permitted."""
    other = BASE + 4 * PAGE
    pairs = {"a_region_in_a_region": ((BASE, 4 * PAGE, 0, 0, BASE), (BASE + 3 * PAGE, PAGE, 0, 0, BASE + 3 * PAGE), OVERLAP),
             "a_window_on_a_region": ((BASE, PAGE, 0, 0, BASE), (other, PAGE, BASE, PAGE, other), OVERLAP),
             "a_window_round_a_region": ((BASE, PAGE, 0, 0, BASE), (other, PAGE, BASE, 4 * PAGE, other), OVERLAP),
             "two_windows_at_one_place": ((BASE, PAGE, WINDOW, PAGE, BASE), (other, PAGE, WINDOW, PAGE, other), 0),
             "side_by_side": ((BASE, PAGE, WINDOW, PAGE, BASE), (BASE + PAGE, PAGE, 0, 0, BASE + PAGE), 0)}
    for name, (first, second, status) in pairs.items():
        case = new_case("creates_of_" + name)
        for order in ORDERS:
            case.comment(order)
            for hart, arguments in enumerate((first, second)):
                ready(case, hart, CREATE, *arguments)
            case.say("sched " + order)
            statuses = [hart.regs[10] for hart in case.machine.peers]
            assert len(order) > 2 or statuses == ([0, status] if order == "01" else [status, 0]), (name, order, statuses)
            shown(case)
            cleared(case)
            if 1 in case.machine.table:
                case.call(DESTROY, 1, wants=(0, 0))


def parts():
    of_two_hosts()
    of_a_host_and_an_enclave()
    of_two_enclaves()
    of_two_creates()
