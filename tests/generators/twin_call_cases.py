"""The cases of monitor calls over two benches: calls that name, overlap or show the enclave."""
from generators.monitor_case import ECALL
from models.monitor_model import (BAD_ADDRESS, BAD_REGION, BAD_STATE, DESTROY, EXIT, EXITED, MEASURE, NO_ENCLAVE, OVERLAP, RESUME, RUN,
                           STOP, STOPPED)
from generators.twin_case import TwinCase
from generators.twin_command_cases import BASE, HOST, PAGE, PAST, WINDOW, stopped

STATES = {"fresh": (), "stopped": (STOP,), "exited": (EXIT,)}


def brought(case, state, slot=0, base=BASE):
    case.create(base, window=(WINDOW, PAGE), wants=slot)
    for function in STATES[state]:
        case.enter(slot)
        case.leave(function, 9, STOPPED if function == STOP else EXITED)


def calls():
    for state in STATES:
        case = TwinCase("calls", "of_one_that_is_" + state)
        brought(case, state)
        case.apart()
        case.comment("its measurement is not secret")
        case.call(MEASURE, 0, WINDOW, wants=(0, 0))
        case.say("mem 80040000 32", "enclaves", "pmp")
        for function in (RUN, RESUME):
            if {RUN: "fresh", RESUME: "stopped"}[function] != state:
                case.call(function, 0, wants=(BAD_STATE, 0))
        for function in (DESTROY, RUN, RESUME, MEASURE):
            case.call(function, 13, WINDOW, wants=(NO_ENCLAVE, 0))
        case.call(STOP, 0)
        case.say("reg 10", "regs")
        assert not case.are_equal()
        case.call(DESTROY, 0, wants=(0, 0))
        assert case.are_equal()
        case.say("mem 80020000 64", "enclaves", "pmp", "regs")
        for function in (DESTROY, RUN, RESUME, MEASURE):
            case.call(function, 0, WINDOW, wants=(NO_ENCLAVE, 0))
        case.create(BASE, window=(WINDOW, PAGE))
        case.say("enclaves")
        assert case.are_equal()


def refusals():
    case = TwinCase("calls", "that_meet_the_region")
    stopped(case)
    case.create(0x80030000, window=(0x80050000, PAGE), wants=1)
    case.apart()
    for address in (BASE - 31, BASE - 1, BASE, BASE + 0x800, BASE + PAGE - 32, BASE + PAGE - 1):
        for slot in (0, 1):
            case.call(MEASURE, slot, address, wants=(BAD_ADDRESS, 0))
    for address in (BASE - 32, BASE + PAGE):
        case.call(MEASURE, 0, address, wants=(0, 0))
        case.say("mem %x 32" % address)
    for base, size, window, status in ((BASE, PAGE, (0, 0), OVERLAP), (BASE, 2 * PAGE, (0, 0), OVERLAP), (BASE - PAGE, 2 * PAGE, (0, 0), BAD_REGION),
                                       (BASE, 0x20000, (0, 0), OVERLAP), (0x80080000, PAGE, (BASE, PAGE), OVERLAP),
                                       (0x80080000, PAGE, (BASE, 0x20000), OVERLAP), (WINDOW, PAGE, (0, 0), OVERLAP)):
        case.create(base, size, window, entry=base, wants=status)
        case.say("reg 10", "reg 11", "enclaves")
    case.comment("next to it a region and a window")
    case.create(BASE + PAGE, window=(BASE - PAGE, PAGE), wants=2)
    case.say("enclaves", "pmp")


def accesses():
    """The host, and another enclave, at each boundary of the region."""
    case = TwinCase("calls", "accesses_of_the_host")
    stopped(case)
    case.write(stvec=HOST + 0x1800)
    case.place(HOST + 0x1800, "csrrw", 0, 0x141, 30)
    case.place(HOST + 0x1804, "sret")
    case.apart()
    for boundary in (BASE, BASE + PAGE):
        for name in ("lw", "lh", "lb", "sw", "sh", "sb"):
            for offset in range(-4, 4):
                case.set(6, boundary + offset)
                case.set(7, 0x5A5A5A5A)
                case.set(30, case.machine.pc + 4)
                case.do((name, 7, 0, 6))
                if case.machine.pc == HOST + 0x1800:
                    case.trapped()
                    case.say("step 2")
                case.say("reg 7")
    for target in (BASE, BASE + 4, BASE + PAGE - 4):
        case.set(6, target)
        case.set(30, case.machine.pc + 4)
        case.do(("jalr", 0, 0, 6))
        case.say("step 1")
        case.trapped()
        case.say("step 2")
    case.say("regs", "mem 8001fff0 16", "mem 80021000 16")
    case = TwinCase("calls", "accesses_of_another_enclave")
    stopped(case)
    case.create(BASE + PAGE, window=(WINDOW, PAGE), wants=1)
    case.apart()
    case.enter(1)
    case.write(stvec=BASE + PAGE + 0x800)
    for name in ("lw", "lhu", "lb", "sw", "sb"):
        for address in (BASE, BASE + 0x100, BASE + PAGE - 4, BASE + PAGE - 3, BASE + PAGE - 1, BASE - 2):
            case.set(6, address)
            back = case.machine.pc
            case.do((name, 7, 0, 6))
            case.say("reg 7")
            if case.machine.pc != back + 4:
                case.trapped()
                case.write(sepc=back + 4)
                case.do(("sret",))
    case.call(MEASURE, 0, BASE, wants=(BAD_ADDRESS, 0))
    case.call(MEASURE, 0, WINDOW, wants=(0, 0))
    case.say("mem 80040000 32")
    case.leave(EXIT, 4)
    case.say("regs", "enclaves")


def breaks_and_watches():
    case = TwinCase("calls", "breaks_and_watches")
    stopped(case)
    case.write(stvec=HOST + 0x1800)
    case.place(HOST + 0x1800, "csrrw", 0, 0x141, 30)
    case.place(HOST + 0x1804, "sret")
    case.apart()
    case.say("break 80020000", "break %x" % (HOST + 0x1804), "watch 80020000", "watch 80020100", "watch 8001ffff", "watch 80040004")
    case.set(6, BASE)
    case.set(30, case.machine.pc + 4)
    case.place(case.machine.pc, "lw", 5, 0, 6)
    case.say("run 9", "clear %x" % (HOST + 0x1804), "step 1")
    case.set(6, BASE - 4)
    case.place(case.machine.pc, "lw", 5, 0, 6)
    case.say("run 1", "reg 5")
    case.set(6, WINDOW + 4)
    case.place(case.machine.pc, "sb", 5, 0, 6)
    case.say("run 1")
    case.call(DESTROY, 0, wants=(0, 0))
    case.set(6, BASE + 0x100)
    case.place(case.machine.pc, "lw", 5, 0, 6)
    case.say("run 1", "reg 5")
    assert case.are_equal()


def timers():
    case = TwinCase("calls", "the_timer")
    stopped(case)
    case.create(BASE + PAGE, wants=1)
    case.place(BASE + PAGE, "addi", 5, 5, 1)
    case.place(BASE + PAGE + 4, "jal", 0, -4)
    case.apart()
    for function in (RUN, RESUME, RESUME):
        for name in ("on", "off"):
            case.say("timer " + name)
        case.enter(1, function)
        case.say("step 3", "timer on", "step 1", "regs", "enclaves", "csr 344")


def parts():
    for part in (calls, refusals, accesses, breaks_and_watches, timers):
        part()
