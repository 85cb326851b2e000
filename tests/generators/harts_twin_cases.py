"""The cases of two benches with two harts that differ in one enclave. They have the end of a run on either hart, missing enclaves, and every command
and call of the other hart around it."""
from generators.harts_case import HartsTwinCase, divided
from models.monitor_model import BAD_ADDRESS, BAD_STATE, CREATE, DESTROY, MEASURE, OVERLAP, RESUME, RUN, STOP, STOPPED
from generators.twin_case import WholeTwins
from generators.twin_command_cases import BASE, EVERY, FIRST, PAGE, WINDOW

OTHER = BASE + PAGE


def stopped(case, slot=0, base=BASE):
    """An enclave that has stopped, with words in its registers and its region, and ecalls from its entry on."""
    for i in range(4):
        case.place(base + 4 * i, "ecall")
    case.create(base, window=(WINDOW, PAGE), wants=slot)
    case.enter(slot)
    for number in (5, 9, 28):
        case.set(number, 0x01010101 * number)
    case.leave(STOP, 7, STOPPED)


def ends():
    for hart in (0, 1):
        case = divided(HartsTwinCase("entered_on_hart_%d" % hart))
        stopped(case)
        case.apart()
        case.on(hart)
        case.ready(RESUME, 0)
        case.place(case.machine.pc, "ecall")
        case.enters("step 1")
        case = divided(HartsTwinCase("entered_and_left_within_one_sched_on_hart_%d" % hart))
        stopped(case)
        case.apart()
        case.on(hart)
        case.say("timer on")
        case.ready(RESUME, 0)
        case.place(case.machine.pc, "ecall")
        case.place(case.machine.pc + 4, "ecall")
        case.on(1 - hart)
        case.place(case.machine.pc, "ecall")
        case.place(case.machine.pc + 4, "ecall")
        case.enters("sched %d%d%d%d" % (hart, hart, 1 - hart, 1 - hart))
        case = divided(HartsTwinCase("runs_on_hart_%d" % hart))
        case.on(hart)
        case.create(BASE)
        case.enter(0)
        case.on(0)
        case.apart(is_there=False)
    case = divided(HartsTwinCase("another_slot_runs_on_either_hart", slot=1))
    stopped(case, 0, BASE)
    stopped(case, 1, OTHER)
    case.apart()
    for hart in (0, 1, 0):
        case.on(hart)
        case.enter(0, RESUME)
        case.leave(STOP, 5, STOPPED)
    case.say("enclaves", "pmp")
    case.on(1)
    case.ready(RESUME, 1)
    case.place(case.machine.pc, "ecall")
    case.enters("step 1")
    case = HartsTwinCase("a_missing_hart_is_no_end", harts=1)
    case.create(BASE)
    case.apart()
    case.both("hart 1", "error hart")
    case.both("sched 01", "error hart")
    case.wants("sched 2", "error operand")
    case.both("hart 0", "ok")
    case.say("sched 0")
    assert case.twins.count == 4


def commands():
    case = divided(HartsTwinCase("every_command_of_each_hart"))
    stopped(case)
    case.apart()
    for hart in (0, 1):
        case.on(hart)
        case.place(case.machine.pc, "addi", 5, 5, 1)
        case.place(case.machine.pc + 4, "sw", 5, 0, 6)
        case.place(case.machine.pc + 8, "jal", 0, -8)
        case.set(6, WINDOW)
        case.say(*EVERY, "sched 0", "sched 1", "sched 0110", "clear 80020000")
    case = divided(HartsTwinCase("blind_on_each_hart"))
    stopped(case)
    case.apart()
    for hart in (0, 1):
        case.on(hart)
        for line in ("mem 80020000 1", "mem 8001fffd 4", "poke 80020fff 1", "dis 8001fffd", "dis 80020fff"):
            case.wants(line, "error blind")
        case.say("mem 8001fffc 4", "mem 80021000 4")


def calls():
    """Calls of the other hart around an enclave that has stopped on hart 0."""
    case = divided(HartsTwinCase("calls_of_the_other_hart"))
    stopped(case)
    case.apart()
    case.on(1)
    case.call(RUN, 0, wants=(BAD_STATE, 0))
    case.call(MEASURE, 0, WINDOW, wants=(0, 0))
    for address in (BASE - 31, BASE, BASE + PAGE - 1):
        case.call(MEASURE, 0, address, wants=(BAD_ADDRESS, 0))
    case.create(BASE, wants=OVERLAP)
    case.create(OTHER, window=(BASE, PAGE), wants=OVERLAP)
    case.create(OTHER, window=(WINDOW, PAGE), wants=1)
    case.enter(1)
    case.set(6, BASE)
    case.on(0)
    case.set(6, BASE)
    case.place(case.machine.pc, "lw", 5, 0, 6)
    case.place(OTHER, "lw", 5, 0, 6)
    case.say("sched 01", "regs", "pmp", "enclaves")
    case.on(1)
    case.say("regs", "csr 142", "csr 143", "pmp", "timer on", "step 1", "regs")
    assert not case.are_equal()
    case.call(DESTROY, 0, wants=(0, 0))
    assert case.are_equal()
    case.say("mem 80020000 64", "enclaves", "pmp")
    case.create(BASE)
    case.on(0)
    case.say("enclaves", "pmp")


def races():
    """A destroy of the enclave on one hart, concurrent with each call of the other hart."""
    for order in ("01", "10"):
        for name, call, hart in (("create", (CREATE, BASE, PAGE, 0, 0, BASE), 0), ("measure", (MEASURE, 0, WINDOW), 1),
                                 ("destroy", (DESTROY, 0), 0), ("run", (RUN, 0), 1)):
            case = divided(HartsTwinCase("destroy_and_%s_by_%s" % (name, order)))
            stopped(case)
            case.apart()
            for at, ready in ((hart, call), (1 - hart, (DESTROY, 0))):
                case.on(at)
                case.ready(*ready)
                case.place(case.machine.pc, "ecall")
            case.say("sched " + order, "reg 10", "reg 11", "enclaves", "pmp")
            case.on(hart)
            case.say("reg 10", "reg 11", "pmp", "mem %x 32" % WINDOW)
            assert case.are_equal()


def examples():
    text = "\n".join(["7300000073000000", "--", *FIRST, "--", "hart 1", "setreg 17 0a454e43", "setreg 16 2", "setreg 10 0", "sched 01", ""])
    first = "ok\n" * 5 + "ran 1 pc=80010004 mode=S world=host why=done trap=00000009:00000000\n"
    replies = ["hart 0 1 pc=80010008 mode=S world=host trap=00000009:00000000", "hart 1 1 pc=80010004 mode=S world=host trap=00000009:00000000"]
    ending = "a: ok\nb: ok\n" * 4 + "".join(mark + it + "\n" for mark in ("a: ", "b: ") for it in replies) + "twin end 5\n"
    WholeTwins("", "a_create_and_a_destroy", text, ("--harts", "2"), starts=first + ending, ends=ending).topic = "harts_twin"


def parts():
    for part in (ends, commands, calls, races, examples):
        part()
