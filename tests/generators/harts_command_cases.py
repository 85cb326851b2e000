"""The cases of two harts: the boundaries of hart and sched, commands on the selected hart, and the private state of each hart."""
from generators.harts_case import CODE_OF, HartsCase, divided
from generators.monitor_case import worked
from models.monitor_model import (BAD_STATE, CREATE, DESTROY, EXIT, HOST_ENTRY, MEASURE, NOT_SUPPORTED, NO_ENCLAVE, NO_SLOT, OVERLAP, RESUME,
                           RUN, STOP)

BASE, PAGE, WINDOW = 0x80020000, 0x1000, 0x80040000
OTHER = BASE + PAGE
MALFORMED = ["hart", "hart 2", "hart 00", "hart 01", "hart 0x1", "hart -1", "hart +1", "hart 0 1", "hart 1 # x", "hart a", "hart 10000000",
             "sched", "sched 2", "sched 0120", "sched 01 10", "sched " + "0" * 65, "sched " + "01" * 33, "sched " + "1" * 63 + "2",
             "sched " + "2" * 65, "sched 0x1", "sched 0,1", "sched -1", "sched # x"]


# ---- hart and sched

def lines_of(case, missing):
    """Every malformed line, and a missing hart."""
    for line in MALFORMED:
        case.wants(line, "error operand")
    for line in ("Hart 1", "harts 1", "HART 0", "Sched 0", "scheds 0", "sched01"):
        case.wants(line, "error command")
    for line in ("hart 1\x00", "sched 0" + " " * 114):
        case.wants(line, "error line")
    for digits in missing:
        case.wants("sched " + digits, "error hart")
    for line in ["hart 1"] if missing else []:
        case.wants(line, "error hart")


def boundaries():
    case = HartsCase("commands", "malformed_lines")
    lines_of(case, ())
    case.say("regs", "hart 1", "regs", "csr f14", "csr b00")
    case.wants("  hart\t0  ", "ok")
    case.wants("csr f14", "csr f14=00000000")
    for name, harts in (("one_hart", 1), ("one_hart_in_an_enclave", 1)):
        case = HartsCase("commands", name, harts)
        if name == "one_hart_in_an_enclave":
            case.create(BASE)
            case.enter(0)
        lines_of(case, ("1", "01", "10", "0101", "0" * 63 + "1", "1" * 64))
        case.say("regs", "csr b00", "csr f14", "hart 0", "csr f14", "sched 0", "sched 00", "sched " + "0" * 64, "csr b00", "regs")
        case.say("timer on", "sched 0", "regs", "enclaves")
    case = HartsCase("commands", "from_1_to_64_digits")
    for i in range(8):
        case.place(HOST_ENTRY + 4 * i, "addi", 5, 5, 1)
    case.place(HOST_ENTRY + 32, "jal", 0, -32)
    for digits in ("0", "1", "00", "11", "01", "10", "0" * 64, "1" * 64, "01" * 32, "0011" * 16, "0" * 63 + "1", "1" * 63 + "0"):
        case.say("sched " + digits)
        for hart in (0, 1):
            case.on(hart)
            case.say("reg 5", "csr b00", "csr b02")
    case = HartsCase("commands", "the_chosen_hart_stays")
    for i in range(4):
        case.place(HOST_ENTRY + 4 * i, "addi", 5, 5, 1)
    for line, reply in (("sched 11", "hart 0 0 pc=80010000 mode=S world=host trap=-"), ("csr f14", "csr f14=00000000"), ("hart 1", "ok"),
                        ("reg 5", "x5=00000002"), ("csr f14", "csr f14=00000001"), ("hart 1", "ok"), ("csr F14", "csr f14=00000001")):
        case.say(line) if line == "sched 11" else case.wants(line, reply)
    case.wants("sched 0", "hart 0 1 pc=80010004 mode=S world=host trap=-", "hart 1 0 pc=80010008 mode=S world=host trap=-")
    case.wants("reg 5", "x5=00000002")


def at_reset():
    case = HartsCase("commands", "at_reset")
    for hart in (0, 1):
        case.on(hart)
        case.say("regs", "pmp", "enclaves", *("csr " + number for number in ("f14", "100", "300", "304", "305", "341", "344", "b00", "b02")))
        case.say("access S r 80010000 4", "access S r 8000fffc 4")
    assert case.machine.regs == [0] * 10 + [1] + [0] * 21
    case.comment("mhartid is refused on each hart")
    case.say("sched 01")
    case = HartsCase("commands", "mhartid_is_no_register_of_s")
    case.place(HOST_ENTRY, "csrrs", 5, 0xF14, 0)
    case.say("sched 01")
    for hart in (0, 1):
        case.on(hart)
        case.say("reg 5", "csr 142", "csr 143", "csr f14")


def what_goes_by_the_chosen_hart():
    case = HartsCase("commands", "of_the_chosen_hart")
    divided(case)
    case.create(BASE, window=(WINDOW, PAGE))
    case.enter(0)
    for hart in (0, 1, 0):
        case.on(hart)
        case.say("setreg 5 %x" % (0x50 + hart), "reg 5", "regs", "pmp", "csr 304", "csr 3a0", "csr 3a3", "csr 341")
        for access in ("S r 80020000 4", "S x 80020ffc 4", "S r 80020ffe 4", "S w 80040000 4", "S x 80040000 4", "S r 80010000 4",
                       "S r 8000fffe 4", "M r 80020000 4", "U r 80100000 1"):
            case.say("access " + access)
        case.say("timer on", "csr 344", "timer off", "csr 344")
    case.comment("memory and the enclave table are shared")
    for hart in (0, 1):
        case.on(hart)
        case.say("poke %x %x" % (WINDOW, hart + 1), "mem %x 4" % WINDOW, "dis %x" % WINDOW, "mem %x 4" % BASE, "enclaves")
        case.on(1 - hart)
        case.say("mem %x 4" % WINDOW, "enclaves")
    case = HartsCase("commands", "breaks_and_watches_are_common")
    for i, instruction in enumerate((("sw", 5, 0, 6), ("addi", 5, 5, 1), ("lbu", 7, 1, 6), ("jal", 0, -12))):
        case.place(HOST_ENTRY + 4 * i, *instruction)
    for hart in (0, 1):
        case.on(hart)
        case.set(6, WINDOW)
    case.say("break 80010008", "watch 80040001")
    case.comment("sched ignores both; run checks only the pc and the accesses of its own hart")
    case.say("sched 0101", "run 9", "run 9", "hart 0", "run 9", "run 9", "hart 1", "clear 80010008", "run 9", "run 9", "hart 0",
             "run 9", "unwatch 80040001", "run 9", "sched 0110", "break 80010008", "step 9", "hart 1", "step 9")
    for i in range(31):
        case.say("break %x" % i)
    case.say("break 20", "hart 0", "break 21", "hart 1", "clear 0", "hart 0", "break 21")


# ---- private state of a hart

def worlds():
    case = HartsCase("own", "each_goes_back_to_its_own_host")
    divided(case)
    for slot, base in enumerate((BASE, OTHER)):
        case.place(base, "ecall")
        case.place(base + 4, "ecall")
        case.create(base, window=(WINDOW, PAGE), wants=slot)
    for hart in (0, 1):
        case.on(hart)
        for number in (1, 5, 9, 28, 31):
            case.set(number, 0x1000 * (hart + 1) + number)
        case.write(sscratch=0xA0 + hart, stvec=CODE_OF[hart] + 0x100)
        case.enter(hart)
    for hart in (0, 1):
        case.on(hart)
        case.say("regs", "csr 140", "csr 105", "pmp", "csr 304")
        for number in (5, 9):
            case.set(number, 0xE0 * (hart + 1) + number)
    case.comment("the enclave of hart 1 stops, that of hart 0 exits")
    case.on(1)
    case.leave(STOP, 0x11, 1)
    case.say("regs", "csr 140", "csr 105", "pmp")
    case.on(0)
    case.say("pmp", "csr 304")
    case.leave(EXIT, 0x22, 0)
    case.say("regs", "csr 140", "csr 105", "pmp", "enclaves")
    case.comment("hart 0 resumes the enclave of hart 1; the registers of hart 1 do not change")
    case.enter(1, RESUME)
    case.say("regs", "csr 140", "pmp", "enclaves")
    case.on(1)
    case.say("regs", "pmp", "csr 304")
    case = HartsCase("own", "calls_are_of_the_harts_own_world")
    divided(case)
    case.create(BASE, window=(WINDOW, PAGE))
    case.enter(0)
    for hart, functions in ((0, (CREATE, DESTROY, RUN, RESUME)), (1, (STOP, EXIT, 0, 8))):
        case.on(hart)
        for function in functions:
            case.call(function, 0, 0, wants=(NOT_SUPPORTED, 0))
    case.on(1)
    for function in (DESTROY, RUN, RESUME):
        case.call(function, 0, wants=(BAD_STATE, 0))
        case.call(function, 1, wants=(NO_ENCLAVE, 0))
    case.call(MEASURE, 0, WINDOW, wants=(0, 0))
    case.create(BASE, wants=OVERLAP)
    case.create(OTHER, window=(BASE, PAGE), wants=OVERLAP)
    case.create(OTHER, window=(WINDOW, PAGE), wants=1)
    case.say("enclaves", "pmp")
    case.on(0)
    case.say("pmp")


def timers():
    case = HartsCase("own", "each_has_its_own_timer_line")
    divided(case)
    for slot, base in enumerate((BASE, OTHER)):
        for i in range(4):
            case.place(base + 4 * i, "addi", 7, 7, 1)
        case.create(base, wants=slot)
    case.on(1)
    case.say("timer on", "csr 344")
    case.on(0)
    case.say("csr 344")
    case.enter(0)
    case.on(1)
    case.enter(1)
    case.comment("the timer interrupts hart 1 at its first step, hart 0 never")
    case.say("sched 0101", "csr 344", "reg 10", "reg 11", "regs", "enclaves")
    case.on(0)
    case.say("csr 344", "reg 7", "timer on")
    case.on(1)
    case.say("csr 344", "sched 1", "csr 344")
    case.on(0)
    case.say("sched 0", "csr 344", "reg 10", "enclaves")


def traps():
    case = HartsCase("own", "each_is_passed_its_own_traps")
    divided(case)
    for hart in (0, 1):
        case.on(hart)
        case.write(stvec=CODE_OF[hart] + 0x200)
    case.on(0)
    case.create(BASE)
    case.enter(0)
    case.write(stvec=BASE + 0x100)
    case.place(BASE + 4, "lw", 5, 0, 6)
    case.set(6, CODE_OF[0])
    case.on(1)
    case.set(6, BASE)
    case.place(case.machine.pc, "lw", 5, 0, 6)
    case.say("sched 01")
    for hart in (0, 1):
        case.on(hart)
        case.trapped()
        case.supervisor()
        case.say("reg 5")


def around_a_running_enclave():
    """The host of the other hart loads, stores, fetches, measures and creates at each boundary of the region of a running enclave."""
    for runs in (0, 1):
        case = HartsCase("own", "hart_%d_around_what_runs_on_hart_%d" % (1 - runs, runs))
        divided(case)
        case.on(runs)
        for i, instruction in enumerate((("sw", 10, 0x100, 10), ("addi", 10, 10, 0), ("jal", 0, -8))):
            case.place(BASE + 4 * i, *instruction)
        case.create(BASE, window=(WINDOW, PAGE))
        case.enter(0)
        case.on(1 - runs)
        handler = CODE_OF[1 - runs] + 0x3E0
        case.write(stvec=handler)
        case.place(handler, "csrrw", 0, 0x141, 30)
        case.place(handler + 4, "sret")
        for boundary in (BASE, BASE + PAGE):
            for name, offset in (("lw", -4), ("lw", -2), ("lb", -1), ("lb", 0), ("sw", -2), ("sb", -1), ("sb", 0), ("sh", -2)):
                case.set(6, boundary + offset)
                case.set(30, case.machine.pc + 4)
                case.place(case.machine.pc, name, 7, 0, 6)
                case.say("sched %d%d" % (1 - runs, runs))
                if case.machine.pc == handler:
                    case.say("sched " + "%d%d" % (1 - runs, runs) * 2)
        case.set(6, BASE)
        case.set(30, case.machine.pc + 4)
        case.do(("jalr", 0, 0, 6))
        case.say("step 1")
        case.trapped()
        case.say("step 2")
        for address in (BASE - 31, BASE, BASE + PAGE - 1):
            case.call(MEASURE, 0, address, wants=(0xFFFFFFF7, 0))
        for arguments in ((BASE, PAGE), (BASE, 2 * PAGE), (BASE + 4 * PAGE, PAGE, (BASE, PAGE)), (WINDOW, PAGE)):
            case.create(*arguments, wants=OVERLAP)
        for function in (DESTROY, RUN, RESUME):
            case.call(function, 0, wants=(BAD_STATE, 0))
        case.create(OTHER, window=(BASE - PAGE, PAGE), wants=1)
        case.say("mem 80020000 16", "mem 80020100 8", "mem 8001fff0 16", "mem 80021000 16", "enclaves", "pmp")


def slots():
    case = HartsCase("own", "thirteen_slots_of_both")
    divided(case)
    for slot in range(13):
        case.on(slot % 2)
        case.create(BASE + slot * PAGE, wants=slot)
    for hart in (0, 1):
        case.on(hart)
        case.create(BASE + 13 * PAGE, wants=NO_SLOT)
        case.say("pmp")
    case.call(DESTROY, 4, wants=(0, 0))
    case.on(0)
    case.create(BASE + 13 * PAGE, wants=4)
    case.say("enclaves", "pmp")


# ---- worked examples with handwritten output

def examples():
    first = ["setreg 17 0a454e43", "setreg 16 1", "setreg 10 80020000", "setreg 11 1000", "setreg 14 80020000", "step 1"]
    made = ["ok"] * 5 + ["ran 1 pc=80010004 mode=S world=host why=done trap=00000009:00000000"]
    lines = [("poke 80020000 13", "ok"), ("setreg 16 3", "ok"), ("setreg 10 0", "ok"),
             ("step 1", "ran 1 pc=80020000 mode=S world=e0 why=done trap=00000009:00000000"), ("hart 1", "ok"),
             ("csr f14", "csr f14=00000001"), ("reg 10", "x10=00000001"), ("setreg 17 0a454e43", "ok"), ("setreg 16 2", "ok"),
             ("setreg 10 0", "ok"), ("step 1", "ran 1 pc=80010004 mode=S world=host why=done trap=00000009:00000000"),
             ("reg 10", "x10=fffffff8"), ("setreg 10 0", "ok"), ("setreg 6 80020000", "ok"),
             ("sched 011", "hart 0 1 pc=80020004 mode=S world=e0 trap=-\nhart 1 2 pc=00000000 mode=S world=host trap=00000005:80020000"),
             ("csr 3a0", "csr 3a0=00001818"), ("csr 3a3", "csr 3a3=1f000000"), ("hart 0", "ok"), ("csr 3a0", "csr 3a0=00001f18"),
             ("csr 3a3", "csr 3a3=00000000")]
    by_hand("a_destroy_and_a_load_during_a_running_enclave", "730000007300000083220300", first, made, lines)
    called = [("setreg 16 3", "ok"), ("setreg 10 0", "ok"), ("hart 1", "ok"), ("setreg 17 0a454e43", "ok"), ("setreg 16 2", "ok"),
              ("setreg 10 0", "ok")]
    done = "hart 1 1 pc=80010004 mode=S world=host trap=00000009:00000000"
    for digits, zero, status, other in (("10", "80010008 mode=S world=host", "fffffff9", "00000000"),
                                        ("01", "80020000 mode=S world=e0", "80020000", "fffffff8")):
        lines = [*called, ("sched " + digits, "hart 0 1 pc=%s trap=00000009:00000000\n%s" % (zero, done)), ("reg 10", "x10=" + other),
                 ("hart 0", "ok"), ("reg 10", "x10=" + status)]
        by_hand("run_and_destroy_by_" + digits, "730000007300000083220300", first, made, lines)


def by_hand(name, image, script, replies, lines):
    script, replies = script + [line for line, _ in lines], replies + [reply for _, reply in lines]
    case = worked("", name, image, "\n".join(script) + "\n", "\n".join(replies) + "\n", harts=2)
    case.topic = "harts_examples"


def parts():
    for part in (boundaries, at_reset, what_goes_by_the_chosen_hart, worlds, timers, traps, around_a_running_enclave, slots, examples):
        part()
