"""The cases of world switches: the PMP entries, the switches, timer interrupts, and redirected traps."""
from generators.monitor_case import ECALL, Case
from models.monitor_model import CREATE, DESTROY, EXIT, EXITED, INTERRUPTED, MEASURE, RESUME, RUN, STOP, STOPPED
from models.privileged_hart import ONES

BASE, PAGE, PAST = 0x80020000, 0x1000, 0x80100000
WINDOW = 0x80040000
LOOP = ("addi", 5, 5, 1), ("jal", 0, -4)
SSTATUS = 0x00080122  # SIE, SPIE, SPP and MXR


def asked(case, *boundaries):
    """Accesses of S and U at and around boundaries."""
    for boundary in boundaries:
        for mode in "SU":
            for offset, width in ((-4, 4), (-2, 4), (-1, 1), (-1, 2), (0, 1), (0, 4)):
                for kind in "rwx":
                    case.say("access %s %s %x %d" % (mode, kind, boundary + offset, width))


# ---- the entries

def layouts():
    case = Case("layout", "at_reset")
    case.say("pmp", "csr 304", "csr 300", "csr 305", "enclaves", "regs", "csr 301", "csr 341")
    asked(case, 0x80010000, PAST)
    case.say("access S r 80000000 4", "access M r 80000000 4", "access M x 8000fffc 4", "access S r 7fffffff 1")
    case = Case("layout", "of_sizes_and_slots")
    for at in range(7):
        size = PAGE << at
        case.create(0x80080000 + size, size, window=(0x80020000, PAGE), wants=at)
        case.say("pmp")
    case.say("csr 3a0", "csr 3a1", "csr 3a2", "csr 3a3", *("csr %x" % number for number in range(0x3B0, 0x3C0)))
    for slot in (0, 6, 3):
        case.enter(slot)
        case.say("pmp", "csr 304")
        case.leave(STOP if slot else EXIT, 0, STOPPED if slot else EXITED)
        case.say("pmp", "csr 304")
    for slot in (3, 0, 6, 1):
        case.call(DESTROY, slot, wants=(0, 0))
        case.say("pmp")
    case = Case("layout", "what_each_world_reaches")
    case.create(BASE, window=(WINDOW, 0x2000))
    case.create(BASE + PAGE, 0x1000, wants=1)
    asked(case, 0x80010000, BASE, BASE + PAGE, BASE + 2 * PAGE, WINDOW, WINDOW + 0x2000)
    case.enter(0)
    asked(case, 0x80010000, BASE, BASE + PAGE, BASE + 2 * PAGE, WINDOW, WINDOW + 0x2000)
    case.leave(STOP, 0, STOPPED)
    case.enter(1)
    asked(case, 0x80010000, BASE, BASE + PAGE, BASE + 2 * PAGE, WINDOW, WINDOW + 0x2000)
    case = Case("layout", "region_adjacent_to_its_window")
    case.create(BASE, window=(BASE + PAGE, PAGE))
    case.create(BASE + 3 * PAGE, window=(BASE + 2 * PAGE, PAGE), wants=1)
    for slot, boundary in ((0, BASE + PAGE), (1, BASE + 3 * PAGE)):
        case.enter(slot)
        asked(case, BASE, BASE + PAGE, BASE + 2 * PAGE, BASE + 3 * PAGE, BASE + 4 * PAGE)
        case.write(stvec=case.machine.pc + 0x200)
        for mode in "SU":
            if mode == "U":
                case.to_user()
            for offset, name in ((-4, "sw"), (-3, "sw"), (-2, "lw"), (-1, "sw"), (0, "sw"), (-1, "lhu"), (-1, "sb"), (0, "sb"),
                                 (-1, "lb")):
                back = case.machine.pc
                case.set(6, boundary + offset)
                case.set(7, 0x01020304)
                case.do((name, 7, 0, 6))
                case.say("mem %x 12" % (boundary - 4), "reg 7")
                if case.machine.pc != back + 4:
                    case.trapped()
                    case.write(sepc=back + 4)
                    case.do(("sret",))
        case.do(ECALL)  # from U
        case.leave(STOP, 0, STOPPED)
    case = Case("layout", "accesses_that_are_refused")
    # the host at each boundary of a region: loads, stores and jumps, each reported by the handler of the host
    case.write(stvec=0x80011000)
    case.place(0x80011000, "csrrw", 0, 0x141, 30)
    case.place(0x80011004, "sret")
    case.poke(BASE, b"\x13\x00\x00\x00\x13")
    case.create(BASE)
    for boundary in (BASE, BASE + PAGE, 0x80010000, PAST):
        for name, width in (("lw", 4), ("sw", 4), ("lh", 2), ("sb", 1)):
            for offset in (-4, -2, -1, 0, 1):
                if boundary == 0x80010000 and offset >= 0 and name[0] == "s":
                    continue  # the host's code
                case.set(6, boundary + offset)
                case.set(7, 0xA5A5A5A5)
                case.set(30, case.machine.pc + 4)
                case.do((name, 7, 0, 6))
                if case.machine.pc == 0x80011000:
                    case.trapped()
                    case.say("step 2")
        if boundary < PAST:
            case.say("mem %x 8" % (boundary - 4))
    for target in (BASE, BASE + 4, BASE + PAGE - 4, 0x80000000, 0x8000FFFC, PAST, 0):
        case.set(6, target)
        case.set(30, case.machine.pc + 4)
        case.do(("jalr", 0, 0, 6))
        case.say("step 1")
        case.is_now(pc=0x80011000, mode="S")
        case.trapped()
        case.say("step 2")


# ---- switches

def filled(case, seed):
    """Each register except those of a call, and the registers of mode S that are exchanged."""
    case.write(stvec=(0x80011000 + seed * 0x100) | 3, sscratch=0x10101010 * (seed & 7) + 1, sepc=0x80010003 + seed * 4,
               scause=0x80000000 + seed, stval=0xDEAD0000 + seed, sstatus=(0x80122, 0x80020, 0x00102, 0x80000, 0x122)[seed % 5])
    for number in [*range(1, 10), *range(12, 16), *range(18, 32)]:
        case.set(number, 0x01000193 * (seed * 32 + number) & ONES)


def shown(case):
    case.say("regs")
    case.supervisor()
    case.trapped()
    case.csrs("mie", "mip", "mtvec", "satp")


def switches():
    case = Case("switches", "everything_is_kept")
    case.create(BASE, window=(WINDOW, PAGE), entry=BASE + 0x20)
    case.create(BASE + PAGE, wants=1)
    filled(case, 1)
    host = list(case.machine.regs)
    for slot, seed, function in ((0, 2, STOP), (1, 3, STOP), (0, 4, STOP), (1, 5, EXIT), (0, 6, EXIT)):
        first = case.machine.table[slot].state == "Fresh"
        case.enter(slot, RUN if first else RESUME)
        shown(case)
        if first:
            case.is_now(x1=0, x17=0, x31=0, x10=BASE + slot * PAGE, x11=PAGE, x12=0 if slot else WINDOW, mode="S")
        filled(case, seed)
        kept = list(case.machine.regs)
        case.leave(function, 0xABCD0000 + seed, STOPPED if function == STOP else EXITED)
        shown(case)
        assert case.machine.regs[1:10] + case.machine.regs[18:] == host[1:10] + host[18:]
        if function == STOP:
            context = case.machine.table[slot].context
            assert context.regs[1:10] + context.regs[12:16] + context.regs[18:] == kept[1:10] + kept[12:16] + kept[18:]
        case.comment("the present registers of the host")
        filled(case, 1)
    case = Case("switches", "flags_of_mode_s")
    case.create(BASE)
    case.create(BASE + PAGE, wants=1)
    values = [SIE | SPIE | SPP | MXR for SIE in (0, 2) for SPIE in (0, 0x20) for SPP in (0, 0x100) for MXR in (0, 0x80000)]
    function = RUN
    for at, value in enumerate(values):
        case.write(sstatus=value)
        case.enter(0, function)
        case.csrs("sstatus", "mstatus")
        case.write(sstatus=values[-1 - at])
        case.leave(STOP, at, STOPPED)
        case.csrs("sstatus", "mstatus")
        assert case.machine.reading(0x100) == value
        function = RESUME
    case.write(sstatus=ONES)
    case.csrs("sstatus", "mstatus")
    assert case.machine.reading(0x100) == SSTATUS
    case = Case("switches", "supervisor_words_at_their_masks")
    case.create(BASE)
    function = RUN
    for word in (0, 1, 2, 3, 4, 7, 0x12345678, 0x80000000, ONES):
        case.write(stvec=word, sscratch=word, sepc=word, scause=word, stval=word)
        case.enter(0, function)
        case.supervisor()
        case.write(stvec=ONES ^ word, sscratch=ONES ^ word, sepc=ONES ^ word, scause=ONES ^ word, stval=ONES ^ word)
        case.leave(STOP, word, STOPPED)
        case.supervisor()
        function = RESUME
    case = Case("switches", "values_that_are_handed_over")
    case.create(BASE)
    function = RUN
    for value in (0, 1, 2, 3, 0x7FFFFFFF, 0x80000000, ONES, 0xFFFFFFF7, BASE):
        case.enter(0, function)
        case.set(11, 0x5EC4E7)
        case.leave(STOP, value, STOPPED)
        function = RESUME
    case.enter(0, RESUME)
    case.say("reg 10", "reg 11")
    case.is_now(x10=0, x11=0)
    case.leave(EXIT, ONES, EXITED)
    case = Case("switches", "where_each_world_goes_on")
    case.create(BASE, entry=BASE + PAGE - 8)
    case.comment("the call of the host is the last word before the region")
    case.do(("jal", 0, 0x100))
    case.enter(0)
    case.is_now(pc=BASE + PAGE - 8)
    host = case.machine.host.pc
    case.leave(STOP, 1, STOPPED)
    case.is_now(pc=host, mode="S", world="host")
    case.enter(0, RESUME)
    case.is_now(pc=BASE + PAGE - 4)
    case.comment("its last word is a call too: after resume it continues after its region, where it has no access")
    case.leave(STOP, 2, STOPPED)
    case.enter(0, RESUME)
    case.is_now(pc=BASE + PAGE)
    case.say("step 1")
    case.trapped()
    case.supervisor()
    case = Case("switches", "other_registers_are_not_switched")
    case.create(BASE)
    for number in ("mscratch", "mtvec", "medeleg", "mcounteren", "satp", "mcycle", "minstret", "mcountinhibit"):
        case.csrs(number)
    case.enter(0)
    case.csrs("mscratch", "mtvec", "mcycle", "minstret")
    case.do(("addi", 1, 1, 1), ("wfi",), ("sfence.vma", 0, 0), ("fence iorw, iorw",))
    case.leave(EXIT, 0, EXITED)
    case.csrs("mscratch", "mtvec", "mcycle", "minstret", "mcountinhibit")
    case = Case("switches", "thirteen_enclaves")
    for slot in range(13):
        case.create(BASE + slot * PAGE, window=(WINDOW, PAGE), wants=slot)
    for turn, function in enumerate((RUN, RESUME, RESUME)):
        for slot in ((0, 5, 12, 7, 1, 2, 11, 3, 10, 4, 9, 6, 8), range(13), range(12, -1, -1))[turn]:
            case.enter(slot, function)
            case.say("reg 5", "reg 10", "csr 140")
            case.is_now(x5=turn * (slot + 1) if turn < 2 else slot + 1)
            case.set(5, slot + 1)
            case.write(sscratch=0x100 * turn + slot)
            case.leave(STOP if turn < 2 else EXIT, slot, STOPPED if turn < 2 else EXITED)
    case.say("enclaves")


# ---- the timer

def timers():
    for state in ("first_step", "in_a_loop", "at_its_ecall", "at_a_fault", "in_user_mode"):
        case = Case("timer", state)
        case.create(BASE, window=(WINDOW, PAGE))
        case.enter(0)
        if state != "first_step":
            filled(case, 3)
        if state == "in_user_mode":
            case.write(stvec=BASE + 0x800)
            case.to_user()
        if state == "in_a_loop":
            case.do(*LOOP)
            case.say("step 7")
        elif state in ("at_its_ecall", "in_user_mode"):
            case.place(case.machine.pc, "ecall")
            case.set(17, 0x0A454E43)
            case.set(16, STOP)
        elif state == "at_a_fault":
            case.place(case.machine.pc, ".word", 0)
        at, mode, x10 = case.machine.pc, case.machine.mode, case.machine.regs[10]
        case.say("timer on", "csr 344", "step 1", "reg 10", "reg 11", "csr 344", "enclaves")
        case.is_now(world="host", x10=INTERRUPTED, x11=0)
        case.trapped()
        case.comment("it resumes where it was, with all its registers")
        case.enter(0, RESUME)
        case.is_now(pc=at, mode="SU"[mode == 0], x10=x10)
        shown(case)
        case.say("step 1")
        case.trapped()
        case.say("csr 344", "enclaves", "reg 10", "reg 11")
    case = Case("timer", "raised_while_the_host_runs")
    case.create(BASE)
    case.say("timer on")
    case.do(("addi", 5, 5, 1), ("wfi",), ("addi", 5, 5, 1))
    case.say("csr 344", "csr 304", "reg 5")
    case.comment("it is taken at the first step of the enclave, which executes nothing")
    case.enter(0)
    case.is_now(pc=BASE, x10=BASE)
    case.csrs("mip", "mie")
    case.say("step 1", "reg 10", "reg 11", "csr 344")
    case.is_now(world="host", x10=2)
    case.enter(0, RESUME)
    case.is_now(pc=BASE, x10=BASE, x11=PAGE)
    case.say("timer on", "timer off")
    case.do(("addi", 6, 6, 1))
    case.is_now(world="e0")
    case.say("reg 6", "timer on", "timer on", "step 1")
    case.is_now(world="host", x10=2)
    case = Case("timer", "raised_again_and_again")
    case.create(BASE)
    for i, instruction in enumerate(LOOP):
        case.place(BASE + 4 * i, *instruction)
    case.enter(0)
    for turn in range(6):
        case.say("timer on", "step 1", "reg 5")
        case.is_now(world="host", x10=2, x11=0)
        case.enter(0, RESUME)
        case.say("reg 5", "step %d" % (turn + 1), "reg 5")
    case.comment("the timer line remains set, and the enclave makes no step")
    for _ in range(3):
        case.say("timer on", "step 1")
        case.say("timer on")
        case.enter(0, RESUME)
        case.say("step 1")
        case.is_now(world="host", x10=2)
        case.say("timer off")
        case.enter(0, RESUME)
    case.leave(EXIT, 1, EXITED)
    case = Case("timer", "the_line_and_the_counters")
    case.create(BASE)
    case.enter(0)
    case.csrs("mcycle", "minstret")
    case.say("timer on", "step 1")
    case.csrs("mcycle", "minstret")
    case.enter(0, RESUME)
    case.csrs("mcycle", "minstret", "mip")
    case = Case("timer", "after_an_exit_or_stop_with_the_line_up")
    case.create(BASE)
    case.create(BASE + PAGE, wants=1)
    case.enter(0)
    case.call(STOP, 4)
    case.say("timer on")
    case.do(("addi", 1, 1, 1))
    case.is_now(world="host")
    case.enter(1)
    case.say("step 1")
    case.is_now(world="host", x10=2)
    case.say("csr 344", "enclaves")
    case.enter(0, RESUME)
    case.is_now(x10=0)
    case.say("step 1")


# ---- redirected traps

FAULTS = {  # a name: the instruction that traps, its cause, and its mtval by the address that x6 holds
    "misaligned_jump": (("jal", 1, 6), 0), "misaligned_jalr": (("jalr", 1, 2, 6), 0), "misaligned_branch": (("beq", 0, 0, 10), 0),
    "no_instruction": ((".word", 0xFFFFFFFF), 2), "zero": ((".word", 0), 2), "mret": (("mret",), 2),
    "read_of_mstatus": (("csrrs", 5, 0x300, 0), 2), "write_of_pmpcfg0": (("csrrw", 0, 0x3A0, 5), 2),
    "write_of_pmpaddr1": (("csrrw", 5, 0x3B1, 5), 2), "write_of_mie": (("csrrsi", 0, 0x304, 31), 2),
    "write_of_mhartid": (("csrrw", 0, 0xF14, 5), 2), "missing_csr": (("csrrs", 5, 0xC00, 0), 2), "ebreak": (("ebreak",), 3),
    "load_of_the_monitors": (("lw", 5, 0, 6), 5), "store_to_the_monitors": (("sw", 5, 0, 6), 7),
    "load_outside": (("lb", 5, 0, 7), 5), "store_outside": (("sh", 5, -1, 7), 7)}
ALLOWED_IN_S = (("wfi",), ("sfence.vma", 0, 0), ("sfence.vma", 5, 6), ("fence iorw, iorw",), ("csrrs", 5, 0x180, 0),
                ("csrrw", 5, 0x180, 6), ("csrrw", 5, 0x104, 6), ("csrrs", 5, 0x144, 6))


def redirected(case, code):
    """Each exception in S and in U, with every combination of SIE and SPIE; the handler is at `code`."""
    case.set(6, 0x8000FFFC)
    case.set(7, PAST)
    case.write(stvec=code | 3)
    for mode in "SU":
        for at, (name, (instruction, cause)) in enumerate(FAULTS.items()):
            case.comment("%s in %s" % (name, mode))
            case.write(sstatus=(0x80022, 0x20, 0x2, 0x80000)[at % 4])
            if mode == "U":
                case.to_user()
            back, interrupts = case.machine.pc, case.machine.reading(0x100) >> 1 & 1
            case.do(instruction)
            case.is_now(pc=code, mode="S")
            assert case.machine.reading(0x142) == cause and case.machine.reading(0x141) == back, name
            assert case.machine.reading(0x100) & 0x122 == (0x100 if mode == "S" else 0) | interrupts << 5, name
            case.supervisor()
            case.trapped()
            code += 0x20
            case.write(stvec=code | at % 4)
    case.say("regs", "enclaves", "csr b00", "csr b02")


def redirection():
    for world in ("host", "enclave"):
        case = Case("redirection", "of_the_" + world)
        case.create(BASE, 0x2000, window=(WINDOW, PAGE))
        if world == "enclave":
            case.enter(0)
        redirected(case, case.machine.pc + 0x800 & ~0x1F)
    case = Case("redirection", "allowed_in_s_and_not_in_u")
    for instruction in ALLOWED_IN_S:
        assert case.do(instruction).endswith("trap=-")
    for instruction in ALLOWED_IN_S:
        case.write(stvec=case.machine.pc + 0x40)
        case.to_user()
        case.do(instruction)
        case.trapped()
        case.is_now(mode="U" if instruction[0][:5] == "fence" else "S")
        if case.machine.mode == 0:
            case.do(ECALL)
    for world in ("host", "e0"):
        for low in range(4):
            case = Case("redirection", "stvec_with_low_bits_%d_in_%s" % (low, world))
            case.create(BASE)
            if world == "e0":
                case.enter(0)
            handler = case.machine.pc + 0x100
            case.write(stvec=handler | low)
            case.csrs("stvec")
            case.do((".word", 0))
            case.is_now(pc=handler, mode="S", world=world)
            case.do(("ebreak",))
            case.is_now(pc=handler)
            case.supervisor()
    for world in ("host", "e0"):
        case = Case("redirection", "one_fault_in_the_handler_of_another_in_" + world)
        if world == "e0":
            case.create(BASE)
            case.enter(0)
        handler = case.machine.pc + 0x400
        case.write(stvec=handler, sstatus=2)
        case.to_user()
        case.do(ECALL)
        for _ in range(3):
            case.supervisor()
            case.trapped()
            case.do((".word", 0))
            case.is_now(pc=handler, mode="S", world=world)
        case.say("step 5")
        case.supervisor()
    case = Case("redirection", "a_handler_outside_memory")
    case.create(BASE)
    case.enter(0)
    case.do((".word", 0))
    case.is_now(pc=0)
    for _ in range(3):
        case.say("step 1")
        case.supervisor()
        case.trapped()
    case.comment("the timer still interrupts it")
    case.say("timer on", "step 1")
    case.is_now(world="host", x10=2)
    case.enter(0, RESUME)
    case.is_now(pc=0)
    case.say("step 4", "timer on", "step 1")
    case.call(DESTROY, 0, wants=(0, 0))
    case.comment("a host whose handler is in the range of the monitor")
    case.write(stvec=0x80000000)
    case.do((".word", 0))
    case.say("step 3")
    case.supervisor()
    case = Case("redirection", "sret")
    for spp in (0, 0x100):
        for flags in (0, 2, 0x20, 0x22, 0x80022):
            case.write(stvec=case.machine.pc + 0x80, sstatus=spp | flags, sepc=case.machine.pc + 16)
            case.do(("sret",))
            case.is_now(mode="SU"[not spp])
            case.csrs("mstatus", "sstatus")
            if not spp:
                case.do(ECALL)
                case.supervisor()
    case = Case("redirection", "calls_of_the_handler")
    # a runtime in S serves its application in U: it handles each ecall of U, and stops
    case.create(BASE, window=(WINDOW, PAGE))
    case.enter(0)
    case.write(stvec=BASE + 0x100)
    case.to_user()
    for turn in range(3):
        back = case.machine.pc
        case.set(10, 0x70 + turn)
        case.do(ECALL)
        case.is_now(pc=BASE + 0x100, mode="S", x10=0x70 + turn)
        case.call(STOP, 0x70 + turn)
        case.is_now(world="host", x10=STOPPED, x11=0x70 + turn)
        case.enter(0, RESUME)
        case.is_now(pc=BASE + 0x104, mode="S", x10=0)
        case.call(MEASURE, 0, WINDOW + 32 * turn, wants=(0, 0))
        case.write(sepc=back + 4)
        case.do(("sret",))
        case.is_now(mode="U", pc=back + 4, world="e0")
    case.say("mem 80040000 32", "mem 80040020 32", "mem 80040040 32", "enclaves")


def after_each_kind():
    """mepc, mcause, mtval and mstatus after each kind of trap, in the host and in an enclave."""
    case = Case("redirection", "what_every_trap_leaves")
    case.trapped()
    for function, arguments in ((CREATE, (BASE, PAGE, WINDOW, PAGE, BASE)), (CREATE, (BASE, 1)), (MEASURE, (0, WINDOW)),
                                (MEASURE, (0, 0)), (DESTROY, (1,)), (99, ())):
        case.call(function, *arguments)
        case.trapped()
    case.enter(0)
    case.trapped()
    for function, arguments in ((MEASURE, (0, WINDOW)), (MEASURE, (0, 0)), (CREATE, ())):
        case.call(function, *arguments)
        case.trapped()
    case.write(stvec=BASE + 0x400)
    case.to_user()
    case.trapped()
    case.do(ECALL)
    case.trapped()
    case.leave(STOP, 1, STOPPED)
    case.trapped()
    case.enter(0, RESUME)
    case.trapped()
    case.say("timer on", "step 1")
    case.trapped()
    case.enter(0, RESUME)
    case.leave(EXIT, 1, EXITED)
    case.trapped()
    case.call(RUN, 0)
    case.trapped()
    case.call(DESTROY, 0)
    case.trapped()
    case.csrs("mcycle", "minstret")


def parts():
    for part in (layouts, switches, timers, redirection, after_each_kind):
        part()
