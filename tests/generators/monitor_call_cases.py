"""The cases of destroy, run, resume, measure, stop and exit. They have accepted and refused calls, from the host and from an enclave, and the state
that a refused call does not change."""
from generators.monitor_case import Case
from models.monitor_model import (BAD_ADDRESS, BAD_STATE, CREATE, DESTROY, EXIT, EXITED, KEY, MEASURE, NOT_SUPPORTED, NO_ENCLAVE,
                           RESUME, RUN, STOP, STOPPED)
from models.privileged_hart import ONES

BASE, PAGE, PAST = 0x80020000, 0x1000, 0x80100000
WINDOW = 0x80040000
NO_SLOTS = [13, 14, 16, 31, 32, 255, 256, 1 << 16, 0x7FFFFFFF, 0x80000000, 0x80000001, 0xFFFFFFF3, ONES]
STATES = {"Fresh": (), "Stopped": (STOP,), "Exited": (EXIT,)}  # and how an enclave reaches it


def brought(case, slot, state):
    """Creates an enclave at its own page of the regions, in a state."""
    case.create(BASE + slot * PAGE, window=(WINDOW, PAGE), wants=slot)
    for function in STATES[state]:
        case.enter(slot)
        case.leave(function, 7, STOPPED if function == STOP else EXITED)


def states():
    """Every call of a slot in every state."""
    for state in STATES:
        case = Case("states", state.lower())
        brought(case, 0, state)
        for function in (RUN, RESUME, DESTROY):
            taken = {RUN: state == "Fresh", RESUME: state == "Stopped", DESTROY: True}[function]
            case.comment("call %d of an enclave that is %s" % (function, state))
            case.call(MEASURE, 0, WINDOW, wants=(0, 0))
            if function == DESTROY:
                case.call(DESTROY, 0, wants=(0, 0))
            elif taken:
                case.enter(0, function)
                case.leave(STOP, 5, STOPPED)
                case.call(DESTROY, 0, wants=(0, 0))
                brought(case, 0, state)
            else:
                case.call(function, 0, wants=(BAD_STATE, 0))
            case.say("enclaves", "pmp")
        for function in (RUN, RESUME, DESTROY, MEASURE):
            case.call(function, 0, WINDOW, wants=(NO_ENCLAVE, 0))
    case = Case("states", "a_life")
    case.create(BASE)
    case.call(RESUME, 0, wants=(BAD_STATE, 0))
    case.enter(0)
    case.say("enclaves")
    case.leave(STOP, 1, STOPPED)
    case.call(RUN, 0, wants=(BAD_STATE, 0))
    case.enter(0, RESUME)
    case.leave(STOP, 2, STOPPED)
    case.call(RUN, 0, wants=(BAD_STATE, 0))
    case.enter(0, RESUME)
    case.leave(EXIT, 3, EXITED)
    case.say("enclaves")
    for function in (RUN, RESUME):
        case.call(function, 0, wants=(BAD_STATE, 0))
    case.call(MEASURE, 0, WINDOW, wants=(0, 0))
    case.call(DESTROY, 0, wants=(0, 0))
    for function in (DESTROY, RUN, RESUME, MEASURE):
        case.call(function, 0, WINDOW, wants=(NO_ENCLAVE, 0))
    case.say("enclaves", "mem 80040000 32")
    case = Case("states", "slots_at_their_boundary")
    for slot in range(13):
        case.create(BASE + slot * PAGE, wants=slot)
    for function in (DESTROY, RUN, RESUME, MEASURE):
        for slot in NO_SLOTS:
            case.call(function, slot, WINDOW, wants=(NO_ENCLAVE, 0))
    case.call(RESUME, 12, wants=(BAD_STATE, 0))
    case.enter(12)
    case.leave(EXIT, 1, EXITED)
    case.call(DESTROY, 12, wants=(0, 0))
    for function in (DESTROY, RUN, RESUME, MEASURE):
        case.call(function, 12, WINDOW, wants=(NO_ENCLAVE, 0))
    case.say("enclaves")
    case = Case("states", "in_company")
    brought(case, 0, "Exited")
    case.comment("NotSupported, NoEnclave, BadState, BadAddress: the first one is the status")
    for function in (DESTROY, RUN, RESUME, MEASURE):
        for slot in (0, 1, 13):
            case.call(function, slot, 0, key=KEY - 1, wants=(NOT_SUPPORTED, 0))
    for slot in (1, 12, 13, ONES):
        case.call(MEASURE, slot, 0, wants=(NO_ENCLAVE, 0))
        case.call(MEASURE, slot, WINDOW, wants=(NO_ENCLAVE, 0))
    case.call(MEASURE, 0, 0, wants=(BAD_ADDRESS, 0))
    case.say("mem 80040000 32")


def refused_calls():
    """Refused calls change only the result, pc and the trap registers, in the host and in an enclave."""
    for world in ("host", "e0"):
        case = Case("states", "a_refused_call_changes_only_its_answer_in_" + world)
        case.create(BASE, window=(WINDOW, PAGE))
        case.create(BASE + PAGE, wants=1)
        if world == "e0":
            case.enter(0)
        for number in range(1, 32):
            case.set(number, 0x01010101 * number)
        case.write(stvec=BASE + 0x100, sscratch=0x1234, sepc=BASE + 0x200, scause=5, stval=6, sstatus=0x80022)
        calls = {(DESTROY, 2): NO_ENCLAVE, (RUN, 13): NO_ENCLAVE, (RESUME, 1): BAD_STATE, (MEASURE, 1, 0): BAD_ADDRESS,
                 (MEASURE, 7, WINDOW): NO_ENCLAVE, (STOP, 5): NOT_SUPPORTED, (EXIT, 5): NOT_SUPPORTED}
        if world == "e0":
            calls = {(MEASURE, 1, 0): BAD_ADDRESS, **{(function, 1): NOT_SUPPORTED for function in (CREATE, DESTROY, RUN, RESUME)}}
        for arguments, status in calls.items():
            before = list(case.machine.regs)
            case.call(*arguments, wants=(status, 0))
            assert case.machine.regs[1:10] + case.machine.regs[12:16] == before[1:10] + before[12:16]
            case.say("regs", "enclaves", "pmp", "mem %x 16" % BASE, "mem %x 16" % WINDOW)
            case.trapped()
            case.supervisor()


def destroys():
    case = Case("destroy", "zeroes_the_region_alone")
    for base, size in ((BASE, PAGE), (0x80048000, 0x8000)):
        edges = (base - 4, base, base + size // 2, base + size - 4, base + size)
        for edge in edges:
            case.poke(edge, b"\xa1\xb2\xc3\xd4")
        case.create(base, size, window=(base + size, PAGE))
        case.say(*("mem %x 4" % edge for edge in edges))
        case.call(DESTROY, 0, wants=(0, 0))
        case.say(*("mem %x 4" % edge for edge in edges), "enclaves", "pmp")
        assert case.machine.part(base - 4, 4) == case.machine.part(base + size, 4) == b"\xa1\xb2\xc3\xd4"
        assert not any(case.machine.part(base, size))
    case = Case("destroy", "one_of_many")
    for slot in range(4):
        case.poke(BASE + slot * PAGE, b"\x73\x00\x00\x00" + bytes([0x10 + slot]))
        case.create(BASE + slot * PAGE, window=(WINDOW, PAGE), wants=slot)
    case.enter(2)
    case.leave(STOP, 1, STOPPED)
    for slot in (1, 3):
        case.call(DESTROY, slot, wants=(0, 0))
        case.say("enclaves", "pmp", *("mem %x 8" % (BASE + at * PAGE) for at in range(4)))
    case.comment("the host can access its region again: a load of zeros, a store, a fetch")
    case.set(6, BASE + PAGE)
    case.do(("lw", 5, 0, 6), ("sw", 6, 4, 6), ("lw", 7, 4, 6))
    case.say("reg 5", "reg 7")
    case.set(6, BASE)
    case.comment("not that of a live enclave")
    case.say("access S r 80020000 4", "access S r 80021000 4", "access S x 80021000 4", "access S w 80023ffc 4",
             "access S r 80022000 1")
    case = Case("destroy", "a_slot_that_is_used_again")
    case.create(BASE)
    case.enter(0)
    for number in range(1, 16):
        case.set(number, 0x1000 + number)
    case.write(sscratch=0x5EC4E7, stvec=BASE + 0x40)
    case.leave(STOP, 0, STOPPED)
    case.call(DESTROY, 0, wants=(0, 0))
    case.create(BASE, entry=BASE + 8)
    case.enter(0)
    case.say("regs")
    case.supervisor()
    case.is_now(pc=BASE + 8, x1=0, x9=0, x10=BASE)


def not_supported():
    for world in ("host", "enclave"):
        case = Case("not_supported", "of_the_" + world)
        case.create(BASE, window=(WINDOW, PAGE))
        own = (CREATE, DESTROY, RUN, RESUME, MEASURE)
        if world == "enclave":
            case.create(BASE + PAGE, wants=1)
            case.enter(0)
            own = (MEASURE, STOP, EXIT)
        for key in (KEY + 1, KEY - 1, 0, 1, ONES, KEY ^ 0x80000000, KEY ^ 1 << 16, 0x434E450A, KEY & 0xFFFF):
            for function in range(9):
                case.call(function, 0, WINDOW, key=key, wants=(NOT_SUPPORTED, 0))
            case.call(MEASURE, 0, ONES, key=key, wants=(NOT_SUPPORTED, 0))  # and a BadAddress
        for function in (0, 8, 9, 10, 16, 0x101, 0x10001, 0x80000001, 0xFFFFFFFE, ONES, *{*range(1, 8)} - {*own}):
            for slot in (0, 1, 13, ONES):
                case.call(function, slot, WINDOW, wants=(NOT_SUPPORTED, 0))
        case.say("regs", "enclaves", "pmp", "mem 80040000 32", "csr 304")
        case.trapped()
        case.comment("its own calls are accepted")
        case.call(MEASURE, 0, WINDOW, wants=(0, 0))
        if world == "enclave":
            case.leave(EXIT, 2, EXITED)
        else:
            case.call(DESTROY, 0, wants=(0, 0))


# ---- measure

def places(case, slot, refused, taken, marked=()):
    """A measurement written to addresses whose 32 bytes are all refused or all accepted; the bytes around them do not change."""
    for address in refused:
        case.call(MEASURE, slot, address & ONES, wants=(BAD_ADDRESS, 0))
    case.say(*("mem %x 64" % address for address in marked))
    for address in taken:
        case.call(MEASURE, slot, address, wants=(0, 0))
        first, last = max(address - 4, 0x80000000), min(address + 36, PAST)
        case.say("mem %x %d" % (first, last - first))
        digest = next(it.measurement for at, it in case.machine.table.items() if at == (slot if case.machine.world is None
                                                                                        else case.machine.world))
        assert case.machine.part(address, 32) == digest


def boundaries(first, past):
    """Returns 32-byte ranges that overlap a range, and the nearest ones that do not."""
    return ([first - 31, first - 30, first - 16, first - 1, first, first + 1, past - 32, past - 1], [first - 32, past])


def measures_of_the_host():
    case = Case("measure", "by_the_host_at_the_end_of_ram")
    case.create(BASE)
    places(case, 0, [PAST - 31, PAST - 30, PAST - 16, PAST - 1, PAST, PAST + 1, 0, 31, 0x40000000, 0x7FFFFFE0, 0x7FFFFFE1,
                     0x7FFFFFFF, 0xFFFFFFE0, 0xFFFFFFE1, 0xFFFFFFF0, ONES],
           [PAST - 32, PAST - 33, PAST - 64, PAST - 47], [PAST - 64])
    case = Case("measure", "by_the_host_at_the_monitors_range")
    case.do(("jal", 0, 0x100))  # from the first bytes after the range
    case.create(BASE)
    places(case, 0, [0x80000000, 0x80000020, 0x80008000, 0x8000FFE0, 0x8000FFE1, 0x8000FFF0, 0x8000FFFC, 0x8000FFFF],
           [0x80010000, 0x80010001, 0x80010020], [0x8000FFE0])
    case.say("mem 8000fff0 64", "mem 80000000 64")
    case = Case("measure", "by_the_host_at_regions")
    case.create(BASE, window=(WINDOW, PAGE))
    case.create(BASE + 4 * PAGE, 0x4000, wants=1)
    for slot, (first, past) in enumerate(((BASE, BASE + PAGE), (BASE + 0x4000, BASE + 0x8000))):
        for of in (0, 1):
            refused, taken = boundaries(first, past)
            places(case, of, refused, taken, [first - 32, past - 32])
    case.comment("no valid address between two regions less than 32 bytes apart; here they are adjacent")
    case.create(BASE + PAGE, wants=2)
    places(case, 2, [BASE + PAGE - 32, BASE + PAGE - 16, BASE + PAGE], [BASE + 2 * PAGE], [BASE + PAGE - 32])
    case.comment("the region of a destroyed enclave")
    case.call(DESTROY, 0, wants=(0, 0))
    places(case, 1, [BASE + PAGE - 31, BASE + PAGE - 16, BASE + PAGE], [BASE - 16, BASE, BASE + PAGE - 32], [BASE + PAGE - 32])
    case = Case("measure", "by_the_host_into_windows")
    case.create(BASE, window=(WINDOW, PAGE))
    case.create(BASE + PAGE, window=(WINDOW, 2 * PAGE), wants=1)
    places(case, 1, [], [WINDOW, WINDOW - 16, WINDOW + PAGE - 16, WINDOW + PAGE, WINDOW + 2 * PAGE - 1], [WINDOW])
    case.enter(0)
    case.leave(STOP, 0, STOPPED)
    places(case, 0, [], [WINDOW + 1, WINDOW + PAGE - 31], [WINDOW])
    case = Case("measure", "of_an_enclave_in_each_state")
    for slot, state in enumerate(STATES):
        brought(case, slot, state)
    for slot in range(3):
        places(case, slot, [BASE + slot * PAGE], [WINDOW + 64 * slot])


def measures_of_an_enclave():
    case = Case("measure", "by_an_enclave")
    case.create(BASE, window=(WINDOW, PAGE))
    case.create(BASE + PAGE, window=(WINDOW + PAGE, PAGE), wants=1)
    case.enter(0)
    case.comment("of itself, for any a0; the region begins with its code")
    for a0 in (0, 1, 2, 12, 13, ONES):
        places(case, a0, [], [BASE + 0x400 + 64 * (a0 % 16), WINDOW + 64 * (a0 % 16)])
    region_refused = [BASE - 32, BASE - 31, BASE - 1, BASE + PAGE - 31, BASE + PAGE - 16, BASE + PAGE - 1, BASE + PAGE]
    places(case, 1, region_refused, [BASE + PAGE - 32, BASE + PAGE - 33], [BASE - 32, BASE + PAGE - 32, BASE + PAGE])
    places(case, 1, [WINDOW - 32, WINDOW - 31, WINDOW - 1, WINDOW + PAGE - 31, WINDOW + PAGE - 1, WINDOW + PAGE],
           [WINDOW, WINDOW + 1, WINDOW + PAGE - 32, WINDOW + PAGE - 33], [WINDOW - 32, WINDOW + PAGE - 32])
    places(case, 1, [0, 0x80000000, 0x8000FFE0, 0x80010000, 0x80011000, PAST - 32, PAST - 31, PAST, 0xFFFFFFF0, ONES], [])
    case.say("enclaves", "pmp")
    case.leave(STOP, 9, STOPPED)
    places(case, 1, [BASE + PAGE - 32], [WINDOW + PAGE])
    case = Case("measure", "by_an_enclave_without_a_window")
    case.create(BASE)
    case.enter(0)
    places(case, 0, [WINDOW, 0x80010100, BASE + PAGE, 0], [BASE + PAGE - 32])
    case = Case("measure", "across_a_region_and_its_window")
    # each byte alone may be stored, but no access across the boundary
    case.create(BASE, window=(BASE + PAGE, PAGE))
    case.enter(0)
    case.say("access S w 80020ffe 4", "access S w 80020fff 1", "access S w 80021000 1")
    places(case, 0, [], [BASE + PAGE - 16, BASE + PAGE - 1, BASE + PAGE - 31])
    case.leave(STOP, 0, STOPPED)
    places(case, 0, [BASE + PAGE - 1], [BASE + PAGE])
    case = Case("measure", "over_its_own_code")
    case.create(BASE)
    case.enter(0)
    places(case, 0, [], [BASE + 4])
    case.comment("the next fetch is a word of the measurement")
    case.say("step 1")
    case.trapped()
    case = Case("measure", "into_the_window_of_another")
    case.create(BASE, window=(WINDOW, PAGE))
    case.create(BASE + PAGE, window=(WINDOW, 2 * PAGE), wants=1)
    case.enter(1)
    places(case, 0, [], [WINDOW + 0x100, WINDOW + PAGE - 16, WINDOW + PAGE])
    case.leave(STOP, 0, STOPPED)
    case.enter(0)
    places(case, 1, [WINDOW + PAGE - 31], [WINDOW + 0x200])


def ecalls_from_user():
    """These ecalls are redirected whatever the registers are, and are not calls."""
    for world in ("host", "e0"):
        case = Case("not_supported", "an_ecall_from_u_is_no_call_of_" + world)
        case.create(BASE)
        if world == "e0":
            case.enter(0)
        case.write(stvec=case.machine.pc + 0x100)
        case.to_user()
        for function in range(9):
            back = case.machine.pc
            case.set(17, KEY)
            case.set(16, function)
            case.set(10, 0)
            case.set(11, BASE + 0x800)
            case.do(("ecall",))
            case.is_now(mode="S", world=world, x10=0, x11=BASE + 0x800)
            case.trapped()
            case.supervisor()
            case.write(sepc=back + 4)
            case.do(("sret",))
            case.is_now(mode="U", pc=back + 4)
        case.say("enclaves", "regs")


def parts():
    for part in (states, refused_calls, destroys, not_supported, ecalls_from_user, measures_of_the_host, measures_of_an_enclave):
        part()
