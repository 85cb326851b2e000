"""The cases of create: every refusal at its boundary and together with the next one, the slots, and the measurement."""
import hashlib

from generators.monitor_case import Case
from models.monitor_model import (BAD_ENTRY, BAD_REGION, BAD_WINDOW, CREATE, DESTROY, KEY, MEASURE, NOT_SUPPORTED, NO_SLOT, OVERLAP, RUN,
                           STOP)
from models.privileged_hart import ONES

BASE, PAGE, PAST = 0x80020000, 0x1000, 0x80100000  # the base of a region, the smallest size, the first byte after RAM
MONITOR_PAST = 0x80010000
SIZES = [0, 1, 4, 0x7FF, 0x800, 0xFFF, 0x1001, 0x1004, 0x1800, 0x1FFF, 0x2001, 0x3000, 0x5000, 0x6000, 0x7FFF, 0xC000, 0xFFFF,
         0x10001, 0x18000, 0x7F000, 0x81000, 0xFFFFF, ONES, 0xFFFFF000, 0x80000001, 0x7FFFFFFF]  # sizes that are not powers of 2 from 4096
UNALIGNED = [(BASE + 1, PAGE), (BASE + 4, PAGE), (BASE + 0x800, PAGE), (BASE + 0xFFF, PAGE), (BASE - 1, PAGE),
             (BASE + PAGE, 2 * PAGE), (BASE + 0x8000, 0x10000), (0x80040000, 0x80000), (0x800C0000, 0x80000)]
OUTSIDE = [(PAST, PAGE), (0x7FFFF000, PAGE), (0, PAGE), (0xFFFFF000, PAGE), (0x80100000, 0x80000), (0x7FFF0000, 0x10000),
           (0x80000000, 0x200000), (0x80000000, 0x80000000), (0, 0x80000000), (0, 0x100000), (0x7FF00000, 0x100000),
           (0x80200000, 0x200000), (0x40000000, 0x40000000), (0x80000000, 0x40000000), (0, 0x40000000)]


def fresh(case, base, size=PAGE, window=(0, 0), entry=None):
    """Makes a create that is accepted, and its destroy."""
    case.create(base, size, window, entry)
    case.say("enclaves")
    case.call(DESTROY, 0, wants=(0, 0))


def regions():
    case = Case("create", "region_sizes")
    for size in SIZES:
        case.create(BASE, size, entry=BASE, wants=BAD_REGION)
    for size in (PAGE << k for k in range(7)):  # the last one is 80040000 long, the next one no longer at its base
        base = 0x80040000
        case.create(base, size - 1, entry=base, wants=BAD_REGION)
        fresh(case, base, size, entry=base + size - 4)
        case.create(base, size + 1, entry=base, wants=BAD_REGION)
    fresh(case, 0x80080000, 0x80000)
    case.create(0x80000000, 0x100000, wants=OVERLAP)  # all of RAM is a valid region, and overlaps the range of the monitor
    case.say("enclaves", "pmp")
    case = Case("create", "region_bases")
    for base, size in UNALIGNED + OUTSIDE:
        case.create(base, size, wants=BAD_REGION)
    for base, size in ((BASE, PAGE), (BASE, 0x2000), (0x800FF000, PAGE), (0x800FE000, 0x2000), (0x800F0000, 0x10000),
                       (0x800E0000, 0x20000)):
        fresh(case, base, size)
    case = Case("create", "region_of_every_power_of_two")
    for k in range(32):
        for base in (0, 0x80000000, 1 << k if k < 31 else ONES):
            case.create(base, 1 << k, wants=BAD_REGION if base != 0x80000000 or k < 12 or k > 20 else OVERLAP)
    case = Case("create", "region_in_all_of_the_largest_memory", ram=16777216)
    for base, size, wants in ((0x80000000, 0x1000000, OVERLAP), (0x81000000, PAGE, BAD_REGION), (0x80FFF000, PAGE, 0),
                              (0x80800000, 0x800000, OVERLAP), (0x80400000, 0x400000, 1), (0x80000000, 0x2000000, BAD_REGION),
                              (0x80800000, 0x400000, 2), (0x80800000, 0x800000, OVERLAP)):
        case.create(base, size, wants=wants)
    case.say("enclaves", "pmp")
    case = Case("create", "small_memory", ram=131072)
    for base, size, wants in ((0x80020000, PAGE, BAD_REGION), (0x8001F000, 0x2000, BAD_REGION), (0x8001F000, PAGE, 0),
                              (0x80018000, 0x8000, OVERLAP), (0x80010000, 0x10000, OVERLAP), (0x80018000, 0x4000, 1)):
        case.create(base, size, wants=wants)
    case.say("enclaves", "pmp")


def windows():
    window, region = 0x80040000, (BASE, PAGE, BASE)
    case = Case("create", "window_sizes")
    for size in SIZES[1:]:
        case.create(BASE, window=(window, size), wants=BAD_WINDOW)
    for size in (PAGE << k for k in range(7)):
        case.create(BASE, window=(window, size - 1), wants=BAD_WINDOW)
        fresh(case, BASE, window=(window, size))
        case.create(BASE, window=(window, size + 1), wants=BAD_WINDOW)
    fresh(case, BASE, window=(0x80080000, 0x80000))
    case.create(BASE, window=(0x80000000, 0x100000), wants=OVERLAP)
    case = Case("create", "window_bases")
    for base, size in UNALIGNED + OUTSIDE:
        case.create(0x80010000, window=(base, size), wants=BAD_WINDOW)
    case.say("enclaves")
    for base, size in ((0x800FF000, PAGE), (0x800FE000, 0x2000), (0x800E0000, 0x20000)):
        fresh(case, BASE, window=(base, size))
    case = Case("create", "no_window_has_any_base")
    for base in (0, 1, ONES, 0x80000000, BASE, 0x7FFFFFFF, 0x80040001, PAST):
        fresh(case, *region[:2], window=(base, 0))
    case.comment("it is passed to the enclave as 0 and 0")
    case.create(BASE, window=(ONES, 0))
    case.enter(0)
    case.say("reg 10", "reg 11", "reg 12", "reg 13", "pmp")
    case.is_now(x12=0, x13=0)
    case = Case("create", "window_of_every_power_of_two")
    for k in range(32):
        for base in (0, 0x80000000):
            case.create(BASE, window=(base, 1 << k), wants=BAD_WINDOW if not base or k < 12 or k > 20 else OVERLAP)


def overlaps():
    case = Case("create", "region_and_the_monitor")
    for base, size, wants in ((0x80000000, PAGE, OVERLAP), (0x80000000, 0x10000, OVERLAP), (0x80000000, 0x20000, OVERLAP),
                              (0x80008000, PAGE, OVERLAP), (0x8000E000, 0x2000, OVERLAP), (0x8000F000, PAGE, OVERLAP),
                              (0x80014000, PAGE, 0)):
        case.create(base, size, wants=wants)
    case.say("enclaves")
    case = Case("create", "region_at_the_first_page_of_the_host")
    # the host's own code, which it can then no longer fetch
    case.set(5, 1)
    case.do(("jal", 0, 0x1000))
    case.create(0x80010000)
    case.say("access S x 80010ffc 4", "access S x 80010ffe 4", "access S x 80011000 4", "access S r 8000fffc 4")
    case = Case("create", "region_over_the_code_that_calls")
    case.write(stvec=0x80011000)
    case.place(0x80011000, "csrrs", 5, 0x141, 0)
    case.create(0x80010000, wants=0)
    case.say("step 1")
    case.is_now(pc=0x80011000, mode="S", world="host")
    case.trapped()
    case.supervisor()
    case.say("step 1", "reg 5")
    case = Case("create", "window_and_the_monitor")
    for base, size, wants in ((0x80000000, PAGE, OVERLAP), (0x80000000, 0x10000, OVERLAP), (0x80000000, 0x20000, OVERLAP),
                              (0x80000000, 0x80000, OVERLAP), (0x8000F000, PAGE, OVERLAP), (0x80008000, 0x8000, OVERLAP)):
        case.create(0x80080000, window=(base, size), wants=wants)
    case.create(0x80080000, window=(0x80010000, PAGE))
    case.create(0x80081000, window=(0x80010000, 0x10000), wants=1)
    case.say("enclaves")
    case = Case("create", "region_and_a_live_region")
    case.create(0x80044000, 0x4000)
    for base, size in ((0x80044000, 0x4000), (0x80044000, PAGE), (0x80045000, PAGE), (0x80047000, PAGE), (0x80046000, 0x2000),
                       (0x80040000, 0x8000), (0x80040000, 0x40000), (0x80040000, 0x10000)):
        case.create(base, size, wants=OVERLAP)
    for slot, (base, size) in enumerate(((0x80043000, PAGE), (0x80048000, PAGE), (0x80040000, 0x2000), (0x80080000, 0x80000)), 1):
        case.create(base, size, wants=slot)
    case.comment("the region of a destroyed enclave overlaps nothing")
    case.call(DESTROY, 0, wants=(0, 0))
    case.create(0x80045000, wants=0)
    case.create(0x80044000, 0x4000, wants=OVERLAP)
    case.create(0x80044000, wants=5)
    case.say("enclaves")
    case = Case("create", "region_and_a_live_window")
    case.create(BASE, window=(0x80044000, 0x4000))
    for base, size in ((0x80044000, 0x4000), (0x80044000, PAGE), (0x80047000, PAGE), (0x80040000, 0x8000), (0x80040000, 0x40000),
                       (0x80045000, PAGE)):
        case.create(base, size, wants=OVERLAP)
    case.create(0x80043000, wants=1)
    case.create(0x80048000, wants=2)
    case.call(DESTROY, 0, wants=(0, 0))
    case.create(0x80044000, 0x4000, wants=0)
    case.say("enclaves")
    case = Case("create", "region_and_its_own_window")
    for window in ((0x80044000, 0x4000), (0x80044000, PAGE), (0x80047000, PAGE), (0x80040000, 0x8000), (0x80040000, 0x40000)):
        case.create(0x80044000, 0x4000, window, wants=OVERLAP)
    fresh(case, 0x80044000, 0x4000, window=(0x80043000, PAGE))
    fresh(case, 0x80044000, 0x4000, window=(0x80048000, PAGE))
    fresh(case, 0x80044000, 0x4000, window=(0x80040000, 0x4000))
    case = Case("create", "window_and_a_live_region")
    case.create(0x80044000, 0x4000)
    for window in ((0x80044000, 0x4000), (0x80044000, PAGE), (0x80047000, PAGE), (0x80040000, 0x8000), (0x80040000, 0x40000)):
        case.create(BASE, window=window, wants=OVERLAP)
    case.create(BASE, window=(0x80043000, PAGE), wants=1)
    case.create(BASE + PAGE, window=(0x80048000, PAGE), wants=2)
    case = Case("create", "windows_may_meet_windows")
    case.create(BASE, window=(0x80044000, 0x4000))
    for slot, window in enumerate(((0x80044000, 0x4000), (0x80044000, PAGE), (0x80047000, PAGE), (0x80040000, 0x8000),
                                   (0x80040000, 0x40000), (0x80043000, PAGE), (0x80048000, PAGE)), 1):
        case.create(BASE + slot * PAGE, window=window, wants=slot)
    case.say("enclaves", "pmp")


def entries():
    case = Case("create", "entries")
    for base, size in ((BASE, PAGE), (0x80040000, 0x8000), (0x80080000, 0x80000)):
        for entry in (base - 4, base - 1, base + 1, base + 2, base + 3, base + size - 3, base + size - 2, base + size - 1,
                      base + size, base + size + 4, 0, ONES, ONES - 3, 0x80010000, 0x80000000, base - size, base + 2 * size):
            case.create(base, size, entry=entry & ONES, wants=BAD_ENTRY)
        for entry in (base, base + 4, base + size // 2, base + size - 4):
            fresh(case, base, size, entry=entry)
    case.comment("an entry in the window is not in the region")
    case.create(BASE, window=(BASE + PAGE, PAGE), entry=BASE + PAGE, wants=BAD_ENTRY)
    case.create(BASE, entry=BASE + PAGE - 4)
    case.enter(0)
    case.is_now(pc=BASE + PAGE - 4)
    case.leave(STOP, 3, 1)


def slots():
    case = Case("create", "thirteen_slots_and_no_more")
    for slot in range(13):
        case.create(0x80040000 + slot * PAGE, wants=slot)
    case.say("enclaves", "pmp")
    case.create(0x8004D000, wants=NO_SLOT)
    case.create(0x8004D000, window=(0x80060000, PAGE), wants=NO_SLOT)
    case.say("enclaves", "pmp")
    case.comment("the lowest free slot is used, in any order of destruction")
    for slot in (5, 12, 2, 9, 0):
        case.call(DESTROY, slot, wants=(0, 0))
    case.say("pmp")
    for at, slot in enumerate((0, 2, 5, 9, 12)):
        case.create(0x80050000 + at * PAGE, wants=slot)
    case.create(0x8004D000, wants=NO_SLOT)
    case.say("enclaves", "pmp")


def company():
    case = Case("create", "the_first_refusal_is_answered")
    good, bad_region, bad_window, over, entry = (BASE, PAGE), (BASE, 0x1800), (0x80040800, PAGE), (0x8000F000, PAGE), BASE + 2
    case.create(*bad_region, bad_window, entry, wants=BAD_REGION)
    case.create(0x80000800, PAGE, entry=0x80000800, wants=BAD_REGION)  # and overlaps the range of the monitor
    case.create(0x80000000, 0x800, entry=0, wants=BAD_REGION)
    case.create(*bad_region, over, wants=BAD_REGION)
    case.create(*bad_region, good, wants=BAD_REGION)
    case.create(*bad_region, entry=entry, wants=BAD_REGION)
    case.create(*over, bad_window, wants=BAD_WINDOW)
    case.create(*good, (BASE + 0x800, PAGE), wants=BAD_WINDOW)  # and overlaps the region
    case.create(*good, (0x80000000, 0x800), wants=BAD_WINDOW)  # and overlaps the range of the monitor
    case.create(*good, bad_window, entry, wants=BAD_WINDOW)
    case.create(*over, entry=0x8000F002, wants=OVERLAP)
    case.create(*over, entry=0x80010000, wants=OVERLAP)
    case.create(*good, good, entry, wants=OVERLAP)
    case.create(*good, over, entry, wants=OVERLAP)
    case.create(*good, entry=entry, wants=BAD_ENTRY)
    case.say("enclaves")
    case.comment("without a free slot")
    for slot in range(13):
        case.create(0x80080000 + slot * PAGE, wants=slot)
    case.create(*bad_region, bad_window, entry, wants=BAD_REGION)
    case.create(*good, bad_window, wants=BAD_WINDOW)
    case.create(0x80083000, PAGE, entry=1, wants=OVERLAP)
    case.create(*good, (0x80083000, PAGE), wants=OVERLAP)
    case.create(*good, entry=entry, wants=BAD_ENTRY)
    case.create(*good, entry=BASE + PAGE, wants=BAD_ENTRY)
    case.create(*good, wants=NO_SLOT)
    for key in (KEY + 1, 0):
        case.call(CREATE, *bad_region, *bad_window, entry, key=key, wants=(NOT_SUPPORTED, 0))
        case.call(CREATE, *good, 0, 0, BASE, key=key, wants=(NOT_SUPPORTED, 0))
    case.say("enclaves")
    case = Case("create", "a_refused_create_changes_only_its_answer")
    case.create(0x80040000, window=(0x80050000, PAGE))
    for number in range(1, 32):
        case.set(number, 0x01010101 * number)
    case.write(stvec=0x80011001, sscratch=0x1234, sepc=0x80011234, scause=5, stval=6, sstatus=0x80022)
    for arguments, status in ((bad_region + (0, 0, BASE), BAD_REGION), (good + bad_window + (BASE,), BAD_WINDOW),
                              (good + over + (BASE,), OVERLAP), (good + (0, 0, entry), BAD_ENTRY)):
        case.poke(BASE, b"\x55")
        case.call(CREATE, *arguments, wants=(status, 0))
        case.say("regs", "enclaves", "pmp", "mem 80020000 16", "mem 80050000 16", "csr 304")
        case.trapped()
        case.supervisor()


# ---- the measurement

def measured(case, base, size=PAGE, window=(0, 0), entry=None):
    """Makes a create, and checks its measurement against the record that is written out here; returns the measurement."""
    window, entry = window if window[1] else (0, 0), base if entry is None else entry
    data = case.machine.part(base, size)
    digest = hashlib.sha256(b"".join(it.to_bytes(4, "little") for it in (base, size, *window, entry)) + data).hexdigest()
    slot = len(case.machine.table)
    case.create(base, size, window, entry, wants=slot)
    assert case.say("enclaves").endswith(" " + digest)
    return digest


def measurements():
    case = Case("measurement", "sizes_of_zeros", ram=4194304)
    for k in range(9):  # from 4096 to 1 MiB
        size = PAGE << k
        measured(case, 0x80100000, size, entry=0x80100000 + size - 4)
        case.call(DESTROY, 0, wants=(0, 0))
    measured(case, 0x80200000, 0x200000)
    case = Case("measurement", "of_each_byte")
    before = None
    for place in (0, 1, 2, 3, 31, 32, 35, 36, 43, 44, 63, 64, 99, 100, 107, 108, 2047, 2048, 4043, 4044, 4051, 4052, 4076, 4092,
                  4094, 4095):
        case.poke(BASE + place, bytes([0x80 | place & 0x7F]))
        digest = measured(case, BASE)
        assert digest != before
        before = digest
        case.comment("memory has the measurement that enclaves shows")
        case.call(MEASURE, 0, 0x80040000, wants=(0, 0))
        assert case.say("mem 80040000 32").replace(" ", "")[9:] == digest
        case.call(DESTROY, 0, wants=(0, 0))
        case.poke(BASE, bytes([place % 255 + 1]))
    case = Case("measurement", "of_region_window_and_entry")
    digests = set()
    for base, size, window, entry in ((BASE, PAGE, (0, 0), BASE), (BASE, PAGE, (0, 0), BASE + 4), (BASE, 0x2000, (0, 0), BASE),
                                      (BASE + PAGE, PAGE, (0, 0), BASE + PAGE), (BASE, PAGE, (0x80040000, PAGE), BASE),
                                      (BASE, PAGE, (0x80040000, 0x2000), BASE), (BASE, PAGE, (0x80042000, PAGE), BASE),
                                      (BASE, PAGE, (0x80042000, PAGE), BASE + PAGE - 4), (BASE, 0x10000, (0, 0), BASE)):
        digests.add(measured(case, base, size, window, entry))
        case.call(DESTROY, 0, wants=(0, 0))
    assert len(digests) == 9
    case.comment("no window is measured as 0 and 0, for any base")
    assert measured(case, BASE, window=(0x80040000, 0)) in digests
    case = Case("measurement", "is_taken_at_create")
    case.poke(BASE, b"\x73\x00\x00\x00\x73")
    digest = measured(case, BASE, window=(0x80040000, PAGE))
    case.poke(BASE + 0x100, b"later")
    case.poke(0x80040000, b"in the window")
    case.enter(0)
    case.set(6, BASE + 0x200)
    case.do(("sw", 6, 0, 6))
    case.leave(STOP, 0, 1)
    case.say("enclaves")
    case.call(MEASURE, 0, 0x80041000, wants=(0, 0))
    assert case.say("mem 80041000 32").replace(" ", "")[9:] == digest
    case.comment("an enclave with the same bytes at another address has another measurement")
    case.poke(BASE + PAGE, b"\x73\x00\x00\x00\x73")
    assert measured(case, BASE + PAGE, window=(0x80040000, PAGE)) != digest
    case.call(DESTROY, 1, wants=(0, 0))
    case.comment("after a destroy it is that of zeros")
    case.call(DESTROY, 0, wants=(0, 0))
    zeros = measured(case, BASE, window=(0x80040000, PAGE))
    assert zeros != digest
    case.call(RUN, 0)
    case.leave(STOP, 0, 1)


def parts():
    for part in (regions, windows, overlaps, entries, slots, company, measurements):
        part()
