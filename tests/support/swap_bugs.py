"""Bugs of the second monitor, tests/rvlook/monitors/swap. They show only in large blocks, after many calls, or with corner values in registers. Each
has the changed text of a file, and the script of `conform --deep` that finds it."""
SWAP, DIGEST = "swap.c", "measurement.c"
NAPOT = "return (it.base + ((it.size - 1) >> 1)) >> 2;"
LAST = "return it.base + (it.size - 1);"
HASHED = "for (unsigned i = 0; i < enclave->region.size; i++)"
CLEARED = "for (unsigned at = 0; at != it->region.size; at += 4)"
ALIGNED = "it.base & (it.size - 1))\n"
POWER = "(it.size & (it.size - 1))"
LEAST = "it.size < PAGE"
INSIDE = "it.size - 1 <= last - it.base;"
SHARE = "return one.size && two.size && one.base <= last_of(two) && two.base <= last_of(one);"
CREATED = "    unsigned entry = host.x[A4], slot = 0;\n    struct enclave *it;\n\n"
DESTROYED = "    if (it->phase == INSIDE)\n"
CALLED = "        it->x[0] += 4;\n"
ENTERED = "    put_aside(&host);\n    take_up(&it->frame);\n"
LEFT = "    put_aside(&inside->frame);\n"
TIMER = "        next = go_out(WAITING, INTERRUPTED, 0);\n"
FAULT = "    unsigned status = GET(sstatus);\n\n"
ENTRY = "entry < region.base || entry > last_of(region)"
SIZE_OF = "it->frame.x[A1] = region.size;"
WINDOW_SIZE_OF = "it->frame.x[A3] = window.size;"
WINDOW_OF = "(inside->window.size && at >= inside->window.base && at <= last_of(inside->window))"
BEFORE_CLEARED = CLEARED + "\n        *(volatile unsigned *)(it->region.base + at) = 0;\n"


def counted(place, count, effect, kind="unsigned"):
    """Returns a text with an effect the Nth time that it is reached; for a narrow kind at each overflow."""
    test = "++count_ == %d" % count if count else "!++count_"
    return "    static %s count_;\n\n    if (%s)\n        %s\n%s" % (kind, test, effect, place)


def cornered(place, test, effect):
    """Returns a text with an effect if a register has a corner value."""
    return place + "        if (%s)\n            %s\n" % (test, effect)


BUGS = {
    # access rights of large blocks
    **{"NAPOT wrong from %x" % n: (SWAP, NAPOT, NAPOT[:-1] + " << (it.size >= 0x%x);" % n, "block: region of %x bytes" % n)
       for n in (0x10000, 0x20000, 0x40000, 0x80000, 0x100000, 0x200000)},
    "NAPOT of 64 KiB alone": (SWAP, NAPOT, NAPOT[:-1] + " ^ (it.size == 0x10000);", "block: region of 10000 bytes"),
    "NAPOT of an address above 1 MiB": (SWAP, NAPOT, "it.base &= 0x800fffff;\n    " + NAPOT, "block: region of 100000 bytes"),
    "NAPOT of 16 bits": (SWAP, NAPOT, "return (it.base + ((unsigned short)(it.size - 1) >> 1)) >> 2;", "block: region of 20000 bytes"),
    # measurement of large regions
    **{"digest of the first %x bytes" % n: (DIGEST, HASHED, HASHED.replace("size;", "size && i < 0x%x;" % n),
                                           "block: region of %x bytes, other" % (2 * n))
       for n in (0x8000, 0x10000, 0x20000, 0x80000, 0x100000)},
    "digest without the last byte from 64 KiB on": (DIGEST, HASHED, HASHED.replace("size;", "size - (enclave->region.size >= 0x10000);"),
                                                    "of 10000 bytes"),
    "digest with a length of 16 bits": (DIGEST, "hash->length * 8,", "(hash->length & 0xffff) * 8,", "block: region of 10000 bytes"),
    "digest with a length of 20 bits": (DIGEST, "hash->length * 8,", "(hash->length & 0xfffff) * 8,", "block: region of 100000 bytes"),
    "digest with a size of 16 bits": (DIGEST, "enclave->region.size, enclave->window.base", "enclave->region.size & 0xffff, enclave->window.base",
                                      "block: region of 10000 bytes"),
    # zeroing of large regions
    **{"destroy clears %x bytes" % n: (SWAP, CLEARED, CLEARED.replace("size;", "size && at != 0x%x;" % n),
                                       "block: region of %x bytes" % (2 * n)) for n in (0x4000, 0x8000, 0x10000, 0x40000, 0x100000)},
    "destroy leaves the last word from 128 KiB on": (SWAP, CLEARED, CLEARED.replace("region.size;", "region.size - 4 * (it->region.size >= 0x20000);"),
                                                     "block: region of 20000 bytes"),
    "destroy clears every second page from 64 KiB on": (SWAP, BEFORE_CLEARED, BEFORE_CLEARED.replace(
        "    *(vol", "    if (!(at & 0x1000) || it->region.size < 0x10000)\n            *(vol"), "block: region of 10000 bytes"),
    # validity of large blocks
    **{"alignment to %x bytes at most" % (n + 1): (SWAP, ALIGNED, "it.base & (it.size - 1) & 0x%x)\n" % n,
                                                   "block: regions of %x bytes at other" % (2 * n + 2))
       for n in (0x3FFF, 0xFFFF, 0x1FFFF, 0x7FFFF, 0xFFFFF)},
    "power of two in 16 bits": (SWAP, POWER, "(it.size & (it.size - 1) & 0xffff)", "block: regions of 20000 bytes that are no"),
    "a size above 64 KiB is refused": (SWAP, LEAST, LEAST + " || it.size > 0x10000", "block: region of 20000 bytes"),
    "a size above 1 MiB is refused": (SWAP, LEAST, LEAST + " || it.size > 0x100000", "block: region of 200000 bytes"),
    "a window above 64 KiB is refused": (SWAP, "if (window.size && !is_block(window))", "if (window.size > 0x10000 || (window.size && !is_block(window)))",
                                         "block: window of 20000 bytes"),
    "end of RAM in 20 bits": (SWAP, INSIDE, "((it.size - 1) & 0xfffff) <= last - it.base;", "block: larger than the RAM"),
    # overlaps of large blocks
    **{"overlap modulo %x" % n: (SWAP, SHARE, "one.base &= 0x%x, two.base &= 0x%x;\n    " % (n - 1, n - 1) + SHARE, "block: %x bytes apart" % n)
       for n in (0x10000, 0x40000, 0x100000, 0x200000)},
    "overlap of the first 64 KiB": (SWAP, SHARE, SHARE.replace("one.base <= last_of(two)", "one.base <= two.base + ((two.size - 1) & 0xffff)"),
                                    "block: a region of 20000 bytes over"),
    "last byte in 16 bits": (SWAP, LAST, "return it.base + ((it.size - 1) & 0xffff);", "block: region of 20000 bytes"),
    "entry in the first 64 KiB": (SWAP, ENTRY, "entry < region.base || entry > region.base + ((region.size - 1) & 0xffff)",
                                  "block: region of 20000 bytes, entry"),
    "entry not in the last page from 64 KiB on": (SWAP, ENTRY, ENTRY + " - 0x1000 * (region.size >= 0x10000)", "block: region of 10000 bytes, entry"),
    # the registers of an enclave, and its stores
    "a1 of 16 bits": (SWAP, SIZE_OF, SIZE_OF.replace("size;", "size & 0xffff;"), "block: region of 10000 bytes"),
    "a1 of 20 bits": (SWAP, SIZE_OF, SIZE_OF.replace("size;", "size & 0xfffff;"), "block: region of 100000 bytes"),
    "a3 of 16 bits": (SWAP, WINDOW_SIZE_OF, WINDOW_SIZE_OF.replace("size;", "size & 0xffff;"), "block: window of 10000 bytes"),
    "measure into the first 32 KiB of a window": (SWAP, WINDOW_OF, WINDOW_OF.replace("at <= last", "at < inside->window.base + 0x8000 && at <= last"),
                                                  "block: window of 10000 bytes"),
    # many calls
    "256th create": (SWAP, CREATED, CREATED.rstrip("\n") + "\n" + counted("", 0, "return told(&host, NO_SLOT, 0);", "unsigned char"), "many creates"),
    "200th create": (SWAP, CREATED, CREATED.rstrip("\n") + "\n" + counted("", 200, "entry += 4;"), "many creates"),
    "200th destroy": (SWAP, DESTROYED, counted(DESTROYED, 200, "return told(&host, DONE, 0);"), "many creates"),
    "1000th call": (SWAP, CALLED, counted(CALLED, 1000, "it->x[A4] ^= 1;"), "many calls"),
    "512th call": (SWAP, CALLED, counted(CALLED, 512, "it->x[5] = 0;"), "many calls"),
    "200th entry": (SWAP, ENTERED, counted(ENTERED, 200, "host.x[9] ^= 1;"), "many switches"),
    "100th exit": (SWAP, LEFT, counted(LEFT, 100, "inside->frame.x[18] ^= 1;"), "many switches"),
    # corner values
    "interrupt with a0 = 80000000": (SWAP, TIMER, cornered(TIMER, "it->x[A0] == 0x80000000", "it->x[A0] = 0;"), "corner values at interrupts"),
    "interrupt with sp = 0": (SWAP, TIMER, cornered(TIMER, "!it->x[2]", "it->x[2] = 4;"), "corner values at interrupts"),
    "interrupt with t6 = -1": (SWAP, TIMER, cornered(TIMER, "it->x[31] == 0xffffffff", "it->x[31] = 0;"), "corner values at interrupts"),
    "stop with gp = 7fffffff": (SWAP, LEFT, cornered(LEFT, "inside->frame.x[3] == 0x7fffffff", "inside->frame.x[3]++;"), "corner values at stops"),
    "stop with a4 = ffff0000": (SWAP, LEFT, cornered(LEFT, "inside->frame.x[A4] == 0xffff0000", "inside->frame.x[A4] = 0xffff;"), "corner values at stops"),
    "exception with s2 = -1": (SWAP, FAULT, cornered(FAULT, "it->x[18] == 0xffffffff", "it->x[18] = 0;"), "corner values at exceptions"),
    "exception with ra = 80000001": (SWAP, FAULT, cornered(FAULT, "it->x[1] == 0x80000001", "it->x[1] = 0x80000000;"), "corner values at exceptions"),
    "exception with t0 = 1": (SWAP, FAULT, cornered(FAULT, "it->x[5] == 1", "it->x[5] = 0;"), "corner values at exceptions"),
}
IN_THE_GATE = ("NAPOT wrong from 20000", "digest of the first 8000 bytes", "destroy clears 8000 bytes", "alignment to 10000 bytes at most",
               "overlap modulo 100000", "200th create", "interrupt with sp = 0")
