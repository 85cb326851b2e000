"""Mutants of the example monitor `own_monitor`: for each one the changed text, and the directed script of `conform` that finds it.

Those with a reason in place of a script have no effect below M. The gate tries a part of them; `pytest --all-mutants` tries all, and runs every
script for those without an effect."""
from dataclasses import dataclass


@dataclass(frozen=True)
class Mutant:
    """A changed text of a source file, which occurs once in it. `script` finds it; without one, `reason` says why it has no effect."""
    name: str
    file: str
    old: str
    new: str
    script: str = ""
    reason: str = ""


MUTANTS = (
    Mutant("x31_saved_wrong", "start.s", "        sw      t5, 124(t6)     # x31\n", "        sw      t6, 124(t6)\n", "three creates"),
    Mutant("x4_not_restored", "start.s", "        lw      x4, 16(t6)\n", "", "run, stop, resume"),
    Mutant("x30_not_saved", "start.s", "        sw      x30, 120(t6)\n", "", "three creates"),
    Mutant("x1_restored_from_x2", "start.s", "        lw      x1, 4(t6)\n", "        lw      x1, 8(t6)\n", "three creates"),
    Mutant("mscratch_not_set_again", "start.s", "        csrrw   t5, mscratch, t6\n", "        csrr    t5, mscratch\n", "three creates"),
    Mutant("monitor_open", "pmp.c", "    cfg[0] = CLOSED;", "    cfg[0] = OPEN;", "reset"),
    Mutant("monitor_range_halved", "pmp.c",
           "napot((struct block){RAM_BASE, MONITOR_SIZE})",
           "napot((struct block){RAM_BASE, MONITOR_SIZE / 2})", "reset"),
    Mutant("monitor_range_doubled", "pmp.c",
           "napot((struct block){RAM_BASE, MONITOR_SIZE})",
           "napot((struct block){RAM_BASE, MONITOR_SIZE * 2})", "reset"),
    Mutant("regions_open", "pmp.c", "slot == world ? OPEN : CLOSED", "OPEN", "three creates"),
    Mutant("region_not_executable", "pmp.c", "slot == world ? OPEN : CLOSED", "slot == world ? DATA : CLOSED", "run, stop, resume"),
    Mutant("region_closed_to_its_enclave", "pmp.c", "slot == world ? OPEN : CLOSED", "CLOSED", "run, stop, resume"),
    Mutant("window_executable", "pmp.c", "cfg[WINDOW_ENTRY] = DATA", "cfg[WINDOW_ENTRY] = OPEN", "run, stop, resume"),
    Mutant("window_read_only", "pmp.c", "cfg[WINDOW_ENTRY] = DATA", "cfg[WINDOW_ENTRY] = 0x19", "run, stop, resume"),
    Mutant("window_closed", "pmp.c", "cfg[WINDOW_ENTRY] = DATA", "cfg[WINDOW_ENTRY] = CLOSED", "run, stop, resume"),
    Mutant("window_of_0_bytes_open", "pmp.c",
           "} else if (enclaves[world].window.size) {",
           "} else {", "destroy of a stopped enclave, and another in its slot"),
    Mutant("host_not_executable", "pmp.c", "cfg[HOST_ENTRY] = OPEN", "cfg[HOST_ENTRY] = DATA", "reset"),
    Mutant("host_entry_for_enclaves_too", "pmp.c", "    if (world == HOST) {\n", "    if (world == HOST || world == 12) {\n", "thirteen enclaves"),
    Mutant("slot_12_not_protected", "pmp.c", "slot < SLOTS; slot++", "slot < SLOTS - 1; slot++", "thirteen enclaves, some of them run"),
    Mutant("slot_3_not_protected", "pmp.c",
           "        if (enclaves[slot].state != FREE) {",
           "        if (enclaves[slot].state != FREE && slot != 3) {", "thirteen enclaves, some of them run"),
    Mutant("exited_region_open", "pmp.c",
           "        if (enclaves[slot].state != FREE) {",
           "        if (enclaves[slot].state != FREE && enclaves[slot].state != EXITED_HERE) {", "run, exit"),
    Mutant("fresh_region_open", "pmp.c",
           "        if (enclaves[slot].state != FREE) {",
           "        if (enclaves[slot].state != FREE && enclaves[slot].state != FRESH) {", "three creates"),
    Mutant("pmpaddr5_not_written", "pmp.c", "    SET_ADDRESS(5);\n", "", "thirteen enclaves, some of them run"),
    Mutant("pmpcfg2_not_written", "pmp.c", "    WRITE_CSR(pmpcfg2, packed(cfg + 8));\n", "", "thirteen enclaves, some of them run"),
    Mutant("napot_doubled", "pmp.c", "(block.size / 2 - 1) >> 2", "(block.size - 1) >> 2", "reset"),
    Mutant("timer_enabled_in_the_host", "pmp.c", "world == HOST ? 0 : TIMER_ENABLED", "TIMER_ENABLED", "reset"),
    Mutant("timer_never_enabled", "pmp.c", "world == HOST ? 0 : TIMER_ENABLED", "0", "run, stop, resume"),
    Mutant("entries_not_closed_first", "pmp.c",
           "    WRITE_CSR(pmpcfg3, 0);\n"
           "    WRITE_CSR(pmpcfg2, 0);\n"
           "    WRITE_CSR(pmpcfg1, 0);\n"
           "    WRITE_CSR(pmpcfg0, 0);\n",
           "", reason="S and U do not run between the writes of the entries"),
    Mutant("length_in_half_bytes", "measurement.c", "hash->length * 8", "hash->length * 4", "measured byte 0"),
    Mutant("high_length_wrong", "measurement.c",
           "hash->length >> 29",
           "hash->length >> 28", reason="a region has fewer than 2**28 bytes, so the upper half of the length is 0 either way"),
    Mutant("entry_not_measured", "measurement.c", "i < 4 * NUMBERS; i++", "i < 4 * NUMBERS - 4; i++", "measured byte 0"),
    Mutant("window_numbers_swapped", "measurement.c",
           "enclave->window.base, enclave->window.size, enclave->entry}",
           "enclave->window.size, enclave->window.base, enclave->entry}", "measured byte 0"),
    Mutant("last_byte_not_measured", "measurement.c", "i < enclave->region.size; i++", "i < enclave->region.size - 1; i++", "measured byte 0"),
    Mutant("one_page_measured", "measurement.c",
           "i < enclave->region.size; i++",
           "i < PAGE; i++", "measured numbers 80014000 2000 80012000 1000 80014000"),
    Mutant("digest_little_endian", "measurement.c", "24 - i % 4 * 8", "i % 4 * 8", "measured byte 0"),
    Mutant("padding_wrong", "measurement.c", "add_byte(hash, 0x80)", "add_byte(hash, 0)", "measured byte 0"),
    Mutant("round_constant_wrong", "measurement.c", "0xc67178f2}", "0xc67178f3}", "measured byte 0"),
    Mutant("stvec_not_saved", "monitor.c", "    current.stvec = READ_CSR(stvec);\n", "", "three creates"),
    Mutant("sscratch_not_saved", "monitor.c", "    current.sscratch = READ_CSR(sscratch);\n", "", "three creates"),
    Mutant("sepc_not_saved", "monitor.c", "    current.sepc = READ_CSR(sepc);\n", "", "three creates"),
    Mutant("scause_not_saved", "monitor.c", "    current.scause = READ_CSR(scause);\n", "", "three creates"),
    Mutant("stval_not_saved", "monitor.c", "    current.stval = READ_CSR(stval);\n", "", "three creates"),
    Mutant("scause_not_restored", "monitor.c", "    WRITE_CSR(scause, current.scause);\n", "", "run, stop, resume"),
    Mutant("mxr_not_switched", "monitor.c", "SWITCHED = SIE | SPIE | SPP | MXR", "SWITCHED = SIE | SPIE | SPP", "two enclaves in turns"),
    Mutant("spp_not_switched", "monitor.c", "SWITCHED = SIE | SPIE | SPP | MXR", "SWITCHED = SIE | SPIE | MXR", "two enclaves in turns"),
    Mutant("spie_not_switched", "monitor.c", "SWITCHED = SIE | SPIE | SPP | MXR", "SWITCHED = SIE | SPP | MXR", "S-mode registers"),
    Mutant("sie_not_switched", "monitor.c", "SWITCHED = SIE | SPIE | SPP | MXR", "SWITCHED = SPIE | SPP | MXR", "S-mode registers"),
    Mutant("mode_always_s", "monitor.c",
           "    WRITE_CSR(mstatus, current.mode << MPP_SHIFT);",
           "    WRITE_CSR(mstatus, MODE_S << MPP_SHIFT);", "an application in U"),
    Mutant("tvm_set", "monitor.c",
           "    WRITE_CSR(mstatus, current.mode << MPP_SHIFT);",
           "    WRITE_CSR(mstatus, current.mode << MPP_SHIFT | 1 << 20);", "three creates"),
    Mutant("mprv_set", "monitor.c",
           "    WRITE_CSR(mstatus, current.mode << MPP_SHIFT);",
           "    WRITE_CSR(mstatus, current.mode << MPP_SHIFT | 1 << 17);", "three creates"),
    Mutant("host_not_saved", "monitor.c", "    host = current;\n", "", "run, stop, resume"),
    Mutant("enclave_not_marked_running", "monitor.c",
           "    enclaves[slot].state = RUNNING;\n",
           "", reason="with one hart no call of the host finds a Running enclave"),
    Mutant("entries_not_written_at_enter", "monitor.c",
           "    world = slot;\n"
           "    program_pmp();\n",
           "    world = slot;\n", "run, stop, resume"),
    Mutant("exited_registers_kept", "monitor.c",
           "state == EXITED_HERE ? (struct context){{0}, 0, 0, 0, 0, 0, 0, 0} : current",
           "current", reason="an enclave that exited is never entered again"),
    Mutant("value_not_handed_over", "monitor.c", "    answer(why, value);", "    answer(why, 0);", "run, stop, resume"),
    Mutant("exit_told_as_stop", "monitor.c", "return leave(EXITED_HERE, EXITED, value);", "return leave(EXITED_HERE, STOPPED, value);", "run, exit"),
    Mutant("exit_stops_only", "monitor.c", "return leave(EXITED_HERE, EXITED, value);", "return leave(STOPPED_HERE, EXITED, value);", "run, exit"),
    Mutant("entries_not_written_at_leave", "monitor.c",
           "    answer(why, value);\n"
           "    program_pmp();\n",
           "    answer(why, value);\n", "run, stop, resume"),
    Mutant("interrupt_hands_over_a0", "monitor.c",
           "leave(STOPPED_HERE, INTERRUPTED, 0);",
           "leave(STOPPED_HERE, INTERRUPTED, current.x[A0]);", "an application in U"),
    Mutant("interrupt_skips_an_instruction", "monitor.c",
           "        leave(STOPPED_HERE, INTERRUPTED, 0);",
           "        current.x[0] += 4;\n"
           "        leave(STOPPED_HERE, INTERRUPTED, 0);", "two enclaves in turns"),
    Mutant("interrupt_clears_a0", "monitor.c",
           "        leave(STOPPED_HERE, INTERRUPTED, 0);",
           "        answer(0, 0);\n"
           "        leave(STOPPED_HERE, INTERRUPTED, 0);", "an application in U"),
    Mutant("a0_kept_after_resume", "monitor.c", "        answer(0, 0); /* after resume */\n", "", "run, stop, resume"),
    Mutant("a1_kept_after_resume", "monitor.c", "        answer(0, 0); /* after resume */\n", "        answer(0, value);\n", "run, stop, resume"),
    Mutant("half_a_page_accepted", "monitor.c", "block.size >= PAGE &&", "block.size >= PAGE / 2 &&", "regions"),
    Mutant("any_size_accepted", "monitor.c", "!(block.size & (block.size - 1)) && ", "", "create, each refusal"),
    Mutant("any_base_accepted", "monitor.c", "!(block.base & (block.size - 1)) && ", "", "regions"),
    Mutant("block_outside_ram_accepted", "monitor.c",
           "offset < ram_size &&\n"
           "           block.size <= ram_size - offset",
           "1", "regions"),
    Mutant("last_page_refused", "monitor.c",
           "block.size <= ram_size - offset",
           "block.size < ram_size - offset", "create, each refusal before NoSlot"),
    Mutant("overlap_of_one_side", "monitor.c",
           "(contains(one, other.base) || contains(other, one.base))",
           "contains(one, other.base)", "regions and windows beside a live enclave"),
    Mutant("region_over_monitor", "monitor.c", "overlaps(region, monitor) || overlaps(window, monitor)", "overlaps(window, monitor)", "regions"),
    Mutant("window_over_monitor", "monitor.c",
           "overlaps(region, monitor) || overlaps(window, monitor)",
           "overlaps(region, monitor)", "regions and windows beside a live enclave"),
    Mutant("region_over_own_window", "monitor.c", " || overlaps(region, window))", ")", "window 80014000, region 80014000"),
    Mutant("region_over_other_window", "monitor.c", " || overlaps(region, other->window)", "", "regions and windows beside a live enclave"),
    Mutant("window_over_other_region", "monitor.c", " || overlaps(window, other->region)", "", "regions and windows beside a live enclave"),
    Mutant("windows_apart", "monitor.c",
           "overlaps(window, other->region))",
           "overlaps(window, other->region) || overlaps(window, other->window))", "three creates"),
    Mutant("slot_0_not_used", "monitor.c",
           "    int slot = 0;\n"
           "\n"
           "    while",
           "    int slot = 1;\n"
           "\n"
           "    while", "three creates"),
    Mutant("window_base_not_passed", "monitor.c", "    enclave->context.x[A2] = enclave->window.base;\n", "", "run, stop, resume"),
    Mutant("window_size_not_passed", "monitor.c", "    enclave->context.x[A3] = enclave->window.size;\n", "", "run, stop, resume"),
    Mutant("entry_is_the_base", "monitor.c",
           "enclave->context.x[0] = enclave->entry;",
           "enclave->context.x[0] = enclave->region.base;", "measured numbers 80014000 1000 80012000 1000 80014004"),
    Mutant("enclave_enters_in_u", "monitor.c",
           "    enclave->context = (struct context){{0}, MODE_S,",
           "    enclave->context = (struct context){{0}, 0,", "run, stop, resume"),
    Mutant("window_base_kept_without_window", "monitor.c",
           "    if (!window.size)\n"
           "        window.base = 0;\n",
           "", "measured numbers 80014000 1000 80 0 80014000"),
    Mutant("bad_window_before_bad_region", "monitor.c",
           "    if (!is_valid(region))\n"
           "        return answer(BAD_REGION, 0);\n"
           "    if (window.size && !is_valid(window))\n"
           "        return answer(BAD_WINDOW, 0);\n",
           "    if (window.size && !is_valid(window))\n"
           "        return answer(BAD_WINDOW, 0);\n"
           "    if (!is_valid(region))\n"
           "        return answer(BAD_REGION, 0);\n", "create, two refusals at once"),
    Mutant("bad_entry_before_overlap", "monitor.c",
           "    if (is_taken(region, window))\n"
           "        return answer(OVERLAP, 0);\n"
           "    if (entry % 4 || !contains(region, entry))\n"
           "        return answer(BAD_ENTRY, 0);\n",
           "    if (entry % 4 || !contains(region, entry))\n"
           "        return answer(BAD_ENTRY, 0);\n"
           "    if (is_taken(region, window))\n"
           "        return answer(OVERLAP, 0);\n", "create, two refusals at once"),
    Mutant("no_slot_first", "monitor.c",
           "    if (!is_valid(region))\n",
           "    if (slot == SLOTS)\n"
           "        return answer(NO_SLOT, 0);\n"
           "    if (!is_valid(region))\n", "create, each refusal before NoSlot"),
    Mutant("entry_at_half_a_word", "monitor.c", "entry % 4 ||", "entry % 2 ||", "create, each refusal"),
    Mutant("entry_after_the_region", "monitor.c", "!contains(region, entry))", "entry - region.base > region.size)", "entries"),
    Mutant("twelve_slots", "monitor.c", "    if (slot == SLOTS)\n", "    if (slot == SLOTS - 1)\n", "thirteen enclaves, some of them run"),
    Mutant("a_slot_too_many", "monitor.c",
           "    if (slot == SLOTS)\n"
           "        return answer(NO_SLOT, 0);\n",
           "", "create, NoSlot"),
    Mutant("slot_not_told", "monitor.c", "    answer(DONE, slot);", "    answer(DONE, 0);", "three creates"),
    Mutant("entries_not_written_at_create", "monitor.c",
           "    prepare(&enclaves[slot]);\n"
           "    program_pmp();\n",
           "    prepare(&enclaves[slot]);\n", "three creates"),
    Mutant("entries_not_written_at_destroy", "monitor.c",
           "    enclaves[slot].state = FREE;\n"
           "    program_pmp();\n",
           "    enclaves[slot].state = FREE;\n", "two enclaves in turns"),
    Mutant("slot_13_is_live", "monitor.c",
           "    return slot < SLOTS && enclaves[slot].state",
           "    return slot <= SLOTS && enclaves[slot].state", "slots of call"),
    Mutant("first_word_not_zeroed", "monitor.c",
           "        *word++ = 0;\n",
           "        *word++ = word == (unsigned *)enclaves[slot].region.base ? *word : 0;\n", "two enclaves in turns"),
    Mutant("last_word_not_zeroed", "monitor.c",
           "enclaves[slot].region.base + enclaves[slot].region.size);\n"
           "    while",
           "enclaves[slot].region.base + enclaves[slot].region.size - 4);\n"
           "    while", "destroy zeroes the region"),
    Mutant("one_page_zeroed", "monitor.c",
           "enclaves[slot].region.base + enclaves[slot].region.size);\n"
           "    while",
           "enclaves[slot].region.base + PAGE);\n"
           "    while", "region of 2000 bytes"),
    Mutant("nothing_zeroed", "monitor.c",
           "    while (word != end)\n"
           "        *word++ = 0;\n",
           "    (void)word, (void)end;\n", "two enclaves in turns"),
    Mutant("slot_not_freed", "monitor.c", "    enclaves[slot].state = FREE;\n", "", "two enclaves in turns"),
    Mutant("exited_not_destroyed", "monitor.c",
           "    if (enclaves[slot].state == RUNNING)\n",
           "    if (enclaves[slot].state == EXITED_HERE)\n", "two enclaves in turns"),
    Mutant("any_state_entered", "monitor.c",
           "    if (enclaves[slot].state != state)\n",
           "    if (enclaves[slot].state == EXITED_HERE)\n", "thirteen enclaves, some of them run"),
    Mutant("run_of_a_stopped_enclave", "monitor.c",
           "    if (enclaves[slot].state != state)\n",
           "    if (enclaves[slot].state != state && enclaves[slot].state != STOPPED_HERE)\n", "thirteen enclaves, some of them run"),
    Mutant("measure_into_a_region", "monitor.c",
           "    for (int slot = 0; slot < SLOTS; slot++)\n"
           "        if (enclaves[slot].state != FREE && contains(enclaves[slot].region, address))\n"
           "            return 0;\n",
           "", "measure by the host"),
    Mutant("measure_into_the_monitor", "monitor.c",
           "contains(ram, address) && !contains(monitor, address)",
           "contains(ram, address)", "measure by the host"),
    Mutant("measure_outside_ram", "monitor.c",
           "contains(ram, address) && !contains(monitor, address)",
           "!contains(monitor, address)", "NoEnclave before BadAddress"),
    Mutant("measure_not_into_own_window", "monitor.c", " || contains(enclaves[world].window, address)", "", "measured byte 0"),
    Mutant("measure_not_into_own_region", "monitor.c",
           "return contains(enclaves[world].region, address) || ",
           "return ", "measured numbers 80014000 1000 80012000 1000 80014004"),
    Mutant("first_byte_of_measure_checked", "monitor.c",
           "        if (!is_writable(address + i))\n",
           "        if (!is_writable(address))\n", "measure by the host"),
    Mutant("last_byte_of_measure_not_checked", "monitor.c",
           "    for (unsigned i = 0; i < DIGEST_SIZE; i++)\n"
           "        if (!is_writable",
           "    for (unsigned i = 0; i < DIGEST_SIZE - 1; i++)\n"
           "        if (!is_writable", "measure by the host"),
    Mutant("enclave_measures_another", "monitor.c",
           "measure(world, current.x[A1])",
           "measure(current.x[A0], current.x[A1])", "measure by the enclave"),
    Mutant("bad_address_before_no_enclave", "monitor.c",
           "    if (!is_live(slot))\n"
           "        return answer(NO_ENCLAVE, 0);\n"
           "    for (unsigned i = 0; i < DIGEST_SIZE; i++)\n"
           "        if (!is_writable(address + i))\n"
           "            return answer(BAD_ADDRESS, 0);\n",
           "    for (unsigned i = 0; i < DIGEST_SIZE; i++)\n"
           "        if (!is_writable(address + i))\n"
           "            return answer(BAD_ADDRESS, 0);\n"
           "    if (!is_live(slot))\n"
           "        return answer(NO_ENCLAVE, 0);\n", "NoEnclave before BadAddress"),
    Mutant("spie_not_set", "monitor.c",
           "    if (current.sstatus & SIE)\n"
           "        status |= SPIE;\n",
           "", "exceptions of the host, sstatus 2"),
    Mutant("spp_not_set", "monitor.c",
           "    if (current.mode == MODE_S)\n"
           "        status |= SPP;\n",
           "", "exceptions of the host, sstatus 0"),
    Mutant("sie_not_cleared", "monitor.c",
           "current.sstatus & ~(SPIE | SPP | SIE)",
           "current.sstatus & ~(SPIE | SPP)", "exceptions of the host, sstatus 2"),
    Mutant("mxr_cleared_by_a_trap", "monitor.c",
           "current.sstatus & ~(SPIE | SPP | SIE)",
           "current.sstatus & 0", "exceptions of the host, sstatus 80000"),
    Mutant("cause_one_too_high", "monitor.c", "    current.scause = cause;", "    current.scause = cause + 1;", "an application in U"),
    Mutant("stval_zero", "monitor.c", "    current.stval = value;", "    current.stval = 0;", "exceptions of an application"),
    Mutant("sepc_after_the_instruction", "monitor.c",
           "    current.sepc = current.x[0];",
           "    current.sepc = current.x[0] + 4;", "an application in U"),
    Mutant("trap_stays_in_u", "monitor.c",
           "    current.sstatus = status;\n"
           "    current.mode = MODE_S;\n",
           "    current.sstatus = status;\n", "an application in U"),
    Mutant("stvec_mode_kept", "monitor.c", "current.stvec & ~3u", "current.stvec", reason="mepc does not keep the lowest two bits"),
    Mutant("ecall_repeated", "monitor.c", "    current.x[0] += 4;\n", "", "three creates"),
    Mutant("any_key", "monitor.c",
           "    if (current.x[A7] != MONITOR_KEY)\n"
           "        return answer(NOT_SUPPORTED, 0);\n",
           "", "stvec with mode bits"),
    Mutant("host_may_stop", "monitor.c",
           "    if (world == HOST)\n"
           "        return call_of_host();\n",
           "    if (world == HOST && current.x[A6] == MONITOR_STOP)\n"
           "        return answer(DONE, 0);\n"
           "    if (world == HOST)\n"
           "        return call_of_host();\n", "window 80014000, region 80014000"),
    Mutant("refusal_keeps_a1", "monitor.c",
           "    default: return answer(NOT_SUPPORTED, 0);\n"
           "    }\n"
           "}\n"
           "\n"
           "static void call_of_enclave",
           "    default: return answer(NOT_SUPPORTED, current.x[A1]);\n"
           "    }\n"
           "}\n"
           "\n"
           "static void call_of_enclave", "a6"),
    Mutant("ecall_from_u_is_a_call", "monitor.c",
           "} else if (cause == ECALL_FROM_S) {",
           "} else if (cause == ECALL_FROM_S || cause == 8) {", "an application in U"),
    Mutant("call_number_of_8_bits", "monitor.c",
           "    switch (current.x[A6]) {\n"
           "    case MONITOR_CREATE",
           "    switch (current.x[A6] & 255) {\n"
           "    case MONITOR_CREATE", "a6"),
    Mutant("host_starts_with_a0", "monitor.c",
           "    current.mode = MODE_S;\n"
           "    WRITE_CSR(mstatus",
           "    current.x[A0] = address;\n"
           "    current.mode = MODE_S;\n"
           "    WRITE_CSR(mstatus", "reset"),
    Mutant("byte_written_after_the_monitor", "monitor.c",
           "    if (cause == (unsigned)TIMER_INTERRUPT) {\n",
           "    if (cause == 2)\n"
           "        *(volatile unsigned char *)(RAM_BASE + MONITOR_SIZE + 0xff0) ^= 1;\n"
           "    if (cause == (unsigned)TIMER_INTERRUPT) {\n", "exceptions of an application"),
)
