/* The trap handler and the calls of the monitor: docs/MONITOR.md. */
#include "monitor.h"

enum { TIMER_INTERRUPT = (int)0x80000007, ECALL_FROM_S = 9 };
enum { MODE_S = 1, MPP_SHIFT = 11, MPP = 3 << MPP_SHIFT };
enum { SIE = 2, SPIE = 0x20, SPP = 0x100, MXR = 0x80000, SWITCHED = SIE | SPIE | SPP | MXR };

struct context current;
struct enclave enclaves[SLOTS];
int world = HOST;

static struct context host; /* the saved context of the host, while an enclave runs */
static unsigned ram_size;
volatile unsigned timer_compare; /* stands for mtimecmp: a real monitor stores there to clear the timer interrupt */

/* Starts the host at an address in S, with all registers 0. The machine has `ram` bytes of RAM. */
void monitor_start(unsigned address, unsigned ram)
{
    ram_size = ram;
    current.x[0] = address;
    current.mode = MODE_S;
    WRITE_CSR(mstatus, MODE_S << MPP_SHIFT);
    program_pmp();
}

/* ---- contexts */

/* Reads the mode and the S-mode registers of the world that trapped into `current`. */
static void save_csrs(void)
{
    current.mode = (READ_CSR(mstatus) & MPP) >> MPP_SHIFT;
    current.stvec = READ_CSR(stvec);
    current.sscratch = READ_CSR(sscratch);
    current.sepc = READ_CSR(sepc);
    current.scause = READ_CSR(scause);
    current.stval = READ_CSR(stval);
    current.sstatus = READ_CSR(sstatus) & SWITCHED;
}

/* Writes the mode and the S-mode registers of the world that continues. */
static void restore_csrs(void)
{
    WRITE_CSR(mstatus, current.mode << MPP_SHIFT);
    WRITE_CSR(stvec, current.stvec);
    WRITE_CSR(sscratch, current.sscratch);
    WRITE_CSR(sepc, current.sepc);
    WRITE_CSR(scause, current.scause);
    WRITE_CSR(stval, current.stval);
    WRITE_CSR(sstatus, current.sstatus);
}

/* Gives the host, or an enclave, the results of a call. */
static void answer(unsigned status, unsigned value)
{
    current.x[A0] = status;
    current.x[A1] = value;
}

/* Enters an enclave whose context is saved. */
static void enter(int slot)
{
    host = current;
    current = enclaves[slot].context;
    enclaves[slot].state = RUNNING;
    world = slot;
    program_pmp();
}

/* Leaves the enclave that runs. The host continues after its run or resume. */
static void leave(enum state state, enum monitor_left why, unsigned value)
{
    struct enclave *enclave = &enclaves[world];

    enclave->context = state == EXITED_HERE ? (struct context){{0}, 0, 0, 0, 0, 0, 0, 0} : current;
    enclave->state = state;
    current = host;
    world = HOST;
    answer(why, value);
    program_pmp();
}

/* ---- create */

/* Returns whether a block is a naturally aligned power of two of at least 4096 bytes in RAM. */
static int is_valid(struct block block)
{
    unsigned offset = block.base - RAM_BASE;

    return block.size >= PAGE && !(block.size & (block.size - 1)) && !(block.base & (block.size - 1)) && offset < ram_size &&
           block.size <= ram_size - offset;
}

/* Returns whether two blocks share a byte. */
static int overlaps(struct block one, struct block other)
{
    return one.size && other.size && (contains(one, other.base) || contains(other, one.base));
}

/* Returns whether a new region or window overlaps a block that it may not overlap. */
static int is_taken(struct block region, struct block window)
{
    struct block monitor = {RAM_BASE, MONITOR_SIZE};

    if (overlaps(region, monitor) || overlaps(window, monitor) || overlaps(region, window))
        return 1;
    for (int slot = 0; slot < SLOTS; slot++) {
        const struct enclave *other = &enclaves[slot];
        if (other->state != FREE &&
            (overlaps(region, other->region) || overlaps(region, other->window) || overlaps(window, other->region)))
            return 1;
    }
    return 0;
}

/* Returns the lowest free slot, or SLOTS. */
static int free_slot(void)
{
    int slot = 0;

    while (slot < SLOTS && enclaves[slot].state != FREE)
        slot++;
    return slot;
}

/* Prepares the context with which run enters an enclave. */
static void prepare(struct enclave *enclave)
{
    enclave->context = (struct context){{0}, MODE_S, 0, 0, 0, 0, 0, 0};
    enclave->context.x[0] = enclave->entry;
    enclave->context.x[A0] = enclave->region.base;
    enclave->context.x[A1] = enclave->region.size;
    enclave->context.x[A2] = enclave->window.base;
    enclave->context.x[A3] = enclave->window.size;
}

static void create(void)
{
    struct block region = {current.x[A0], current.x[A1]}, window = {current.x[A2], current.x[A3]};
    unsigned entry = current.x[A4];
    int slot = free_slot();

    if (!window.size)
        window.base = 0;
    if (!is_valid(region))
        return answer(BAD_REGION, 0);
    if (window.size && !is_valid(window))
        return answer(BAD_WINDOW, 0);
    if (is_taken(region, window))
        return answer(OVERLAP, 0);
    if (entry % 4 || !contains(region, entry))
        return answer(BAD_ENTRY, 0);
    if (slot == SLOTS)
        return answer(NO_SLOT, 0);
    enclaves[slot].state = FRESH;
    enclaves[slot].region = region;
    enclaves[slot].window = window;
    enclaves[slot].entry = entry;
    measure_enclave(&enclaves[slot]);
    prepare(&enclaves[slot]);
    program_pmp();
    answer(DONE, slot);
}

/* ---- the other calls */

/* Returns whether a slot has a live enclave. */
static int is_live(unsigned slot)
{
    return slot < SLOTS && enclaves[slot].state != FREE;
}

static void destroy(unsigned slot)
{
    unsigned *word, *end;

    if (!is_live(slot))
        return answer(NO_ENCLAVE, 0);
    if (enclaves[slot].state == RUNNING)
        return answer(BAD_STATE, 0);
    word = (unsigned *)enclaves[slot].region.base;
    end = (unsigned *)(enclaves[slot].region.base + enclaves[slot].region.size);
    while (word != end)
        *word++ = 0;
    enclaves[slot].state = FREE;
    program_pmp();
    answer(DONE, 0);
}

/* Enters an enclave that is in a state: run and resume. */
static void enter_from(enum state state, unsigned slot)
{
    if (!is_live(slot))
        return answer(NO_ENCLAVE, 0);
    if (enclaves[slot].state != state)
        return answer(BAD_STATE, 0);
    enter(slot);
}

/* Returns whether the caller may store a byte. */
static int is_writable(unsigned address)
{
    struct block ram = {RAM_BASE, ram_size}, monitor = {RAM_BASE, MONITOR_SIZE};

    if (world != HOST)
        return contains(enclaves[world].region, address) || contains(enclaves[world].window, address);
    for (int slot = 0; slot < SLOTS; slot++)
        if (enclaves[slot].state != FREE && contains(enclaves[slot].region, address))
            return 0;
    return contains(ram, address) && !contains(monitor, address);
}

static void measure(unsigned slot, unsigned address)
{
    if (!is_live(slot))
        return answer(NO_ENCLAVE, 0);
    for (unsigned i = 0; i < DIGEST_SIZE; i++)
        if (!is_writable(address + i))
            return answer(BAD_ADDRESS, 0);
    for (unsigned i = 0; i < DIGEST_SIZE; i++)
        ((volatile unsigned char *)address)[i] = enclaves[slot].measurement[i];
    answer(DONE, 0);
}

/* ---- traps */

static void call_of_host(void)
{
    switch (current.x[A6]) {
    case MONITOR_CREATE: return create();
    case MONITOR_DESTROY: return destroy(current.x[A0]);
    case MONITOR_RUN: return enter_from(FRESH, current.x[A0]);
    case MONITOR_RESUME: return enter_from(STOPPED_HERE, current.x[A0]);
    case MONITOR_MEASURE: return measure(current.x[A0], current.x[A1]);
    default: return answer(NOT_SUPPORTED, 0);
    }
}

static void call_of_enclave(void)
{
    unsigned value = current.x[A0];

    switch (current.x[A6]) {
    case MONITOR_MEASURE: return measure(world, current.x[A1]);
    case MONITOR_STOP:
        answer(0, 0); /* after resume */
        return leave(STOPPED_HERE, STOPPED, value);
    case MONITOR_EXIT: return leave(EXITED_HERE, EXITED, value);
    default: return answer(NOT_SUPPORTED, 0);
    }
}

/* Answers an ecall from S. The caller continues after it. */
static void call(void)
{
    current.x[0] += 4;
    if (current.x[A7] != MONITOR_KEY)
        return answer(NOT_SUPPORTED, 0);
    if (world == HOST)
        return call_of_host();
    call_of_enclave();
}

/* Redirects an exception to S of the same world. */
static void redirect(unsigned cause, unsigned value)
{
    unsigned status = current.sstatus & ~(SPIE | SPP | SIE);

    if (current.sstatus & SIE)
        status |= SPIE;
    if (current.mode == MODE_S)
        status |= SPP;
    current.sepc = current.x[0];
    current.scause = cause;
    current.stval = value;
    current.sstatus = status;
    current.mode = MODE_S;
    current.x[0] = current.stvec & ~3u;
}

/* Handles a trap from S or U. start.s has saved the registers in `current`. */
void handle_trap(void)
{
    unsigned cause = READ_CSR(mcause), value = READ_CSR(mtval);

    save_csrs();
    if (cause == (unsigned)TIMER_INTERRUPT) {
        timer_compare = 0xffffffff;
        leave(STOPPED_HERE, INTERRUPTED, 0);
    } else if (cause == ECALL_FROM_S) {
        call();
    } else {
        redirect(cause, value);
    }
    restore_csrs();
}
