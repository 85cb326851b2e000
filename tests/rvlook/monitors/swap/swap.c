#include "monitor.h"

#define GET(name) ({ unsigned value_; __asm__ volatile("csrr %0, " #name : "=r"(value_)); value_; })
#define SET(name, value) __asm__ volatile("csrw " #name ", %0" ::"r"(value) : "memory")

enum { OFF, CLOSED_TOR = 0x08, CLOSED = 0x18, DATA = 0x1b, OPEN = 0x1f };
enum { MPP = 0x1800, MPP_OF_S = 0x800, SIE = 2, SPIE = 0x20, SPP = 0x100, MXR = 0x80000, KEPT = SIE | SPIE | SPP | MXR, TIMER = 0x80 };

static struct enclave slots[SLOTS];
static struct frame host;
static struct enclave *inside; /* the enclave that runs, or 0 */
static unsigned last;          /* the last byte of RAM */

static unsigned all_of(struct block it)
{
    return (it.base + ((it.size - 1) >> 1)) >> 2;
}

static unsigned last_of(struct block it)
{
    return it.base + (it.size - 1);
}

/* ---- PMP */

static void set_regions(const unsigned *address)
{
    SET(pmpaddr1, address[0]);
    SET(pmpaddr2, address[1]);
    SET(pmpaddr3, address[2]);
    SET(pmpaddr4, address[3]);
    SET(pmpaddr5, address[4]);
    SET(pmpaddr6, address[5]);
    SET(pmpaddr7, address[6]);
    SET(pmpaddr8, address[7]);
    SET(pmpaddr9, address[8]);
    SET(pmpaddr10, address[9]);
    SET(pmpaddr11, address[10]);
    SET(pmpaddr12, address[11]);
    SET(pmpaddr13, address[12]);
}

/* Opens everything to the host but the memory of the monitor and the regions. */
static void open_host(void)
{
    unsigned address[SLOTS], cfg[4] = {CLOSED_TOR, 0, 0, 0};

    for (unsigned n = 0; n < SLOTS; n++) {
        address[n] = slots[n].phase ? all_of(slots[n].region) : 0;
        cfg[(n + 1) / 4] |= (unsigned)(slots[n].phase ? CLOSED : OFF) << (n + 1) % 4 * 8;
    }
    cfg[3] |= (unsigned)OPEN << 24;
    SET(pmpaddr0, (unsigned)WORLDS_FIRST >> 2);
    set_regions(address);
    SET(pmpaddr15, 0xffffffff);
    SET(pmpcfg0, cfg[0]);
    SET(pmpcfg1, cfg[1]);
    SET(pmpcfg2, cfg[2]);
    SET(pmpcfg3, cfg[3]);
    SET(mie, 0);
}

/* Opens its region and its window to an enclave, and nothing else. */
static void open_enclave(const struct enclave *it)
{
    SET(pmpaddr0, all_of(it->region));
    SET(pmpaddr1, it->window.size ? all_of(it->window) : 0);
    SET(pmpcfg0, OPEN | (it->window.size ? DATA << 8 : 0));
    SET(pmpcfg1, 0);
    SET(pmpcfg2, 0);
    SET(pmpcfg3, 0);
    SET(mie, TIMER);
}

/* ---- switches */

static void put_aside(struct frame *it)
{
    it->stvec = GET(stvec);
    it->sscratch = GET(sscratch);
    it->sepc = GET(sepc);
    it->scause = GET(scause);
    it->stval = GET(stval);
    it->sstatus = GET(sstatus) & KEPT;
}

static void take_up(const struct frame *it)
{
    SET(stvec, it->stvec);
    SET(sscratch, it->sscratch);
    SET(sepc, it->sepc);
    SET(scause, it->scause);
    SET(stval, it->stval);
    SET(sstatus, it->sstatus);
}

static struct frame *go_in(struct enclave *it)
{
    put_aside(&host);
    take_up(&it->frame);
    it->phase = INSIDE;
    inside = it;
    open_enclave(it);
    return &it->frame;
}

static struct frame *go_out(enum phase phase, unsigned why, unsigned value)
{
    put_aside(&inside->frame);
    take_up(&host);
    inside->phase = phase;
    inside = 0;
    open_host();
    host.x[A0] = why;
    host.x[A1] = value;
    return &host;
}

static struct frame *told(struct frame *it, int status, unsigned value)
{
    it->x[A0] = status;
    it->x[A1] = value;
    return it;
}

/* ---- calls */

static int is_block(struct block it)
{
    if (it.size < PAGE || (it.size & (it.size - 1)) || it.base & (it.size - 1))
        return 0;
    return it.base >= (unsigned)RAM_FIRST && it.base <= last && it.size - 1 <= last - it.base;
}

static int share(struct block one, struct block two)
{
    return one.size && two.size && one.base <= last_of(two) && two.base <= last_of(one);
}

static int is_free(struct block region, struct block window)
{
    struct block own = {RAM_FIRST, (unsigned)WORLDS_FIRST - RAM_FIRST};

    if (share(own, region) || share(own, window) || share(region, window))
        return 0;
    for (struct enclave *it = slots; it != slots + SLOTS; it++)
        if (it->phase && (share(it->region, region) || share(it->region, window) || share(it->window, region)))
            return 0;
    return 1;
}

static struct frame *create(void)
{
    struct block region = {host.x[A0], host.x[A1]}, window = {host.x[A3] ? host.x[A2] : 0, host.x[A3]};
    unsigned entry = host.x[A4], slot = 0;
    struct enclave *it;

    if (!is_block(region))
        return told(&host, BAD_REGION, 0);
    if (window.size && !is_block(window))
        return told(&host, BAD_WINDOW, 0);
    if (!is_free(region, window))
        return told(&host, OVERLAP, 0);
    if (entry & 3 || entry < region.base || entry > last_of(region))
        return told(&host, BAD_ENTRY, 0);
    while (slot < SLOTS && slots[slot].phase)
        slot++;
    if (slot == SLOTS)
        return told(&host, NO_SLOT, 0);
    it = &slots[slot];
    *it = (struct enclave){.phase = NEW, .region = region, .window = window, .entry = entry};
    it->frame.mode = MPP_OF_S;
    it->frame.x[0] = entry;
    it->frame.x[A0] = region.base;
    it->frame.x[A1] = region.size;
    it->frame.x[A2] = window.base;
    it->frame.x[A3] = window.size;
    measure_enclave(it);
    open_host();
    return told(&host, DONE, slot);
}

static struct frame *destroy(struct enclave *it)
{
    if (it->phase == INSIDE)
        return told(&host, BAD_STATE, 0);
    for (unsigned at = 0; at != it->region.size; at += 4)
        *(volatile unsigned *)(it->region.base + at) = 0;
    it->phase = NONE;
    open_host();
    return told(&host, DONE, 0);
}

static int may_store(unsigned at)
{
    if (inside)
        return (at >= inside->region.base && at <= last_of(inside->region)) ||
               (inside->window.size && at >= inside->window.base && at <= last_of(inside->window));
    if (at < (unsigned)WORLDS_FIRST || at > last)
        return 0;
    for (struct enclave *it = slots; it != slots + SLOTS; it++)
        if (it->phase && at >= it->region.base && at <= last_of(it->region))
            return 0;
    return 1;
}

static struct frame *measure(struct frame *by, const struct enclave *it)
{
    unsigned to = by->x[A1];

    for (unsigned n = 0; n < DIGEST_SIZE; n++)
        if (!may_store(to + n))
            return told(by, BAD_ADDRESS, 0);
    for (unsigned n = 0; n < DIGEST_SIZE; n++)
        *(volatile unsigned char *)(to + n) = it->measurement[n];
    return told(by, DONE, 0);
}

static struct frame *asked_by_host(unsigned number, unsigned slot)
{
    struct enclave *it = slot < SLOTS && slots[slot].phase ? &slots[slot] : 0;

    if (number == MONITOR_CREATE)
        return create();
    if (number < MONITOR_DESTROY || number > MONITOR_MEASURE)
        return told(&host, NOT_SUPPORTED, 0);
    if (!it)
        return told(&host, NO_ENCLAVE, 0);
    if (number == MONITOR_DESTROY)
        return destroy(it);
    if (number == MONITOR_MEASURE)
        return measure(&host, it);
    if (it->phase != (number == MONITOR_RUN ? NEW : WAITING))
        return told(&host, BAD_STATE, 0);
    return go_in(it);
}

static struct frame *asked_by_enclave(unsigned number)
{
    struct frame *it = &inside->frame;
    unsigned value = it->x[A0];

    if (number == MONITOR_MEASURE)
        return measure(it, inside);
    if (number != MONITOR_STOP && number != MONITOR_EXIT)
        return told(it, NOT_SUPPORTED, 0);
    told(it, 0, 0);
    return number == MONITOR_STOP ? go_out(WAITING, STOPPED, value) : go_out(OVER, EXITED, value);
}

/* ---- traps */

static struct frame *to_supervisor(struct frame *it, unsigned cause, unsigned value)
{
    unsigned status = GET(sstatus);

    SET(sepc, it->x[0]);
    SET(scause, cause);
    SET(stval, value);
    SET(sstatus, (status & ~(SIE | SPIE | SPP)) | (status & SIE ? SPIE : 0) | (it->mode ? SPP : 0));
    it->mode = MPP_OF_S;
    it->x[0] = GET(stvec) & ~3u;
    return it;
}

struct frame *on_trap_of(struct frame *it)
{
    unsigned cause = GET(mcause), value = GET(mtval);
    struct frame *next;

    it->mode = GET(mstatus) & MPP;
    if (cause >> 31) {
        next = go_out(WAITING, INTERRUPTED, 0);
    } else if (cause != 9) {
        next = to_supervisor(it, cause, value);
    } else {
        it->x[0] += 4;
        if (it->x[A7] != MONITOR_KEY)
            next = told(it, NOT_SUPPORTED, 0);
        else
            next = inside ? asked_by_enclave(it->x[A6]) : asked_by_host(it->x[A6], it->x[A0]);
    }
    SET(mstatus, (GET(mstatus) & ~MPP) | next->mode);
    return next;
}

struct frame *begin(unsigned address, unsigned ram)
{
    last = RAM_FIRST + (ram - 1);
    host.x[0] = address;
    host.mode = MPP_OF_S;
    SET(mstatus, MPP_OF_S);
    open_host();
    return &host;
}
