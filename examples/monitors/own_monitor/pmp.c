/* The PMP entries: docs/MONITOR.md, PMP entries. */
#include "monitor.h"

enum { ENTRIES = 16, WINDOW_ENTRY = 14, HOST_ENTRY = 15 };
enum { CLOSED = 0x18, DATA = 0x1b, OPEN = 0x1f }; /* NAPOT with no access, with load and store, with all */
enum { TIMER_ENABLED = 0x80 };                    /* mie.MTIE */

/* Returns pmpaddr of a naturally aligned block (NAPOT). */
static unsigned napot(struct block block)
{
    return block.base >> 2 | (block.size / 2 - 1) >> 2;
}

/* Packs four cfg bytes into a pmpcfg register. */
static unsigned packed(const unsigned char *cfg)
{
    return cfg[0] | cfg[1] << 8 | cfg[2] << 16 | (unsigned)cfg[3] << 24;
}

#define SET_ADDRESS(n) WRITE_CSR(pmpaddr##n, address[n])

/* Writes all entries. It first clears the cfg bytes from the last register on, so that no state in between opens more to S. */
static void write_entries(const unsigned *address, const unsigned char *cfg)
{
    WRITE_CSR(pmpcfg3, 0);
    WRITE_CSR(pmpcfg2, 0);
    WRITE_CSR(pmpcfg1, 0);
    WRITE_CSR(pmpcfg0, 0);
    SET_ADDRESS(0);
    SET_ADDRESS(1);
    SET_ADDRESS(2);
    SET_ADDRESS(3);
    SET_ADDRESS(4);
    SET_ADDRESS(5);
    SET_ADDRESS(6);
    SET_ADDRESS(7);
    SET_ADDRESS(8);
    SET_ADDRESS(9);
    SET_ADDRESS(10);
    SET_ADDRESS(11);
    SET_ADDRESS(12);
    SET_ADDRESS(13);
    SET_ADDRESS(14);
    SET_ADDRESS(15);
    WRITE_CSR(pmpcfg0, packed(cfg));
    WRITE_CSR(pmpcfg1, packed(cfg + 4));
    WRITE_CSR(pmpcfg2, packed(cfg + 8));
    WRITE_CSR(pmpcfg3, packed(cfg + 12));
}

void program_pmp(void)
{
    unsigned address[ENTRIES] = {0};
    unsigned char cfg[ENTRIES] = {0};

    address[0] = napot((struct block){RAM_BASE, MONITOR_SIZE});
    cfg[0] = CLOSED;
    for (int slot = 0; slot < SLOTS; slot++) {
        if (enclaves[slot].state != FREE) {
            address[slot + 1] = napot(enclaves[slot].region);
            cfg[slot + 1] = slot == world ? OPEN : CLOSED;
        }
    }
    if (world == HOST) {
        address[HOST_ENTRY] = 0xffffffff; /* all addresses */
        cfg[HOST_ENTRY] = OPEN;
    } else if (enclaves[world].window.size) {
        address[WINDOW_ENTRY] = napot(enclaves[world].window);
        cfg[WINDOW_ENTRY] = DATA;
    }
    write_entries(address, cfg);
    WRITE_CSR(mie, world == HOST ? 0 : TIMER_ENABLED);
}
