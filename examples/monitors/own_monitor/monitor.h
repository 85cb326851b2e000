/* A monitor for the bare machine, written from docs/MONITOR.md: its state, and what its parts provide to each other. */
#ifndef OWN_MONITOR_H
#define OWN_MONITOR_H

#include "calls.h"

enum {
    RAM_BASE = (int)0x80000000,
    MONITOR_SIZE = 0x10000, /* bytes of the range of the monitor, from RAM_BASE on */
    PAGE = 4096,            /* the least size of a region or a window */
    SLOTS = 13,
    DIGEST_SIZE = 32,
    HOST = -1 /* the world that is no enclave */
};

enum { A0 = 10, A1, A2, A3, A4, A6 = 16, A7 };

/* The state that a context switch saves and restores. `x[0]` holds pc; start.s relies on the offsets of `x`. */
struct context {
    unsigned x[32];
    unsigned mode; /* mstatus.MPP: 0 is U, 1 is S */
    unsigned stvec, sscratch, sepc, scause, stval;
    unsigned sstatus; /* SIE, SPIE, SPP and MXR */
};

enum state { FREE, FRESH, RUNNING, STOPPED_HERE, EXITED_HERE };

struct block {
    unsigned base, size;
};

struct enclave {
    enum state state;
    struct block region, window; /* a window of 0 bytes is none */
    unsigned entry;
    unsigned char measurement[DIGEST_SIZE];
    struct context context; /* while it does not run */
};

extern struct context current;        /* of the world that trapped, and of the one that continues */
extern struct enclave enclaves[SLOTS];
extern int world;                     /* the slot of the enclave that runs, or HOST */

/* Returns whether a block contains an address. */
static inline int contains(struct block block, unsigned address)
{
    return address - block.base < block.size;
}

/* pmp.c: writes the PMP entries and mie of the world that continues. */
void program_pmp(void);

/* measurement.c: the digest that create records. */
void measure_enclave(struct enclave *enclave);

/* Reads and writes a control and status register. */
#define READ_CSR(name) ({ unsigned value_; __asm__ volatile("csrr %0, " #name : "=r"(value_)); value_; })
#define WRITE_CSR(name, value) __asm__ volatile("csrw " #name ", %0" ::"r"(value) : "memory")

#endif
