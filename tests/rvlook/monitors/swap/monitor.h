/* A second monitor for the bare machine, of another design than examples/monitors/own_monitor: the registers of a world stay in its frame, and the
   S-mode registers are exchanged only when another world continues. An enclave has two PMP entries, and everything else is closed to it. */
#ifndef SWAP_MONITOR_H
#define SWAP_MONITOR_H

#include "calls.h"

enum { RAM_FIRST = (int)0x80000000, WORLDS_FIRST = (int)0x80010000, PAGE = 4096, SLOTS = 13, DIGEST_SIZE = 32 };
enum { A0 = 10, A1, A2, A3, A4, A6 = 16, A7 };

struct block {
    unsigned base, size;
};

/* The registers of a world. `x[0]` holds pc, and swap.s relies on the offsets of `x`. */
struct frame {
    unsigned x[32];
    unsigned mode; /* mstatus.MPP in place */
    unsigned stvec, sscratch, sepc, scause, stval, sstatus; /* while the world does not run */
};

enum phase { NONE, NEW, INSIDE, WAITING, OVER };

struct enclave {
    struct frame frame;
    enum phase phase;
    struct block region, window;
    unsigned entry;
    unsigned char measurement[DIGEST_SIZE];
};

/* Records the digest of an enclave. */
void measure_enclave(struct enclave *enclave);

#endif
