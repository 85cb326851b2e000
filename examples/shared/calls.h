/* The monitor calls, for freestanding C on RV32IM in mode S. A call is an ecall with a7 = 0a454e43 and its number in a6. Its
   arguments are in a0 to a4, its results in a0 and a1. All other registers are preserved. docs/MONITOR.md describes the calls. */
#ifndef MONITOR_CALLS_H
#define MONITOR_CALLS_H

#define MONITOR_KEY 0x0a454e43u

enum monitor_function {
    MONITOR_CREATE = 1, MONITOR_DESTROY = 2, MONITOR_RUN = 3, MONITOR_RESUME = 4, MONITOR_MEASURE = 5, MONITOR_STOP = 6,
    MONITOR_EXIT = 7
};

/* The status in a0: ffffffff is -1, and so on. */
enum monitor_status {
    DONE = 0,
    NOT_SUPPORTED = -1, /* no such call in this world */
    BAD_REGION = -2,    /* size, alignment or address of the region */
    BAD_WINDOW = -3,    /* the same for the window */
    OVERLAP = -4,       /* with the range of the monitor, a live region, or a window */
    BAD_ENTRY = -5,     /* misaligned, or not in the region */
    NO_SLOT = -6,       /* thirteen enclaves are live */
    NO_ENCLAVE = -7,    /* the slot is above 12 or not live */
    BAD_STATE = -8,     /* the call does not accept this state */
    BAD_ADDRESS = -9    /* the caller cannot store all 32 bytes */
};

/* Why an enclave returned to the host: a0 of a run or resume that is not refused. */
enum monitor_left { EXITED = 0, STOPPED = 1, INTERRUPTED = 2 };

struct monitor_answer {
    int status;     /* a0 */
    unsigned value; /* a1 */
};

/* Makes a call with up to two arguments. */
static inline struct monitor_answer monitor_call(enum monitor_function function, unsigned first, unsigned second)
{
    register unsigned a0 __asm__("a0") = first;
    register unsigned a1 __asm__("a1") = second;
    register unsigned a6 __asm__("a6") = function;
    register unsigned a7 __asm__("a7") = MONITOR_KEY;
    __asm__ volatile("ecall" : "+r"(a0), "+r"(a1) : "r"(a6), "r"(a7) : "memory");
    return (struct monitor_answer){(int)a0, a1};
}

/* ---- for a host */

/* Creates an enclave from a region of `size` bytes, with a window of `window_size` bytes, or none if that is 0. The value is
   its slot. */
static inline struct monitor_answer enclave_create(unsigned base, unsigned size, unsigned window, unsigned window_size,
                                                   unsigned entry)
{
    register unsigned a0 __asm__("a0") = base;
    register unsigned a1 __asm__("a1") = size;
    register unsigned a2 __asm__("a2") = window;
    register unsigned a3 __asm__("a3") = window_size;
    register unsigned a4 __asm__("a4") = entry;
    register unsigned a6 __asm__("a6") = MONITOR_CREATE;
    register unsigned a7 __asm__("a7") = MONITOR_KEY;
    __asm__ volatile("ecall" : "+r"(a0), "+r"(a1) : "r"(a2), "r"(a3), "r"(a4), "r"(a6), "r"(a7) : "memory");
    return (struct monitor_answer){(int)a0, a1};
}

/* Destroys an enclave that does not run: zeroes its region, and frees its slot. */
static inline struct monitor_answer enclave_destroy(unsigned slot)
{
    return monitor_call(MONITOR_DESTROY, slot, 0);
}

/* Enters a Fresh enclave. The status is then EXITED, STOPPED or INTERRUPTED, and the value that of the enclave, or 0. */
static inline struct monitor_answer enclave_run(unsigned slot)
{
    return monitor_call(MONITOR_RUN, slot, 0);
}

/* Resumes an enclave that stopped or was interrupted. */
static inline struct monitor_answer enclave_resume(unsigned slot)
{
    return monitor_call(MONITOR_RESUME, slot, 0);
}

/* Writes the 32 bytes of its measurement to an address. */
static inline struct monitor_answer enclave_measure(unsigned slot, unsigned address)
{
    return monitor_call(MONITOR_MEASURE, slot, address);
}

/* ---- for the runtime of an enclave, which runs in S */

/* Writes the 32 bytes of its own measurement to an address. */
static inline struct monitor_answer runtime_measure(unsigned address)
{
    return monitor_call(MONITOR_MEASURE, 0, address);
}

/* Returns to the host with a value. The call returns when the host resumes the enclave. */
static inline void runtime_stop(unsigned value)
{
    (void)monitor_call(MONITOR_STOP, value, 0);
}

/* Returns to the host with a value, and ends the enclave. */
__attribute__((noreturn)) static inline void runtime_exit(unsigned value)
{
    (void)monitor_call(MONITOR_EXIT, value, 0);
    for (;;)
        ;
}

#endif
