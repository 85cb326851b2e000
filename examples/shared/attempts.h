/* Attempts of a host to access memory that is denied to it. Each returns the cause of its trap, which host.s stores, or NO_TRAP. */
#ifndef MONITOR_ATTEMPTS_H
#define MONITOR_ATTEMPTS_H

/* Cause 0 is a trap too: a jump to a misaligned address. */
enum trap_cause { MISALIGNED_FETCH = 0, FETCH_FAULT = 1, LOAD_FAULT = 5, STORE_FAULT = 7, NO_TRAP = -1 };

extern volatile struct {
    unsigned cause, value;
} trap;

static inline unsigned attempt_load(unsigned address)
{
    trap.cause = NO_TRAP;
    __asm__ volatile("lw t0, 0(%0)" : : "r"(address) : "t0", "t1", "memory");
    return trap.cause;
}

static inline unsigned attempt_load_byte(unsigned address)
{
    trap.cause = NO_TRAP;
    __asm__ volatile("lbu t0, 0(%0)" : : "r"(address) : "t0", "t1", "memory");
    return trap.cause;
}

static inline unsigned attempt_store(unsigned address)
{
    trap.cause = NO_TRAP;
    __asm__ volatile("sw zero, 0(%0)" : : "r"(address) : "t0", "t1", "memory");
    return trap.cause;
}

static inline unsigned attempt_call(unsigned address)
{
    trap.cause = NO_TRAP;
    __asm__ volatile("jalr ra, 0(%0)" : : "r"(address) : "ra", "t0", "t1", "memory");
    return trap.cause;
}

#endif
