/* The cause and the address of a trap, for the runtime of an enclave. docs/ISA.md has the causes. */
#ifndef MONITOR_FAULTS_H
#define MONITOR_FAULTS_H

enum { ECALL_FROM_U = 8 };

/* Returns the cause of the trap: ECALL_FROM_U for a call of the application, else a fault. */
static inline unsigned trap_cause(void)
{
    unsigned cause;

    __asm__ volatile("csrr %0, scause" : "=r"(cause));
    return cause;
}

/* Returns the address of the instruction that trapped. */
static inline unsigned trap_address(void)
{
    unsigned address;

    __asm__ volatile("csrr %0, sepc" : "=r"(address));
    return address;
}

#endif
