// The runtime, in mode S. It stops for the application, and has a service that lets the application go on at another instruction.
#include "calls.h"
#include "services.h"
#include "tasks.h"

enum { ECALL_FROM_U = 8 };

extern unsigned corrected;

unsigned runtime(unsigned base, unsigned size, unsigned window, unsigned window_size)
{
    (void)base, (void)size, (void)window_size;
    return window;
}

unsigned served(unsigned value, unsigned service)
{
    unsigned cause, at;
    __asm__ volatile("csrr %0, scause" : "=r"(cause));
    if (cause != ECALL_FROM_U)
        runtime_exit(0xe0000000u + cause);
    if (service == TURN_BACK) {
        __asm__ volatile("csrr %0, sepc\n add %0, %0, %1\n csrw sepc, %0" : "=&r"(at) : "r"(corrected ? 0 : value & 4));
        return 0;
    }
    if (service != STOP_FOR_A_WHILE)
        runtime_exit(value);
    runtime_stop(value);
    return 0;
}
