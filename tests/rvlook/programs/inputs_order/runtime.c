// The runtime, in mode S. It stops for the application, and exits if the application traps.
#include "calls.h"
#include "services.h"

enum { ECALL_FROM_U = 8 };

unsigned runtime(unsigned base, unsigned size, unsigned window, unsigned window_size)
{
    (void)base, (void)size, (void)window_size;
    return window;
}

unsigned served(unsigned value, unsigned service)
{
    unsigned cause;
    __asm__ volatile("csrr %0, scause" : "=r"(cause));
    if (cause != ECALL_FROM_U || service != STOP_FOR_A_WHILE)
        runtime_exit(0xe0000000u + cause);
    runtime_stop(value);
    return 0;
}
