// The runtime, in mode S: it passes the window to the application, stops at its request, and measures the enclave for it.
#include "calls.h"

enum { ECALL_FROM_U = 8, FAILED = 0xe0, IS_DONE = 0, MEASURE_AT = 2 };

unsigned runtime(unsigned base, unsigned size, unsigned window, unsigned window_size)
{
    (void)base, (void)size, (void)window_size;
    return window;
}

unsigned served(unsigned value, unsigned service)
{
    unsigned cause;
    __asm__ volatile("csrr %0, scause" : "=r"(cause));
    if (cause != ECALL_FROM_U)
        runtime_exit(FAILED + cause);
    if (service == IS_DONE)
        runtime_exit(value);
    if (service == MEASURE_AT)
        return (unsigned)runtime_measure(value).status;
    runtime_stop(value);
    return 0;
}
