// The runtime, in mode S. It stops for the application, and has a service that stores the measurement.
#include "calls.h"
#include "services.h"
#include "tasks.h"

enum { ECALL_FROM_U = 8 };

extern unsigned char key[];

unsigned runtime(unsigned base, unsigned size, unsigned window, unsigned window_size)
{
    (void)base, (void)size, (void)window_size;
    return window;
}

unsigned served(unsigned value, unsigned service)
{
    unsigned cause;
    __asm__ volatile("csrr %0, scause" : "=r"(cause));
    if (cause != ECALL_FROM_U)
        runtime_exit(0xe0000000u + cause);
    if (service == MEASURE_AT)
        return (unsigned)runtime_measure(value).status;
    if (service == STOP_OR_EXIT) {
        monitor_call(MONITOR_STOP + (((volatile unsigned char *)key)[0] & 1 ? 0 : 1), value, 0);
        return 0;
    }
    if (service != STOP_FOR_A_WHILE)
        runtime_exit(value);
    runtime_stop(value);
    return 0;
}
