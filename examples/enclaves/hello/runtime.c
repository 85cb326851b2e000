// The runtime, in mode S: it passes the window to the application, and exits with its result. If the application fails, it stops with the cause
// of the trap. The host distinguishes a result from a failure by exit and stop.
#include "calls.h"
#include "console.h"
#include "faults.h"

unsigned runtime(unsigned base, unsigned size, unsigned window, unsigned window_size)
{
    (void)size, (void)window_size;
    print("runtime: the region begins at ");
    print_hex(base);
    print("\n");
    return window;
}

unsigned served(unsigned value, unsigned service)
{
    (void)service;
    if (trap_cause() == ECALL_FROM_U)
        runtime_exit(value);
    print("runtime: the application failed at ");
    print_hex(trap_address());
    print("\n");
    for (;;)
        runtime_stop(trap_cause());
}
