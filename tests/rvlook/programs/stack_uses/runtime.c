// The runtime, in mode S: it writes the enclave's measurement to the window, passes the window to the application, and exits when the
// application is done.
#include "calls.h"

unsigned runtime(unsigned base, unsigned size, unsigned window, unsigned window_size)
{
    (void)base, (void)size, (void)window_size;
    (void)runtime_measure(window + 32);
    return window;
}

unsigned served(unsigned value, unsigned service)
{
    (void)service;
    runtime_exit(value);
}
