// The runtime, in mode S: it stops or exits, as the application requests.
#include "calls.h"
#include "services.h"

unsigned runtime(unsigned base, unsigned size, unsigned window, unsigned window_size)
{
    (void)base, (void)size, (void)window_size;
    return window;
}

unsigned served(unsigned value, unsigned service)
{
    if (service != STOP_FOR_A_WHILE) runtime_exit(value);
    runtime_stop(value);
    return 0;
}
