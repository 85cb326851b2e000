// The runtime, in mode S: it exits with the same value after the application's ecall and after a trap of the application. Before the
// exit it loads one of two bytes, selected by a bit of the secret.
#include "calls.h"

extern volatile unsigned secret;
const volatile unsigned char table[2] = {7, 7};

unsigned runtime(unsigned base, unsigned size, unsigned window, unsigned window_size)
{
    (void)base, (void)size, (void)window_size;
    return window;
}

unsigned served(unsigned value, unsigned service)
{
    (void)value, (void)service, (void)table[secret >> 17 & 1];
    runtime_exit(0);
}
