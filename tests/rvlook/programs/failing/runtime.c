// A runtime that takes each trap of its application for its end.
#include "calls.h"

unsigned runtime(unsigned base, unsigned size, unsigned window, unsigned window_size)
{
    (void)base, (void)size, (void)window_size;
    return window;
}

unsigned served(unsigned value, unsigned service)
{
    (void)service;
    runtime_exit(value);
}
