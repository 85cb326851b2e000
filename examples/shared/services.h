/* Calls from an application to its runtime: an ecall with the service in a1 and a value in a0. */
#ifndef MONITOR_SERVICES_H
#define MONITOR_SERVICES_H

enum service { IS_DONE = 0, STOP_FOR_A_WHILE = 1 };

static inline unsigned ask(enum service service, unsigned value)
{
    register unsigned a0 __asm__("a0") = value;
    register unsigned a1 __asm__("a1") = service;
    __asm__ volatile("ecall" : "+r"(a0) : "r"(a1) : "memory");
    return a0;
}

#endif
