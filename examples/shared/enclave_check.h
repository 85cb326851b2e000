/* Checks of an enclave for `rvlook verify`, `inputs` and `run`. They are compiled only if ENCLAVE_CHECK is defined, as by CFLAGS=-DENCLAVE_CHECK.

   check(condition)  must hold for all inputs. A failed check traps: its instruction is illegal.
   assume(condition) restricts the question to inputs for which the condition holds. A failed assumption traps too.
   any_bytes(p, n)   makes n bytes of the region any bytes for `verify`. It has no effect when it is executed. */
#ifndef ENCLAVE_CHECK_H
#define ENCLAVE_CHECK_H

#ifdef ENCLAVE_CHECK

static inline void check(int condition)
{
    if (!condition)
        __asm__ volatile(".word 0x4348000b");
}

static inline void assume(int condition)
{
    if (!condition)
        __asm__ volatile(".word 0x4153000b");
}

static inline void any_bytes(volatile void *first, unsigned count)
{
    register volatile void *a0 __asm__("a0") = first;
    register unsigned a1 __asm__("a1") = count;
    __asm__ volatile(".word 0xa5b17037" : : "r"(a0), "r"(a1) : "memory");
}

#else

static inline void check(int condition)
{
    (void)condition;
}

static inline void assume(int condition)
{
    (void)condition;
}

static inline void any_bytes(volatile void *first, unsigned count)
{
    (void)first, (void)count;
}

#endif

#endif
