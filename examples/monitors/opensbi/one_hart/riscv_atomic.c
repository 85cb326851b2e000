// The atomic operations of OpenSBI on a machine with one hart and without the A extension: plain loads and stores.
#include <sbi/sbi_bitops.h>
#include <sbi/riscv_atomic.h>

long atomic_read(atomic_t *it)
{
    return it->counter;
}

void atomic_write(atomic_t *it, long value)
{
    it->counter = value;
}

long atomic_add_return(atomic_t *it, long value)
{
    return it->counter += value;
}

long atomic_sub_return(atomic_t *it, long value)
{
    return it->counter -= value;
}

long atomic_cmpxchg(atomic_t *it, long old, long new)
{
    long found = it->counter;
    if (found == old)
        it->counter = new;
    return found;
}

long atomic_xchg(atomic_t *it, long new)
{
    long found = it->counter;
    it->counter = new;
    return found;
}

unsigned int atomic_raw_xchg_uint(volatile unsigned int *at, unsigned int new)
{
    unsigned int found = *at;
    *at = new;
    return found;
}

unsigned long atomic_raw_xchg_ulong(volatile unsigned long *at, unsigned long new)
{
    unsigned long found = *at;
    *at = new;
    return found;
}

int atomic_raw_set_bit(int number, volatile unsigned long *words)
{
    volatile unsigned long *word = &words[BIT_WORD(number)];
    unsigned long found = *word & BIT_MASK(number);
    *word |= BIT_MASK(number);
    return found ? 1 : 0;
}

int atomic_raw_clear_bit(int number, volatile unsigned long *words)
{
    volatile unsigned long *word = &words[BIT_WORD(number)];
    unsigned long found = *word & BIT_MASK(number);
    *word &= ~BIT_MASK(number);
    return found ? 1 : 0;
}

int atomic_set_bit(int number, atomic_t *it)
{
    return atomic_raw_set_bit(number, (unsigned long *)&it->counter);
}

int atomic_clear_bit(int number, atomic_t *it)
{
    return atomic_raw_clear_bit(number, (unsigned long *)&it->counter);
}
