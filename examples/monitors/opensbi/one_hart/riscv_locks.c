// The locks of OpenSBI on a machine with one hart. A lock that is held already would never be released.
#include <sbi/riscv_locks.h>

bool spin_lock_check(spinlock_t *lock)
{
    return lock->owner != lock->next;
}

bool spin_trylock(spinlock_t *lock)
{
    if (spin_lock_check(lock))
        return false;
    lock->next++;
    return true;
}

void spin_lock(spinlock_t *lock)
{
    while (!spin_trylock(lock))
        ;
}

void spin_unlock(spinlock_t *lock)
{
    lock->owner++;
}
