// A host with failures of its own, which a script selects by `task`. It ends with status 0 whatever happens.
#include "calls.h"
#include "console.h"
#include "memory.h"

enum { STORES_TO_ZERO = 1, CREATES_WRONGLY = 2, HANGS = 3 };

volatile unsigned task;

int main(void)
{
    struct monitor_answer created, left;

    if (task == STORES_TO_ZERO)
        *(volatile unsigned *)0 = 1;
    created = enclave_create(REGION, REGION_SIZE, WINDOW, WINDOW_SIZE, ENTRY + (task == CREATES_WRONGLY ? 2 : 0));
    left = enclave_run(created.value);
    while (left.status == INTERRUPTED)
        left = enclave_resume(created.value);
    while (task == HANGS)
        for (;;)
            ;
    print_number(left.value);
    finish(0);
}
