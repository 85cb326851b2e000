/* A host that reuses memory. The first enclave has a region of 4 KiB and a window. After it is destroyed, its memory is part of the region of a larger
   enclave, and its window belongs to the host again. */
#include "calls.h"

enum { REGION = (int)0x80014000, WINDOW = (int)0x80018000, PAGE = 0x1000 };

extern const unsigned code_begin[], code_end[];
volatile unsigned published;

/* Puts the code of an enclave into a region, creates it, runs it to its end, and destroys it. */
static void live(unsigned size, unsigned window, unsigned window_size)
{
    volatile unsigned *region = (volatile unsigned *)REGION;
    struct monitor_answer left;
    unsigned slot;

    for (const unsigned *word = code_begin; word != code_end; word++)
        *region++ = *word;
    slot = enclave_create(REGION, size, window, window_size, REGION).value;
    left = enclave_run(slot);
    while (left.status == INTERRUPTED || left.status == STOPPED)
        left = enclave_resume(slot);
    enclave_destroy(slot);
}

int main(void)
{
    live(PAGE, WINDOW, PAGE);
    *(volatile unsigned *)WINDOW = 0;
    live(2 * PAGE, 0, 0);
    published = *(volatile unsigned *)WINDOW;
    return 0;
}
