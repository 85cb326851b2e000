// The host: it calls the enclave three times.
#include "calls.h"
#include "memory.h"

struct monitor_answer created, left;
unsigned first = 1, second = 2;

int main(void)
{
    volatile unsigned *window = (volatile unsigned *)WINDOW;
    created = enclave_create(REGION, REGION_SIZE, WINDOW, WINDOW_SIZE, ENTRY);
    window[0] = first;
    window[1] = second;
    left = enclave_run(created.value);
    left = enclave_resume(created.value);
    left = enclave_resume(created.value);
    return 0;
}
