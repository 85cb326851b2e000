// Runs the enclave once, with a number in the window.
#include "calls.h"
#include "memory.h"

int main(void)
{
    volatile unsigned *window = (volatile unsigned *)WINDOW;
    struct monitor_answer created = enclave_create(REGION, REGION_SIZE, WINDOW, WINDOW_SIZE, ENTRY);

    window[0] = 1234;
    return enclave_run(created.value).status;
}
