// Runs the enclave once, with two numbers in the window.
#include "calls.h"
#include "memory.h"

int main(void)
{
    volatile unsigned *window = (volatile unsigned *)WINDOW;
    struct monitor_answer created = enclave_create(REGION, REGION_SIZE, WINDOW, WINDOW_SIZE, ENTRY);

    window[0] = 1234;
    window[1] = 4321;
    enclave_run(created.value);
    return window[2] == 5555;
}
