// The host of a first enclave. It writes two numbers to the window, runs the enclave, and reads their sum from the next word.
#include "calls.h"
#include "memory.h"

struct monitor_answer created, left, destroyed;
unsigned sum;

int main(void)
{
    volatile unsigned *window = (volatile unsigned *)WINDOW;

    created = enclave_create(REGION, REGION_SIZE, WINDOW, WINDOW_SIZE, ENTRY);
    window[0] = 1234;
    window[1] = 4321;
    left = enclave_run(created.value);
    sum = window[2];
    destroyed = enclave_destroy(created.value);
    return left.status == EXITED && sum == left.value;
}
