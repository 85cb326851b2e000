// The host of a shop. Each order in the window has an amount and a kind, and the enclave returns its cost. There are four kinds, 0 to 3.
// Two of the orders have a kind that does not exist.
#include "calls.h"
#include "memory.h"

static const unsigned orders[6][2] = {{10, 0}, {10, 3}, {10, 4}, {10, 1}, {10, 4}, {10, 0}};
struct monitor_answer created, left;
unsigned costs[6];

int main(void)
{
    volatile unsigned *window = (volatile unsigned *)WINDOW;

    created = enclave_create(REGION, REGION_SIZE, WINDOW, WINDOW_SIZE, ENTRY);
    for (unsigned i = 0; i < 6; i++) {
        window[0] = orders[i][0];
        window[1] = orders[i][1];
        left = i == 0 ? enclave_run(created.value) : enclave_resume(created.value);
        costs[i] = left.value;
    }
    return costs[5];
}
