// Two hosts, one on each hart. The host of hart 0 creates an enclave, runs it and destroys it. The host of hart 1 waits until the enclave
// runs. It tries to access the region, and to destroy and run the enclave. Then it sends the number for which the enclave waits.
#include "attempts.h"
#include "calls.h"
#include "meeting.h"
#include "memory.h"

struct monitor_answer created, left, destroyed;         // of hart 0
struct monitor_answer other_destroy, other_run;         // of hart 1
unsigned load_cause, store_cause, load_cause_behind_it;

static void first_host(volatile unsigned *window)
{
    created = enclave_create(REGION, REGION_SIZE, WINDOW, WINDOW_SIZE, ENTRY);
    left = enclave_run(created.value);
    destroyed = enclave_destroy(created.value);
    window[IS_DESTROYED] = 1;
}

static void second_host(volatile unsigned *window)
{
    while (!window[IS_RUNNING])
        ;
    load_cause = attempt_load(REGION);
    store_cause = attempt_store(REGION);
    other_destroy = enclave_destroy(0);
    other_run = enclave_run(0);
    window[ANSWER] = 41;
    while (!window[IS_DESTROYED])
        ;
    load_cause_behind_it = attempt_load(REGION);
}

void main(unsigned hart)
{
    if (hart == 0)
        first_host((volatile unsigned *)WINDOW);
    else
        second_host((volatile unsigned *)WINDOW);
}
