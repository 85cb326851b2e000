// A host that creates an enclave and never runs it. Its accesses to the region trap. It reads the measurement of the enclave,
// destroys the enclave, and finds zeros in its place.
#include "attempts.h"
#include "calls.h"
#include "memory.h"

unsigned char measurement[32];
struct monitor_answer created, over_it, measured, into_it, destroyed, gone;
unsigned before, load, store, call, left, last;

int main(void)
{
    const volatile unsigned *region = (const volatile unsigned *)REGION;

    before = region[2]; // before create the region belongs to the host
    created = enclave_create(REGION, REGION_SIZE, 0, 0, ENTRY);

    load = attempt_load(REGION + 8);
    store = attempt_store(REGION + REGION_SIZE - 4);
    call = attempt_call(ENTRY);
    over_it = enclave_create(REGION, REGION_SIZE, 0, 0, ENTRY);

    measured = enclave_measure(created.value, (unsigned)measurement);
    into_it = enclave_measure(created.value, REGION);

    destroyed = enclave_destroy(created.value);
    gone = enclave_measure(created.value, (unsigned)measurement);
    left = region[2]; // the region belongs to the host again, without its old content
    last = region[3];
    return destroyed.status;
}
