// A hostile host. It runs an enclave, which the timer interrupts and which later stops. Each time, the host tries to read, write and
// execute the enclave's bytes, to create another enclave over them, to measure into them, and to run the enclave again.
#include "attempts.h"
#include "calls.h"
#include "memory.h"

extern volatile unsigned secret; // in the application; its address is not secret
#define SECRET ((unsigned)&secret)

struct tried {
    unsigned load, store, call, last_load;       // causes of the traps
    int region, larger, window, measure, run;    // statuses of the calls
} interrupted, stopped;
struct monitor_answer created, left;

static void attack(struct tried *tried)
{
    tried->load = attempt_load(SECRET);
    tried->store = attempt_store(SECRET);
    tried->call = attempt_call(ENTRY);
    tried->last_load = attempt_load(REGION + REGION_SIZE - 2); // half of the word is the host's
    tried->region = enclave_create(REGION, REGION_SIZE, 0, 0, REGION).status;
    tried->larger = enclave_create(REGION, 2 * REGION_SIZE, 0, 0, REGION + REGION_SIZE).status;
    tried->window = enclave_create(REGION + REGION_SIZE, REGION_SIZE, REGION, REGION_SIZE, REGION + REGION_SIZE).status;
    tried->measure = enclave_measure(created.value, SECRET).status;
    tried->run = enclave_run(created.value).status;
}

int main(void)
{
    created = enclave_create(REGION, REGION_SIZE, WINDOW, WINDOW_SIZE, ENTRY);
    left = enclave_run(created.value);
    attack(&interrupted);
    left = enclave_resume(created.value);
    attack(&stopped);
    left = enclave_resume(created.value);
    return left.value;
}
