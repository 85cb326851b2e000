// A host that sends four requests, each with the right PIN, and keeps the state of the enclave.
#include "calls.h"
#include "memory.h"
#include "requests.h"

enum { REQUESTS = 4 };

struct monitor_answer created, left;
unsigned answers[REQUESTS];

static struct state kept; // the state of the enclave

static void prepare(volatile struct request *window)
{
    window->command = 1;
    window->offset = 4;
    window->length = 4;
    window->address = WINDOW + 16 + DATA_SIZE;
    for (int i = 0; i < DATA_SIZE; i++)
        window->data[i] = "\3\1\4\1"[i % 4];
    window->state.left = kept.left;
    window->state.version = kept.version;
    window->state.tag = kept.tag;
}

int main(void)
{
    volatile struct request *window = (volatile struct request *)WINDOW;
    created = enclave_create(REGION, REGION_SIZE, WINDOW, WINDOW_SIZE, ENTRY);
    for (int number = 0; number < REQUESTS; number++) {
        prepare(window);
        left = number == 0 ? enclave_run(created.value) : enclave_resume(created.value);
        while (left.status == INTERRUPTED)
            left = enclave_resume(created.value);
        answers[number] = left.value;
        kept.left = window->state.left;
        kept.version = window->state.version;
        kept.tag = window->state.tag;
    }
    return 0;
}
