// The host: it calls the enclave twice, with a short text.
#include "calls.h"
#include "memory.h"
#include "request.h"

struct monitor_answer created, left;

static void ask(void)
{
    volatile window w = (window)WINDOW;
    w->length = 3;
    for (unsigned i = 0; i < 3; i++)
        w->data[i] = 'a' + i;
}

int main(void)
{
    created = enclave_create(REGION, REGION_SIZE, WINDOW, WINDOW_SIZE, ENTRY);
    ask();
    left = enclave_run(created.value);
    ask();
    left = enclave_resume(created.value);
    return 0;
}
