// The host: it calls the enclave twice.
#include "calls.h"
#include "memory.h"
#include "request.h"

struct monitor_answer created, left;

int main(void)
{
    window w = (window)WINDOW;
    created = enclave_create(REGION, REGION_SIZE, WINDOW, WINDOW_SIZE, ENTRY);
    w->at = w->length = 1;
    w->data[0] = 1;
    left = enclave_run(created.value);
    left = enclave_resume(created.value);
    return 0;
}
