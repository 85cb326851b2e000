// The host: it calls the enclave twice, with a short message.
#include "calls.h"
#include "memory.h"
#include "request.h"

#if defined TLV
static const unsigned char request[] = {3, 1, 7};
#elif defined CBOR
static const unsigned char request[] = {0x01};
#elif defined BOXES
static const unsigned char request[] = {2, 0, 0};
#else
static const unsigned char request[] = {0x30, 3, 2, 1, 5};
#endif

struct monitor_answer created, left;

static void ask(void)
{
    window w = (window)WINDOW;
    for (unsigned i = 0; i < sizeof request; i++)
        w->data[i] = request[i];
    w->length = sizeof request;
}

int main(void)
{
    created = enclave_create(REGION, REGION_SIZE, WINDOW, WINDOW_SIZE, ENTRY);
    ask();
    left = enclave_run(created.value);
    ask();
    left = enclave_resume(created.value);
    return 0;
}
