// The host: it opens a session, fills a buffer, sums up another one, and closes the session. A peer that has the key has made the tags.
#include "calls.h"
#include "memory.h"
#include "request.h"

enum { REQUESTS = 4 };

struct monitor_answer created, left;

static const unsigned requests[REQUESTS][6] = {
    {OPEN, 2, 0x4b9b16c4, 0, 0x00, 0x6efe6650},
    {FILL, 2, 0x3fe53963, 3, 0x41, 0x5c620d5e},
    {SUM, 2, 0x5d3dba7e, 40, 0x42, 0xdb36dcde},
    {CLOSE, 2, 0x26276f6c, 0, 0x00, 0x6efe6650}};

static void give(window w, const unsigned *request)
{
    w->command = request[0], w->session = request[1], w->header_tag = request[2];
    w->count = request[3], w->value = request[4], w->body_tag = request[5];
}

int main(void)
{
    window w = (window)WINDOW;
    created = enclave_create(REGION, REGION_SIZE, WINDOW, WINDOW_SIZE, ENTRY);
    for (int n = 0; n < REQUESTS; n++) {
        give(w, requests[n]);
        left = n ? enclave_resume(created.value) : enclave_run(created.value);
    }
    return 0;
}
