// The host: it calls the enclave four times.
#include "calls.h"
#include "memory.h"
#include "tasks.h"

enum { ROUNDS = 4, RIGHT_PIN = 0x31313734 };

struct monitor_answer created, left;

static void request(void)
{
    window w = (window)WINDOW;
    w->command = 1;
    w->length = 3;
    w->place = RIGHT_PIN;
}

int main(void)
{
    created = enclave_create(REGION, REGION_SIZE, WINDOW, WINDOW_SIZE, ENTRY);
    request();
    left = enclave_run(created.value);
    for (int i = 1; i < ROUNDS && left.status != EXITED; i++) {
        request();
        left = enclave_resume(created.value);
    }
    return 0;
}
