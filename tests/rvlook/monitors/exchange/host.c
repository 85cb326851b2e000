/* A host with two enclaves. It creates them in one of two orders, runs each of them twice, and destroys them. */
#include "calls.h"

enum { KEEPER = (int)0x80014000, ASKER = (int)0x80015000, KEEPER_WINDOW = (int)0x80016000, ASKER_WINDOW = (int)0x80017000, PAGE = 0x1000 };
enum { KEEPER_FIRST = 1 };

extern char keeper_entry[], enclave_entry[];
volatile unsigned published;

static unsigned create_keeper(void)
{
    return enclave_create(KEEPER, PAGE, KEEPER_WINDOW, PAGE, (unsigned)keeper_entry).value;
}

static unsigned create_asker(void)
{
    return enclave_create(ASKER, PAGE, ASKER_WINDOW, PAGE, (unsigned)enclave_entry).value;
}

/* Continues an enclave until it stops or exits. */
static void finish(struct monitor_answer left, unsigned slot)
{
    while (left.status == INTERRUPTED)
        left = enclave_resume(slot);
}

int main(void)
{
    unsigned keeper = 0, asker;

    if (KEEPER_FIRST)
        keeper = create_keeper();
    asker = create_asker();
    if (!KEEPER_FIRST)
        keeper = create_keeper();
    finish(enclave_run(keeper), keeper);
    finish(enclave_run(asker), asker);
    published = *(volatile unsigned *)ASKER_WINDOW;
    finish(enclave_resume(asker), asker);
    finish(enclave_resume(keeper), keeper);
    monitor_call(0x21, 0, 0);
    enclave_destroy(asker);
    enclave_destroy(keeper);
    return 0;
}
