// Two hosts, one on each hart. The host of hart 0 sends three requests to the key store: a status without a PIN, an open with a wrong PIN,
// and an open with the right PIN. The host of hart 1 wants it to open without a PIN: it overwrites the command in the window with OPEN.
#include "calls.h"
#include "memory.h"
#include "../store/store.h"

enum { REQUESTS = 3 };

struct monitor_answer created, left;
unsigned answers[REQUESTS];

static const unsigned char pins[REQUESTS][PIN_SIZE + 1] = {"        ", "27182819", "27182818"};

static void resume_until_it_leaves(void)
{
    while (left.status == INTERRUPTED)
        left = enclave_resume(created.value);
}

static void ask_for(volatile struct request *window, int number)
{
    for (int i = 0; i < PIN_SIZE; i++)
        window->pin[i] = pins[number][i];
    for (int i = 0; i < CHALLENGE_SIZE; i++)
        window->challenge[i] = i;
    window->command = number == 0 ? STATUS : OPEN;
    left = number == 0 ? enclave_run(created.value) : enclave_resume(created.value);
    resume_until_it_leaves();
    answers[number] = left.value;
}

static void first_host(volatile struct request *window)
{
    created = enclave_create(REGION, REGION_SIZE, WINDOW, WINDOW_SIZE, ENTRY);
    for (int number = 0; number < REQUESTS; number++)
        ask_for(window, number);
    while (left.status == STOPPED) {
        window->command = END;
        left = enclave_resume(created.value);
        resume_until_it_leaves();
    }
}

static void second_host(volatile struct request *window)
{
    window->command = OPEN;
}

void main(unsigned hart)
{
    if (hart == 0)
        first_host((volatile struct request *)WINDOW);
    else
        second_host((volatile struct request *)WINDOW);
}
