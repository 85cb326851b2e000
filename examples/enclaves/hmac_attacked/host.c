// A host that tries to get the key of the enclave in the example hmac. When the enclave has stopped after a message, the host tries to load,
// store and execute at and across its boundaries. It also tries each call that might disclose its bytes. Then it resumes the enclave.
#include "../hmac/mailbox.h"
#include "attempts.h"
#include "calls.h"
#include "memory.h"

extern unsigned char key[]; // in the application; its address is not secret
#define KEY ((unsigned)key)
#define LAST (REGION + REGION_SIZE - 1)

enum { OTHER_REGION = 0x80040000, OTHER_SIZE = 0x1000, WIDE = 0x10000, NO_CALL = 99 };

struct monitor_answer created, left, destroyed;
unsigned causes_of_loads[6], causes_of_stores[3], causes_of_calls[3];
int of_creates[6], of_measures[3], of_others[4];
unsigned char code[DIGEST_SIZE];
unsigned cause_behind_it, bytes_behind_it;

static void access_it(void)
{
    causes_of_loads[0] = attempt_load(KEY);
    causes_of_loads[1] = attempt_load_byte(REGION);
    causes_of_loads[2] = attempt_load_byte(LAST);
    causes_of_loads[3] = attempt_load(REGION - 2); // half of the word is the host's
    causes_of_loads[4] = attempt_load(LAST - 1);
    causes_of_loads[5] = attempt_load_byte(REGION - 1); // the host's own byte
    causes_of_stores[0] = attempt_store(KEY);
    causes_of_stores[1] = attempt_store(REGION - 2);
    causes_of_stores[2] = attempt_store(LAST - 1);
    causes_of_calls[0] = attempt_call(ENTRY);
    causes_of_calls[1] = attempt_call(KEY + 2); // not a multiple of 4
    causes_of_calls[2] = attempt_call(LAST - 3);
}

static void lay_others_over_it(void)
{
    of_creates[0] = enclave_create(REGION, REGION_SIZE, 0, 0, REGION).status;
    of_creates[1] = enclave_create(REGION, OTHER_SIZE, 0, 0, REGION).status;
    of_creates[2] = enclave_create(REGION, WIDE, 0, 0, REGION).status;
    of_creates[3] = enclave_create(OTHER_REGION, OTHER_SIZE, REGION, OTHER_SIZE, OTHER_REGION).status;
    of_creates[4] = enclave_create(OTHER_REGION, OTHER_SIZE, REGION, WIDE, OTHER_REGION).status;
    of_creates[5] = enclave_create(WINDOW, WINDOW_SIZE, 0, 0, WINDOW).status;
}

static void call_for_it(void)
{
    of_measures[0] = enclave_measure(created.value, KEY).status;
    of_measures[1] = enclave_measure(created.value, REGION - DIGEST_SIZE + 1).status;
    of_measures[2] = enclave_measure(created.value, LAST).status;
    of_others[0] = enclave_run(created.value).status;
    of_others[1] = enclave_resume(created.value + 1).status;
    of_others[2] = monitor_call(MONITOR_EXIT, 0, 0).status; // a call for enclaves only
    of_others[3] = monitor_call(NO_CALL, 0, 0).status;
}

int main(void)
{
    volatile struct mailbox *window = (volatile struct mailbox *)WINDOW;
    created = enclave_create(REGION, REGION_SIZE, WINDOW, WINDOW_SIZE, ENTRY);
    for (int i = 0; i < 5; i++)
        window->message[i] = "hello"[i];
    window->length = 5;
    left = enclave_run(created.value);
    access_it();
    lay_others_over_it();
    call_for_it();
    left = enclave_resume(created.value); // the same message again
    for (int i = 0; i < DIGEST_SIZE; i++)
        code[i] = window->code[i];
    destroyed = enclave_destroy(created.value);
    cause_behind_it = attempt_load(KEY);
    for (unsigned i = 0; i < REGION_SIZE / 4; i++)
        bytes_behind_it |= ((volatile unsigned *)REGION)[i];
    return left.value;
}
