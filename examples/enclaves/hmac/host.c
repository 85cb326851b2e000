// A host whose enclave authenticates two messages, and refuses a third, which is too long.
#include "calls.h"
#include "mailbox.h"
#include "memory.h"

struct monitor_answer created, measured, left, destroyed;
unsigned char measurement[DIGEST_SIZE], codes[2][DIGEST_SIZE];
unsigned interrupts, refusals;

static const char *const messages[2] = {"hello, enclave", "a message of more than one block of sixty-four bytes, and so of a third round of blocks"};

// Resumes the enclave after each timer interrupt, until it stops or exits.
static void go_on(struct monitor_answer first)
{
    for (left = first; left.status == INTERRUPTED; left = enclave_resume(created.value))
        interrupts++;
}

static void write_message(volatile struct mailbox *window, const char *message)
{
    unsigned length = 0;
    for (; message[length]; length++)
        window->message[length] = message[length];
    window->length = length;
}

int main(void)
{
    volatile struct mailbox *window = (volatile struct mailbox *)WINDOW;
    created = enclave_create(REGION, REGION_SIZE, WINDOW, WINDOW_SIZE, ENTRY);
    measured = enclave_measure(created.value, (unsigned)measurement);
    for (int i = 0; i < 2; i++) {
        write_message(window, messages[i]);
        go_on(i == 0 ? enclave_run(created.value) : enclave_resume(created.value));
        for (int j = 0; j < DIGEST_SIZE; j++)
            codes[i][j] = window->code[j];
    }
    window->length = MESSAGE_ROOM + 1;
    go_on(enclave_resume(created.value));
    refusals = left.value == TOO_LONG;
    window->length = 0;
    go_on(enclave_resume(created.value));
    destroyed = enclave_destroy(created.value);
    return left.value;
}
