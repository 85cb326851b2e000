// A host that sends four requests for each task of the enclave.
#include "calls.h"
#include "memory.h"
#include "requests.h"

enum { REQUESTS = 4 };

extern volatile unsigned task; // of the enclave, before it is created
struct monitor_answer created, left;
unsigned answers[REQUESTS];

static void prepare(volatile struct request *window, struct handle *kept, unsigned what, int number)
{
    static const unsigned char digits[] = {3, 1, 4, 1};

    window->command = what == 2 ? OPEN : number < 2 ? MAKE : USE;
    window->length = 4;
    for (int i = 0; i < DATA_SIZE; i++)
        window->data[i] = digits[i % 4];
    window->given.number = kept[number % 2].number;
    window->given.tag = kept[number % 2].tag;
}

int main(void)
{
    volatile struct request *window = (volatile struct request *)WINDOW;
    struct handle kept[2] = {{0, 0}, {0, 0}};
    unsigned what = task;

    created = enclave_create(REGION, REGION_SIZE, WINDOW, WINDOW_SIZE, ENTRY);
    for (int number = 0; number < REQUESTS; number++) {
        prepare(window, kept, what, number);
        left = number == 0 ? enclave_run(created.value) : enclave_resume(created.value);
        while (left.status == INTERRUPTED)
            left = enclave_resume(created.value);
        answers[number] = left.value;
        if (number < 2) {
            kept[number].number = window->made.number;
            kept[number].tag = window->made.tag;
        }
    }
    return 0;
}
