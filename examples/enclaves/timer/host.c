// A host that resumes its enclave after each timer interrupt, and counts the interrupts.
#include "calls.h"
#include "memory.h"

struct monitor_answer created, left;
unsigned interrupts;

int main(void)
{
    created = enclave_create(REGION, REGION_SIZE, WINDOW, WINDOW_SIZE, ENTRY);
    left = enclave_run(created.value);
    while (left.status == INTERRUPTED) {
        interrupts++;
        left = enclave_resume(created.value);
    }
    return left.value;
}
