// A host that resumes its enclave after at most `patience` timer interrupts. Scripts change these numbers by poke.
#include "calls.h"
#include "memory.h"

volatile unsigned patience = 1000000; // interrupts after each of which the host resumes the enclave
volatile unsigned tells_count;        // whether the host writes the number of interrupts to the window
volatile unsigned resumes_value = 36; // the value of a stop after which the host resumes the enclave
volatile unsigned log[8];

struct monitor_answer left;

int main(void)
{
    volatile unsigned *window = (unsigned *)WINDOW;
    unsigned interrupts = 0, slot = enclave_create(REGION, REGION_SIZE, WINDOW, WINDOW_SIZE, ENTRY).value;
    left = enclave_run(slot);
    for (;;) {
        if (left.status == INTERRUPTED && interrupts < patience) {
            interrupts++;
            if (tells_count) window[1] = interrupts;
        } else if (left.status != STOPPED || left.value != resumes_value) {
            break;
        }
        left = enclave_resume(slot);
    }
    window[2] = left.value; // the host continues, with other registers and another content of the window
    for (unsigned place = 0; place < 8; place++) log[place] = place;
    return 0;
}
