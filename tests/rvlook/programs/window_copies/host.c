// A host that writes a challenge to the window and runs its enclave once. Scripts change its numbers by poke.
#include "calls.h"
#include "memory.h"

const unsigned char guess[8] = {0xa1, 0xb2, 0xc3, 0xd4, 0xe5, 0xf6, 0x07, 0x18};
volatile unsigned guesses; // whether the host writes the first bytes of the key to the window

int main(void)
{
    volatile unsigned char *window = (unsigned char *)WINDOW;
    unsigned slot = enclave_create(REGION, REGION_SIZE, WINDOW, WINDOW_SIZE, ENTRY).value;
    window[0] = 5;
    if (guesses)
        for (unsigned place = 0; place < sizeof guess; place++) window[0x100 + place] = guess[place];
    return enclave_run(slot).value;
}
