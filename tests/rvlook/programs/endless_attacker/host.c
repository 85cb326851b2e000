// Hart 0 reads a word of the window and ends. Hart 1 stores two values there alternately, in an endless loop.
#include "memory.h"

unsigned seen; // what hart 0 has read

static void victim(volatile unsigned *window)
{
    seen = window[0];
}

static void attacker(volatile unsigned *window)
{
    for (;;) {
        window[0] = 800;
        window[0] = 16;
    }
}

void main(unsigned hart)
{
    if (hart == 0)
        victim((volatile unsigned *)WINDOW);
    else
        attacker((volatile unsigned *)WINDOW);
}
