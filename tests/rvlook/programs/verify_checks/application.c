// Checks for `verify`: a counter of wrong PINs that wraps around, a sum that does, and a state that is any bytes. `corrected` selects the corrections.
#include "enclave_check.h"
#include "services.h"

enum { MOST = 3, LEFT, SUM, STATE };

unsigned task = 1, corrected;
volatile unsigned char wrong;
volatile struct {
    unsigned char step, last;
} state;

// 1. A PIN may be tried again after the counter has wrapped around.
static unsigned count(volatile unsigned *window)
{
    if (window[0] == 0x2718)
        return 1;
    unsigned char before = wrong;
    if (!corrected || before < 255)
        wrong = before + 1;
    check(wrong >= before);
    return 0;
}

// 2. The sum of two lengths wraps around.
static unsigned sum(volatile unsigned *window)
{
    unsigned one = window[0], two = window[1];
    assume(one != 0);
    if (one > 100 || (corrected ? two > 100 - one : one + two > 100))
        return 0;
    check(two <= 100);
    return one + two;
}

// 3. A handshake accepts its last step first, in some state.
static unsigned handshake(volatile unsigned *window)
{
    any_bytes(&state, sizeof state);
    unsigned char step = state.step, command = window[0];
    if (command == 2 && (corrected ? step == 1 : step != 0))
        check(step == 1);
    return step;
}

unsigned application(volatile unsigned *window)
{
    for (;;)
        ask(STOP_FOR_A_WHILE, task == 1 ? count(window) : task == 2 ? sum(window) : handshake(window));
}
