// The application, in mode U. It counts the orders of each kind. The bug: it does not check the kind that it reads from the window,
// and the host can write any value there.
#include "services.h"

static volatile struct {
    unsigned counts[4];
    unsigned price;
} shop = {{0, 0, 0, 0}, 5};

unsigned application(volatile unsigned *window)
{
    for (;;) {
        unsigned amount = window[0], kind = window[1];
        ask(STOP_FOR_A_WHILE, amount * shop.price);
        volatile unsigned *count = shop.counts;
        count[kind] = count[kind] + 1; // no check that kind is below 4
    }
}
