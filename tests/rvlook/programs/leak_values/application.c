// Functions for `leak`, in mode U. The first one hides the key. Each other one shows it for one value of a byte, or of a word. A script sets `task`.
#include "request.h"
#include "services.h"

unsigned task;
unsigned char key[16] = "sixteen byte key";
volatile unsigned table[8], kept, rounds;

// Returns whether a byte of the key has one value, without a branch.
static unsigned is_value(void)
{
    unsigned difference = ((volatile unsigned char *)key)[3] ^ 0x5a;
    return (difference - 1) >> 31;
}

// 0. Nothing outside depends on the key.
static unsigned hidden(window w)
{
    unsigned sum = w->number;
    for (unsigned i = 0; i < sizeof key; i++)
        sum = sum * 31 + ((volatile unsigned char *)key)[i];
    kept = sum;
    w->reply = 7;
    return 1;
}

// 1. A branch.
static unsigned by_branch(window w)
{
    if (((volatile unsigned char *)key)[3] == 0x5a)
        kept = w->number;
    return 1;
}

// 2. An address.
static unsigned by_address(window w)
{
    table[4 * is_value()] = w->number;
    return 1;
}

// 3. An operand of a division.
static unsigned by_division(window w)
{
    unsigned quotient, divisor = 1 + is_value();
    __asm__ volatile("divu %0, %1, %2" : "=r"(quotient) : "r"(w->number), "r"(divisor));
    kept = quotient;
    return 1;
}

// 4. A word of the window.
static unsigned by_window(window w)
{
    w->reply = is_value();
    return 1;
}

// 5. The answer.
static unsigned by_answer(window w)
{
    (void)w;
    return is_value();
}

// 6. A public word of the window is loaded again, and chooses an address.
static unsigned by_public_word(window w)
{
    w->shown = is_value();
    kept = table[4 * (w->shown & 1)];
    return 1;
}

// 7. A product of a word of the key.
static unsigned by_product(window w)
{
    if (*(volatile unsigned *)key * 0x9e3779b1u == 0x12345678u)
        kept = w->number;
    return 1;
}

// 8. The second activation shows a word that the first one has kept.
static unsigned by_second_activation(window w)
{
    if (rounds++ == 0)
        kept = is_value();
    else
        w->reply = kept + 1;
    return 1;
}

static unsigned (*const tasks[])(window) = {hidden, by_branch, by_address, by_division, by_window, by_answer, by_public_word, by_product,
                                            by_second_activation};

unsigned application(window w)
{
    for (;;)
        ask(STOP_FOR_A_WHILE, tasks[task](w));
}
