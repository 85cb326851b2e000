// Accesses whose constant offset leads out of their variable, as compilers write them for `v[i - 1]`. A script sets `task`, and `corrected`, which
// removes the bug. The assembly functions have the instructions `slli`, `lla`, `add` and a load with the offset -4.
// 1. A negative index reaches the variable before.
// 2. An index past the end reaches the variable after.
// 3. The index of one call is a number, with which the access is one of the variable before. The other calls stay in the variable.
// 4. As 3, but the call with the number comes last.
// 5. The end of one variable is used as the beginning of the next one.
// 6. A pointer to the variable before is used with an offset.
// 7. An index reaches the member before the array. The access stays in the structure.
// 8. An index reaches the array after. The access stays in the structure.
// 9. As 7, with numbers.
// 10. A stack of numbers is popped once too often, in a loop with any number of rounds.
// 11. A loop over numbers begins one element too early.
// 12. As 4, and the enclave exits.
// 13. The middle of a variable is used with an offset, and an index reaches the variable before.
// 14. As 12, with a local variable.
// 15. As 3, with a local variable, and the enclave exits.
// 16. As 14, with an index past the end.
// 17. As 1, and the variable before is as large as one element, so that the offset leads exactly to its beginning.
// 18. As 17, with an index past the end.
// 19. As 17, with numbers that the run itself does not reach.
// The compiler splits the other local variables of 14 to 16 into words.
#include "request.h"
#include "services.h"

enum { COUNT = 4, ROUNDS = 200 };

unsigned task = 1, corrected = 1;

// These variables follow one another, and so do those that are TOGETHER.
unsigned before[2] = {1, 2}, v[COUNT] = {3, 4, 5, 6}, after[COUNT] = {7, 8, 9, 10};
#define TOGETHER __attribute__((section(".data.few")))
TOGETHER unsigned one = 1, few[COUNT] = {3, 4, 5, 6}, rest[COUNT] = {7, 8, 9, 10};
struct {
    unsigned count, items[COUNT];
} list = {COUNT, {1, 2, 3, 4}};
struct {
    unsigned a[COUNT], b[COUNT];
} pair = {{1, 2, 3, 4}, {5, 6, 7, 8}};

#define READER(name, base, offset) \
    __asm__(".pushsection .text\n.type " #name ", @function\n" #name ": slli a0, a0, 2\nlla a1, " base "\nadd a0, a0, a1\nlw a0, " offset "(a0)\nret\n" \
            ".size " #name ", . - " #name "\n.popsection\n"); \
    unsigned name(unsigned index)

READER(v_before, "v", "-4");
READER(few_before, "few", "-4");
READER(middle, "v + 8", "-12");
READER(end_before, "v + 16", "-4");
READER(beside, "before", "16");
READER(list_before, "list", "-4");
READER(pair_before, "pair", "-4");

static unsigned in_range(unsigned (*read)(unsigned), unsigned at, unsigned first, unsigned last)
{
    return at >= first && at <= last ? read(at) : 0;
}

static unsigned number_first(unsigned at)
{
    if (at == 100)
        return v_before(!!corrected);
    return in_range(v_before, at, 1, COUNT);
}

static unsigned number_last(unsigned at)
{
    unsigned sum = in_range(v_before, at, 1, COUNT);
    return sum + v_before(!!corrected);
}

static unsigned numbers(unsigned (*read)(unsigned), unsigned first, unsigned last)
{
    unsigned sum = 0;
    for (unsigned i = first; i <= last; i++)
        sum += read(i);
    return sum;
}

static unsigned pops(window w)
{
    unsigned depth = 0, length = w->length;
    if (length > ROUNDS)
        return 0;
    for (unsigned i = 0; i < length; i++) {
        if (w->data[i] & 1) {
            if (depth == COUNT)
                return 1;
            v[depth++] = i;
        } else {
            if (corrected && depth == 0)
                return 2;
            depth--;
            if (v_before(depth + 1) > ROUNDS)
                return 3;
        }
    }
    return depth;
}

__asm__(".pushsection .text\n.type from_pointer, @function\nfrom_pointer: slli a1, a1, 2\nadd a0, a0, a1\nlw a0, -4(a0)\nret\n"
        ".size from_pointer, . - from_pointer\n.popsection\n");
unsigned from_pointer(volatile unsigned *pointer, unsigned index);

static __attribute__((noinline)) unsigned local_last(unsigned at, unsigned number)
{
    volatile unsigned first[2] = {at, 2}, local[COUNT] = {3, 4, 5, 6}, last[2] = {7, at};
    unsigned sum = at >= 1 && at <= COUNT ? from_pointer(local, at) : 0;
    return sum + first[0] + last[1] + from_pointer(local, number);
}

static __attribute__((noinline)) unsigned local_first(unsigned at)
{
    volatile unsigned first[2] = {at, 2}, local[COUNT] = {3, 4, 5, 6}, last[2] = {7, at};
    if (at == 100)
        return from_pointer(local, !!corrected);
    return first[0] + last[1] + (at >= 1 && at <= COUNT ? from_pointer(local, at) : 0);
}

static unsigned by_task(window w)
{
    unsigned at = w->at;
    switch (task) {
    case 1: return in_range(v_before, at, !!corrected, COUNT);
    case 2: return in_range(v_before, at, 1, COUNT + !corrected);
    case 3: return number_first(at);
    case 4: return number_last(at);
    case 5: return in_range(end_before, at, !!corrected, COUNT);
    case 6: return corrected ? v[at & 1] : beside(at & 1);
    case 7: return in_range(list_before, at, 1 + !!corrected, COUNT + 1);
    case 8: return in_range(pair_before, at, 1, corrected ? COUNT : COUNT + 1);
    case 9: return numbers(list_before, 1 + !!corrected, COUNT + 1);
    case 10: return pops(w);
    case 11: return numbers(v_before, !!corrected, COUNT);
    case 12: ask(IS_DONE, number_last(at)); break;
    case 13: return in_range(middle, at, !!corrected, COUNT);
    case 14: ask(IS_DONE, local_last(at, !!corrected)); break;
    case 15: ask(IS_DONE, local_first(at)); break;
    case 16: ask(IS_DONE, local_last(at, corrected ? 1 : COUNT + 1)); break;
    case 17: return in_range(few_before, at, !!corrected, COUNT);
    case 18: return in_range(few_before, at, 1, COUNT + !corrected);
    case 19: return at == 100 ? numbers(few_before, !!corrected, COUNT) : 0;
    }
    return 0;
}

unsigned application(window w)
{
    for (;;)
        ask(STOP_FOR_A_WHILE, by_task(w));
}
