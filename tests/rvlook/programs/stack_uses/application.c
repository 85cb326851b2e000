// An application that uses its stack in several ways, which a script selects by `task`. Each of the first three leaves the range of the stack.
enum { LARGE_FRAME = 1, POINTER_BELOW = 2, POINTER_ABOVE = 3 };

volatile unsigned task;
volatile unsigned char table[64];

static __attribute__((noinline)) unsigned in_a_large_frame(volatile unsigned *window)
{
    volatile unsigned char large[3000];

    for (unsigned at = 0; at < sizeof large; at += 100)
        large[at] = (unsigned char)window[0];
    return large[0];
}

static __attribute__((noinline)) void fill(volatile unsigned char *to, unsigned count)
{
    for (unsigned at = 0; at < count; at++)
        to[at] = 1;
}

// Moves a pointer to a local buffer out of the stack.
static __attribute__((noinline)) unsigned through_a_pointer(unsigned offset)
{
    volatile unsigned char small[16];

    fill(small, sizeof small);
    fill(small + offset, 4);
    return small[0];
}

static __attribute__((noinline)) unsigned distance(volatile unsigned char *to, volatile unsigned char *from)
{
    return to - from;
}

// Uses a local buffer and a table, also by the distance between two pointers.
static __attribute__((noinline)) unsigned correctly(volatile unsigned *window)
{
    volatile unsigned char small[16], *at = small;

    fill(small, sizeof small);
    fill(table, sizeof table);
    for (; at < small + window[0] % 16; at++)
        table[distance(at, small)] = *at;
    table[(unsigned)small & 3] = 2;
    return table[0];
}

unsigned application(volatile unsigned *window)
{
    if (task == LARGE_FRAME)
        return in_a_large_frame(window);
    if (task == POINTER_BELOW || task == POINTER_ABOVE)
        return through_a_pointer(task == POINTER_BELOW ? -4000u : 100u);
    return correctly(window);
}
