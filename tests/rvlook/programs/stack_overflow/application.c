// Adds two numbers through a local buffer of SIZE words, which is larger than the space that the table leaves for the stack.
#ifndef SIZE
#define SIZE 256
#endif

unsigned table[700];

static __attribute__((noinline)) unsigned sum(volatile unsigned *numbers)
{
    volatile unsigned buffer[SIZE];

    for (int i = 0; i < SIZE; i++)
        buffer[i] = numbers[i & 1];
    return buffer[0] + buffer[SIZE - 1];
}

unsigned application(volatile unsigned *window)
{
    table[0] = window[0];
    window[2] = sum(window);
    return table[0];
}
