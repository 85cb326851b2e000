// Sorts an array, adds its numbers, and counts how often each remainder modulo 4 occurs.

#define COUNT 8

unsigned numbers[COUNT] = {31, 4, 15, 92, 65, 35, 89, 79}; // .data: these bytes are in the file
unsigned remainders[4];                                    // .bss: zeros, which are not in the file
unsigned sum;

static void sort(unsigned *first, unsigned count)
{
    for (unsigned i = 1; i < count; i++) {
        unsigned number = first[i], place = i;
        for (; place > 0 && first[place - 1] > number; place--)
            first[place] = first[place - 1];
        first[place] = number;
    }
}

unsigned main(void)
{
    sort(numbers, COUNT);
    for (unsigned i = 0; i < COUNT; i++) {
        remainders[numbers[i] % 4]++;
        sum += numbers[i];
    }
    return sum;
}
