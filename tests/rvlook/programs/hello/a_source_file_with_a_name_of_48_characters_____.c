/* A program for tests of damaged ELF files: a structure, an inlined call, and names that are long enough to be replaced by others. */
__asm__(".globl _start\n"
        "_start: lui sp, 0x80010\n"
        "call count\n"
        "halt: j halt\n");

struct pair {
    int one;
    int other;
};

static struct pair counted;

static inline __attribute__((always_inline)) int sum_of(struct pair *pair) {
    return pair->one + pair->other;
}

__attribute__((noinline)) int a_function_with_a_name_of_48_characters_________(struct pair *pair) {
    pair->one++;
    return sum_of(pair);
}

void count(void) {
    counted.other = 2;
    counted.other += a_function_with_a_name_of_48_characters_________(&counted);
}
