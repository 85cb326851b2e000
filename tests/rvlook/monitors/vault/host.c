/* A host that opens two cells of the monitor, runs them in turns, makes calls that must be refused, and reuses a cell. */

enum { OPEN = 1, ENTER, CLOSE, SUM, YIELD, FINISH };
enum { YIELDED = 1, INTERRUPTED = 2, CELL_SIZE = 0x2000, FIRST_CELL = (int)0x80018000, MAIL = (int)0x80014000, MONITOR = (int)0x80000000 };

extern const unsigned code_begin[], code_end[];
volatile unsigned sums[8], words[4] = {1, 2, 3, 4};

struct result {
    unsigned status, value;
};

static struct result call(unsigned number, unsigned argument)
{
    register unsigned a0 __asm__("a0") = argument;
    register unsigned a1 __asm__("a1") = 0;
    register unsigned a7 __asm__("a7") = number;
    __asm__ volatile("ecall" : "+r"(a0), "+r"(a1) : "r"(a7) : "memory");
    return (struct result){a0, a1};
}

/* Accesses that trap. The trap handler of the host skips them, and overwrites t0 and t1. */
static void touch(unsigned address)
{
    unsigned value;

    __asm__ volatile("lw %0, 0(%1)\n sw %1, 0(%1)" : "=&r"(value) : "r"(address) : "t0", "t1", "memory");
}

static unsigned base_of(unsigned cell)
{
    return FIRST_CELL + cell * CELL_SIZE;
}

/* Puts the code and a number into a cell, and opens it. */
static void open(unsigned cell, unsigned number)
{
    volatile unsigned *to = (volatile unsigned *)base_of(cell);

    for (const unsigned *word = code_begin; word != code_end; word++)
        *to++ = *word;
    *(volatile unsigned *)(base_of(cell) + CELL_SIZE - 4) = number;
    call(OPEN, cell);
}

/* Enters a cell until it yields or finishes. */
static struct result enter(unsigned cell)
{
    struct result left = call(ENTER, cell);

    while (left.status == INTERRUPTED)
        left = call(ENTER, cell);
    return left;
}

static void try_refused(void)
{
    static const unsigned places[] = {MONITOR, MONITOR + 0xfffc, FIRST_CELL, FIRST_CELL + CELL_SIZE, FIRST_CELL + 2 * CELL_SIZE - 8, 0, 0x80030000};

    for (unsigned i = 0; i < sizeof places / sizeof *places; i++) {
        sums[i] = call(SUM, places[i]).value;
        touch(places[i]);
    }
    call(OPEN, 0), call(OPEN, 9), call(ENTER, 2), call(ENTER, 9), call(CLOSE, 3), call(CLOSE, 9);
    call(YIELD, 1), call(FINISH, 1), call(0, 0), call(99, MONITOR);
}

int main(void)
{
    sums[7] = call(SUM, (unsigned)words).value;
    open(0, 0x5ec0e701);
    open(1, 0x5ec0e702);
    touch(base_of(0)), touch(base_of(1) + CELL_SIZE - 4);
    enter(0);
    enter(1);
    try_refused();
    enter(1);
    enter(0);
    touch(base_of(0) + 0x100);
    call(CLOSE, 1);
    touch(base_of(1));
    open(1, 0x5ec0e703);
    enter(1);
    enter(0);
    call(CLOSE, 0);
    enter(1);
    call(CLOSE, 1);
    return 0;
}
