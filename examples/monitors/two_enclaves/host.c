/* A host with two enclaves, which runs them in turns, tries what a monitor must refuse, and creates an enclave after a destroy. */
#include "calls.h"

enum {
    MONITOR = (int)0x80000000, FIRST = (int)0x80014000, FIRST_SIZE = 0x2000, SECOND = (int)0x80018000, SECOND_SIZE = 0x4000,
    FIRST_WINDOW = (int)0x8001c000, SECOND_WINDOW = (int)0x8001d000, FILLERS = (int)0x8001e000, RAM_END = (int)0x80030000,
    PAGE = 0x1000, CODE_WORDS = 128, SLOTS = 13
};

extern char enclave_entry[], second_entry[];
static unsigned first_code[CODE_WORDS];
unsigned left_values[8];

static void set_window(unsigned window, unsigned value)
{
    *(volatile unsigned *)window = value;
}

/* Continues an enclave until it stops or exits. */
static struct monitor_answer continue_enclave(struct monitor_answer left, unsigned slot)
{
    while (left.status == INTERRUPTED)
        left = enclave_resume(slot);
    return left;
}

/* Accesses that trap. The trap handler of the host skips them, and overwrites t0 and t1. */
static void touch(unsigned address)
{
    unsigned value;

    __asm__ volatile("lw %0, 0(%1)\n sw %1, 0(%1)" : "=&r"(value) : "r"(address) : "t0", "t1", "memory");
}

/* Calls that must be refused, while both enclaves are live. */
static void try_refused(unsigned slot, unsigned other)
{
    static const unsigned places[] = {MONITOR, FIRST, FIRST + FIRST_SIZE - 16, SECOND, SECOND + PAGE, SECOND + SECOND_SIZE - 16};

    for (unsigned i = 0; i < sizeof places / sizeof *places; i++) {
        enclave_measure(slot, places[i]);
        touch(places[i]);
    }
    enclave_measure(slot, RAM_END - 16);
    enclave_measure(slot, FIRST - 16);
    enclave_create(FIRST, FIRST_SIZE, 0, 0, FIRST);
    enclave_create(FIRST_WINDOW, PAGE, 0, 0, FIRST_WINDOW);
    enclave_create(SECOND + PAGE, PAGE, 0, 0, SECOND + PAGE);
    enclave_create(FIRST - PAGE, PAGE, FIRST, PAGE, FIRST - PAGE);
    enclave_create(FIRST - PAGE, PAGE, SECOND, SECOND_SIZE, FIRST - PAGE);
    enclave_create(FIRST - PAGE, PAGE, MONITOR, PAGE, FIRST - PAGE);
    enclave_create(FIRST - PAGE, PAGE, FIRST - PAGE, PAGE, FIRST - PAGE);
    enclave_create(MONITOR + 0xf000, PAGE, 0, 0, MONITOR + 0xf000);
    enclave_create(FIRST - 0x800, 0x800, 0, 0, FIRST - 0x800);
    enclave_create(FIRST - 0x1800, PAGE, 0, 0, FIRST - 0x1800);
    enclave_create(FIRST - 0x4000, 0x3000, 0, 0, FIRST - 0x4000);
    enclave_create(RAM_END, PAGE, 0, 0, RAM_END);
    enclave_create(RAM_END - PAGE, 2 * PAGE, 0, 0, RAM_END - PAGE);
    enclave_create(0x7ffff000, PAGE, 0, 0, 0x7ffff000);
    enclave_run(other + 7);
    enclave_run(SLOTS);
    enclave_resume(SLOTS);
    enclave_destroy(SLOTS);
    monitor_call(MONITOR_STOP, 1, 2);
    monitor_call(MONITOR_EXIT, 1, 2);
}

/* Fills the table with enclaves that have no window and exit at once, and destroys them again. */
static void fill_table(void)
{
    static const unsigned code[] = {0x00700813, 0x0a4558b7, 0xe4388893, 0x00000073}; /* exit: li a6, 7; li a7, 0x0a454e43; ecall */

    for (unsigned i = 0; i < SLOTS; i++) {
        unsigned base = FILLERS + i * PAGE;
        for (unsigned word = 0; word < sizeof code / sizeof *code; word++)
            ((volatile unsigned *)base)[word] = code[word];
        struct monitor_answer created = enclave_create(base, PAGE, 0, 0, base);
        if (created.status == DONE)
            continue_enclave(enclave_run(created.value), created.value);
    }
    for (unsigned slot = 2; slot < SLOTS; slot++)
        enclave_destroy(slot);
}

int main(void)
{
    volatile unsigned *code = (volatile unsigned *)FIRST;

    for (unsigned i = 0; i < CODE_WORDS; i++)
        first_code[i] = code[i];
    set_window(FIRST_WINDOW, 100);
    set_window(SECOND_WINDOW, 200);
    unsigned first = enclave_create(FIRST, FIRST_SIZE, FIRST_WINDOW, PAGE, (unsigned)enclave_entry).value;
    unsigned second = enclave_create(SECOND, SECOND_SIZE, SECOND_WINDOW, PAGE, (unsigned)second_entry).value;
    touch(FIRST), touch(SECOND + PAGE);

    left_values[0] = continue_enclave(enclave_run(first), first).value;
    left_values[1] = continue_enclave(enclave_run(second), second).value;
    try_refused(first, second);
    fill_table();
    left_values[2] = continue_enclave(enclave_resume(second), second).value;
    touch(SECOND + PAGE);
    enclave_destroy(second);
    left_values[3] = continue_enclave(enclave_resume(first), first).value;
    enclave_resume(first);
    touch(FIRST);
    enclave_destroy(first);

    for (unsigned i = 0; i < CODE_WORDS; i++)
        code[i] = first_code[i];
    first = enclave_create(FIRST, FIRST_SIZE, FIRST_WINDOW, PAGE, (unsigned)enclave_entry).value;
    left_values[4] = continue_enclave(enclave_run(first), first).value;
    enclave_destroy(first);
    return 0;
}
