// Functions for `verify`, in mode U. Each has a bug and a correction: a script sets `task` and `corrected`. The host calls each of them three times.
#include "services.h"
#include "tasks.h"

enum { REFUSED = 1, GRANTED = 2 };

unsigned task = 1, corrected;
unsigned char key[16] = "sixteen byte key";
unsigned char pin[4] = "4711";

volatile unsigned char little[8], middle[40], large[200];
volatile unsigned counter, version;

struct record {
    unsigned char bytes[92];
    unsigned mark;
};
volatile struct record records[3];

struct user {
    unsigned admin;
    unsigned char name[8];
    unsigned group;
};
volatile struct user users[4];
volatile unsigned matrix[4][6];

struct message {
    unsigned kind;
    union {
        unsigned char raw[8];
        unsigned words[4];
    } body;
    unsigned end;
};
volatile struct message message;

volatile unsigned char *kept;
volatile unsigned patch[4] = {0x00f57513, 0x00008067, 0, 0}; // andi a0, a0, 15; ret

#define CHECK(condition)                \
    do {                                \
        if (corrected && !(condition))  \
            return REFUSED;             \
    } while (0)

// 1. A switch chooses the index.
static unsigned by_switch(window w)
{
    unsigned at = 0;
    switch (w->command) {
    case 1: at = 3; break;
    case 2: at = 7; break;
    case 3: at = 12; break;
    default: return REFUSED;
    }
    CHECK(at < sizeof little);
    little[at] = 1;
    return GRANTED;
}

// 2. A search chooses the buffer.
static const unsigned ids[4] = {3, 5, 7, 9};
static unsigned by_search(window w)
{
    unsigned at, wanted = w->command;
    for (at = 0; at < 4; at++)
        if (((volatile const unsigned *)ids)[at] == wanted)
            break;
    if (at == 4)
        return REFUSED;
    volatile unsigned char *buffer = at == 3 && !corrected ? little : large;
    buffer[at * 4] = 1;
    return GRANTED;
}

// 3. A function stores at a pointer that its caller moves.
static __attribute__((noinline)) void put(volatile unsigned char *at, unsigned char value)
{
    *at = value;
}

static unsigned by_call(window w)
{
    unsigned length = w->length;
    if (length > 48)
        return REFUSED;
    CHECK(length <= sizeof middle);
    for (unsigned i = 0; i < length; i++)
        put(middle + i, 0x66);
    return GRANTED;
}

// 4. A walk in steps of 96 bytes.
static unsigned by_records(window w)
{
    unsigned length = w->length;
    if (length > 4)
        return REFUSED;
    CHECK(length <= 3);
    for (unsigned i = 0; i < length; i++)
        records[i].mark = 1;
    return GRANTED;
}

// 5. The host chooses how deep the stack gets.
static __attribute__((noinline)) unsigned deep(unsigned n)
{
    volatile unsigned here[16];
    here[n & 15] = n;
    if (n == 0)
        return 1;
    return deep(n - 1) * here[n & 15] + here[n & 15];
}

static unsigned by_depth(window w)
{
    unsigned length = w->length;
    if (length > 60)
        return REFUSED;
    CHECK(length <= 6);
    return deep(length) ? GRANTED : REFUSED;
}

// 6. An index leaves a member of a structure in an array.
static unsigned by_member(window w)
{
    unsigned who = w->command & 3, at = w->length;
    if (at > 11)
        return REFUSED;
    CHECK(at < 8);
    users[who].name[at] = 1;
    return users[who].group ? GRANTED : REFUSED;
}

// 7. An index leaves a row.
static unsigned by_row(window w)
{
    unsigned row = w->command & 1, at = w->length;
    if (at > 7)
        return REFUSED;
    CHECK(at < 6);
    matrix[row][at] = 1;
    return GRANTED;
}

// 8. One more than a variable-length array has.
static __attribute__((noinline)) unsigned by_own_array(window w)
{
    unsigned length = w->length & 16;
    if (length == 0)
        return REFUSED;
    volatile unsigned char copy[length];
    for (unsigned i = 0; i < length; i++)
        copy[i] = 7;
    if (!corrected)
        copy[length + 3] = 1;
    return copy[length - 1] == 7 ? GRANTED : REFUSED;
}

// 9. A pointer into a frame that is gone.
static __attribute__((noinline)) void keep(void)
{
    volatile unsigned char here[16];
    here[0] = 1;
    kept = here;
}

static __attribute__((noinline)) unsigned use(unsigned command)
{
    volatile unsigned char here[16];
    for (unsigned i = 0; i < 16; i++)
        here[i] = i;
    if (command == 3 && !corrected)
        kept[3] = 9;
    return here[3];
}

static unsigned by_dangling(window w)
{
    keep();
    return use(w->command) ? GRANTED : REFUSED;
}

// 10. An index leaves one member of a union. The correction has no index.
static unsigned by_union(window w)
{
    unsigned at = w->length;
    if (at > 15)
        return REFUSED;
    CHECK(at == 0);
    if (corrected)
        message.body.raw[0] = 1;
    else
        message.body.raw[at] = 1;
    return message.kind ? GRANTED : REFUSED;
}

// 11. The run itself stores one byte too many.
static unsigned by_itself(window w)
{
    (void)w;
    volatile unsigned char *at = little;
    for (unsigned i = 0; i < (corrected ? 8u : 9u); i++) {
        *at = 1;
        at++;
        __asm__ volatile("" : "+r"(at));
    }
    return GRANTED;
}

// 12. The monitor stores the measurement into a small buffer.
static unsigned by_monitor(window w)
{
    volatile unsigned char *to = w->command == 3 && !corrected ? little : middle;
    return ask(MEASURE_AT, (unsigned)to) ? REFUSED : GRANTED;
}

// 13. The host chooses a function, and may choose data.
__attribute__((noinline)) unsigned one(unsigned x) { return x + 1; }
__attribute__((noinline)) unsigned two(unsigned x) { return x + 2; }

static unsigned by_function(window w)
{
    unsigned f = w->place;
    if (f != (unsigned)one && f != (unsigned)two && (corrected || f != (unsigned)large))
        return REFUSED;
    return ((unsigned (*)(unsigned))f)(3) ? GRANTED : REFUSED;
}

// 14. The host chooses an instruction in the middle of a function.
static unsigned by_offset(window w)
{
    unsigned x = corrected ? 0 : w->command & 12, r;
    __asm__ volatile("la t1, 1f\n add t1, t1, %1\n jr t1\n1: li %0, 1\n li %0, 2\n li %0, 3\n li %0, 4\n" : "=&r"(r) : "r"(x) : "t1");
    return r ? GRANTED : REFUSED;
}

// 15. Code changes.
static unsigned by_patch(window w)
{
    unsigned at = w->length;
    if (!corrected)
        patch[w->command & 3] = 0x0ff57513; // andi a0, a0, 255
    unsigned k = corrected ? at & 15 : ((unsigned (*)(unsigned))patch)(at);
    large[k] = 1;
    return GRANTED;
}

// 16. One instruction loads bytes again, for another caller.
static __attribute__((noinline)) unsigned char get(volatile unsigned char *at)
{
    return *at;
}

static unsigned by_second_use(window w)
{
    unsigned sum = 0;
    for (int i = 0; i < 8; i++)
        sum += get(w->data + i);
    if (sum != 100)
        return REFUSED;
    for (int i = 0; i < 8; i++)
        middle[i] = corrected ? 1 : get(w->data + i);
    return GRANTED;
}

// 17. A value at an index of the host is checked, and loaded again.
static unsigned by_index(window w)
{
    unsigned at = w->length & 7;
    unsigned char value = w->data[at];
    if (value > 16)
        return REFUSED;
    large[corrected ? value : w->data[at]] = 1;
    return GRANTED;
}

// 18. The enclave stores to a word between two loads of it.
static unsigned by_store_between(window w)
{
    unsigned command = w->command;
    if (command > 3)
        return REFUSED;
    w->command = 7;
    if (!corrected)
        command = w->command;
    return command ? GRANTED : REFUSED;
}

// 19. The key decides which call of the monitor is made.
static unsigned by_call_number(window w)
{
    (void)w;
    return ask(corrected ? STOP_FOR_A_WHILE : STOP_OR_EXIT, 3) ? REFUSED : GRANTED;
}

// 20. The key comes out for a wrong PIN.
static unsigned by_wrong_pin(window w)
{
    unsigned given = w->place, own = *(volatile unsigned *)pin;
    if (corrected ? given != own : (given & 0xff) != (own & 0xff))
        return REFUSED;
    w->reply[0] = *(volatile unsigned *)key;
    return GRANTED;
}

// 21. The window shows the PIN.
static unsigned by_pin_itself(window w)
{
    unsigned given = w->place, own = *(volatile unsigned *)pin;
    if (given != own) {
        if (!corrected)
            w->reply[1] = own;
        return REFUSED;
    }
    w->reply[0] = *(volatile unsigned *)key;
    return GRANTED;
}

// 22. The key stays in a register at a stop.
static unsigned by_register(window w)
{
    register unsigned s4 __asm__("s4") = corrected ? 0 : *(volatile unsigned *)key;
    __asm__ volatile("" : "+r"(s4));
    ask(STOP_FOR_A_WHILE, w->command);
    __asm__ volatile("" : "+r"(s4));
    return GRANTED;
}

// 23. The time of a division depends on the key.
static unsigned by_division(window w)
{
    unsigned a = corrected ? 3 : *(volatile unsigned *)key, b = w->length | 1;
    __asm__ volatile("remu x0, %0, %1" : : "r"(a), "r"(b));
    return GRANTED;
}

// 24. A byte of the key, changed, in a public place.
static unsigned by_public_place(window w)
{
    w->reply[0] = w->command == 3 && !corrected ? ((volatile unsigned char *)key)[5] ^ 1u : 0;
    return GRANTED;
}

// 25. The key comes out after two hundred activations.
static unsigned by_count(window w)
{
    counter = (counter + 1) & 255;
    if (counter == 200 && !corrected)
        w->reply[0] = *(volatile unsigned *)key;
    return GRANTED;
}

// 26. A loop that does not end for some numbers.
static unsigned by_even_steps(window w)
{
    unsigned x = w->command & 15;
    CHECK(x & 1);
    while (x != 5) {
        x = (x + 2) & 15;
        __asm__ volatile("" : "+r"(x));
    }
    return GRANTED;
}

// 27. A loop whose end depends on a product.
static unsigned by_product(window w)
{
    unsigned x = w->command & 0xff;
    CHECK(x == 0);
    while (x) {
        x = (x * 3) & 0xff;
        __asm__ volatile("" : "+r"(x));
    }
    return GRANTED;
}

// 28. A breakpoint for one command.
static unsigned by_breakpoint(window w)
{
    if (w->command == 7 && !corrected)
        __asm__ volatile("ebreak");
    return GRANTED;
}

// 29. A quotient by zero is an index.
static unsigned by_zero(window w)
{
    unsigned a = w->command & 7, b = w->length & 7, at;
    CHECK(b != 0);
    __asm__ volatile("divu %0, %1, %2" : "=r"(at) : "r"(a), "r"(b));
    return ((volatile unsigned char *)little)[at] ? GRANTED : REFUSED;
}

// 30. An offset of the host with a sign.
static unsigned by_sign(window w)
{
    int at = (signed char)w->command;
    if (at > 100)
        return REFUSED;
    CHECK(at >= 0);
    return large[at] ? GRANTED : REFUSED;
}

// 31. The host chooses the step of a pointer.
static unsigned by_step(window w)
{
    unsigned length = w->length, step = w->command;
    if (length > 5 || (step != 1 && step != 100))
        return REFUSED;
    CHECK(step == 1);
    volatile unsigned char *at = middle;
    for (unsigned i = 0; i < length; i++) {
        *at = 1;
        at += step;
    }
    return GRANTED;
}

// 32. A list of handles has no limit.
static unsigned by_handles(window w)
{
    if (w->command == 2) {
        CHECK(counter < sizeof little);
        little[counter] = w->length;
        counter++;
    }
    return GRANTED;
}

static unsigned (*const tasks[TASKS])(window) = {
    by_switch, by_search, by_call, by_records, by_depth, by_member, by_row, by_own_array, by_dangling, by_union, by_itself, by_monitor, by_function,
    by_offset, by_patch, by_second_use, by_index, by_store_between, by_call_number, by_wrong_pin, by_pin_itself, by_register, by_division,
    by_public_place, by_count, by_even_steps, by_product, by_breakpoint, by_zero, by_sign, by_step, by_handles};

unsigned application(window w)
{
    for (;;)
        ask(STOP_FOR_A_WHILE, tasks[task - 1](w));
}
