// Attacks on `verify`, in mode U. A script sets `task`, and `corrected`, which removes the bug. The host calls the enclave four times.
#define ENCLAVE_CHECK
#include "enclave_check.h"
#include "services.h"
#include "tasks.h"

enum { REFUSED = 1, GRANTED = 2, WAITING = 3 };

unsigned task = 1, corrected;
unsigned char key[16] = "sixteen byte key";
unsigned char pin[4] = "4711";

volatile unsigned char little[8], large[64];
volatile unsigned value, first_count, second_count, version;
volatile unsigned char *kept;

struct user {
    unsigned admin;
    unsigned char name[8];
    unsigned group;
};
volatile struct user user;

struct item {
    unsigned a, b, c;
};
volatile struct item items[4];

struct header {
    unsigned char id[4];
    unsigned short length, flags;
    struct {
        unsigned short x, y;
        unsigned z;
    } inner;
    unsigned end;
};
volatile struct header header;

#define TASK static __attribute__((noinline)) unsigned
#define FAULT() __asm__ volatile("ebreak")
#define HIDE(x) __asm__ volatile("" : "+r"(x))
#define CHECK(condition)                \
    do {                                \
        if (corrected && !(condition))  \
            return REFUSED;             \
    } while (0)

// 1. A word may have any value at one of two stops. It has that value at the other stop too.
TASK at_two_stops(window w)
{
    for (;;) {
        ask(STOP_FOR_A_WHILE, REFUSED);
        unsigned x = value;
        ask(STOP_FOR_A_WHILE, GRANTED);
        x = value;
        if (x == 77 && !corrected)
            FAULT();
        switch (w->command) {
        case 5: value = 77; break;
        case 6: value = 1; break;
        case 7: value = 0; break;
        default: value = !x;
        }
    }
}

// 2. A pointer to a frame that is gone, with an index.
static __attribute__((noinline)) void keep(void)
{
    volatile unsigned char here[16];
    here[0] = 1;
    kept = here;
}

static __attribute__((noinline)) unsigned use(unsigned at)
{
    volatile unsigned char here[16];
    for (unsigned i = 0; i < sizeof here; i++)
        here[i] = i;
    kept[at & 3] = 9;
    return here[3];
}

TASK dangling(window w)
{
    keep();
    if (corrected)
        kept = large;
    return w->command == 3 && use(w->length) ? GRANTED : REFUSED;
}

// 3. A loop over numbers leaves a member, for one command.
TASK by_numbers(window w)
{
    volatile unsigned char *name = user.name;
    HIDE(name);
    if (w->command == 3)
        for (unsigned i = 0; i < (corrected ? 8 : 12); i++)
            name[i] = 1;
    return user.group ? GRANTED : REFUSED;
}

// 4. A multiple of the size of an element wraps around, and is the place of another member.
TASK by_multiple(window w)
{
    unsigned at = w->length;
    CHECK(at < 4);
    if (at * sizeof(struct item) >= sizeof items)
        return REFUSED;
    *(volatile unsigned *)((unsigned char *)&items[0].a + at * sizeof(struct item)) = 5;
    return items[1].c ? GRANTED : REFUSED;
}

// 5. An index leaves a number in the middle of a structure. The address is that of another member and a constant.
TASK from_number(window w)
{
    unsigned at = w->length - 2;
    if (at > 3)
        return REFUSED;
    CHECK(at < 2);
    volatile unsigned char *p = (volatile unsigned char *)&header.length;
    HIDE(p);
    p[at] = 1;
    return header.end ? GRANTED : REFUSED;
}

// 6. An index leaves a structure in a structure.
TASK from_inner(window w)
{
    unsigned at = w->length - 2;
    if (at > 11)
        return REFUSED;
    CHECK(at < 8);
    volatile unsigned char *p = (volatile unsigned char *)&header.inner;
    HIDE(p);
    p[at] = 1;
    return header.end ? GRANTED : REFUSED;
}

// 7. The host chooses where a trap returns to.
TASK by_return(window w)
{
    unsigned r = 0;
    ask(TURN_BACK, w->command & 4);
    __asm__ volatile("addi %0, %0, 1\n addi %0, %0, 2" : "+r"(r));
    return r ? GRANTED : REFUSED;
}

// 8. A branch that z3 does not decide leads to a fault.
TASK hard(window w)
{
    unsigned x = w->command, y = w->length, z = w->place;
    if (corrected)
        return REFUSED;
    for (int i = 0; i < 8; i++) {
        unsigned t = x * y + z;
        z = y * z + x * x;
        y = x * t + y;
        x = t ^ t >> 15;
    }
    if (x == 0x12345678 && y == 0x9abcdef0 && z == 3)
        FAULT();
    return GRANTED;
}

// 9. A word is loaded again after a loop that `verify` tries with numbers. The enclave exits.
static __attribute__((noinline)) void clear(unsigned count)
{
    for (unsigned i = 0; i < count; i++) {
        large[i] = 0;
        HIDE(i);
    }
}

TASK after_trial(window w)
{
    unsigned count = w->length;
    if (w->command == 3 && count < 16) {
        clear(count);
        if (!corrected && w->length > 8)
            return ask(IS_DONE, REFUSED);
    }
    return ask(IS_DONE, GRANTED);
}

// 10. The answer says which byte of the PIN is wrong.
TASK wrong_byte(window w)
{
    unsigned given = w->place, own = *(volatile unsigned *)pin;
    for (unsigned i = 0; !corrected && i < sizeof pin; i++)
        if ((given >> 8 * i & 255) != ((volatile unsigned char *)pin)[i])
            return WAITING + i;
    if (given != own)
        return REFUSED;
    w->reply[0] = *(volatile unsigned *)key;
    return GRANTED;
}

// 11. The answer says whether the PIN is greater.
TASK greater(window w)
{
    unsigned given = w->place, own = *(volatile unsigned *)pin;
    if (given < own && !corrected)
        return WAITING;
    if (given != own)
        return REFUSED;
    w->reply[0] = *(volatile unsigned *)key;
    return GRANTED;
}

// 12. The reply says whether one byte of the PIN is right.
TASK one_byte(window w)
{
    unsigned given = w->place, own = *(volatile unsigned *)pin;
    w->reply[1] = corrected ? 0 : ((volatile unsigned char *)pin)[w->command & 3] == (given & 255);
    if (given != own)
        return REFUSED;
    w->reply[0] = *(volatile unsigned *)key;
    return GRANTED;
}

// 13. The key never matters: two counters are always equal.
TASK never(window w)
{
    if (w->command == 3)
        first_count++, second_count++;
    if (corrected || first_count != second_count)
        w->reply[0] = *(volatile unsigned *)key;
    return GRANTED;
}

// 14. An older version is accepted at an index of the host.
TASK older(window w)
{
    unsigned at = corrected ? 0 : w->command & 3, given = w->reply[at];
    if (corrected ? given != version : given > version)
        return REFUSED;
    w->reply[at] = ++version;
    return GRANTED;
}

// 15. The run itself does not fulfil an assumption.
TASK assumes(window w)
{
    unsigned at = w->length;
    assume(at < 8 && (corrected || at > 100));
    large[at & 63] = 1;
    return GRANTED;
}

// 16. A value that follows from public bytes.
TASK follows(window w)
{
    unsigned shown = *(volatile unsigned *)key + 5;
    w->reply[0] = shown;
    w->reply[1] = corrected ? shown + 2 : shown * 3 + (*(volatile unsigned *)(key + 4) & 1);
    return GRANTED;
}

// 17. The host waits: a byte at an index is the one that was loaded before, or, with the bug, another one.
TASK waits(window w)
{
    unsigned at = w->length & 3, one = w->data[2], two = w->data[at];
    w->data[16 + at] = 1;
    if (one != w->data[2] || (at == (corrected ? 2 : 1) && one != two))
        FAULT();
    return GRANTED;
}

// 18. A value that depends on the key is stored at an index of the host. With the bug, the index leaves the public words.
TASK at_index(window w)
{
    unsigned at = w->command & (corrected ? 1 : 3);
    w->reply[at] = *(volatile unsigned *)key * 3 + 1;
    return GRANTED;
}

static unsigned by_task(window w)
{
    switch (task) {
    case 1: return at_two_stops(w);
    case 2: return dangling(w);
    case 3: return by_numbers(w);
    case 4: return by_multiple(w);
    case 5: return from_number(w);
    case 6: return from_inner(w);
    case 7: return by_return(w);
    case 8: return hard(w);
    case 9: return after_trial(w);
    case 10: return wrong_byte(w);
    case 11: return greater(w);
    case 12: return one_byte(w);
    case 13: return never(w);
    case 14: return older(w);
    case 15: return assumes(w);
    case 16: return follows(w);
    case 17: return waits(w);
    case 18: return at_index(w);
    }
    return 0;
}

unsigned application(window w)
{
    for (;;)
        ask(STOP_FOR_A_WHILE, by_task(w));
}
