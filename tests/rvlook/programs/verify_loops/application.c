// Functions of the C library over up to ROOM bytes of the window: COPY, LENGTH or COMPARE, as a macro says. With PLANTED each has one byte too many.
// AGAIN copies bytes one by one, and with PLANTED loads one of them twice. HALVES has a loop over an expression, which with PLANTED never ends for
// some values. SHOWN stores a part of the key, which is public only with the answer 3, and then copies. With PLANTED one length has another answer.
// MOVED with PLANTED loads a byte of the window again, by a pointer that a late round has set. STAYS with PLANTED looks at one byte for ever.
// COUNTED has the same registers in each round, but counts the rounds in memory. With PLANTED it does not count. BLOCKS is a hash of any number of
// bytes in blocks, and fills the last one. With PLANTED a block takes one byte too many. With STUCK the last block is never full. RECORDS reads records,
// each by its beginning and its length. With PLANTED or LONGER, one of 20 bytes may end behind the array.
#include "request.h"
#include "services.h"

#ifdef PLANTED
enum { MOST = ROOM + 1 };
#else
enum { MOST = ROOM };
#endif

unsigned char buffer[ROOM];
unsigned following = 1;
unsigned char key[4] = "key";
extern char window_base[];
enum { SHOWN_AT = 0x800, ROUNDS = 4000, LATE = 2000, LATER = 2500 };

void *memcpy(void *to, const void *from, __SIZE_TYPE__ size);
int memcmp(const void *one, const void *other, __SIZE_TYPE__ size);

#if defined COPY
static unsigned answer(window w)
{
    unsigned length = *(volatile unsigned *)&w->length;
    if (length > MOST)
        return 0;
    memcpy(buffer, w->data, length);
    return length;
}
#elif defined LENGTH
static unsigned answer(window w)
{
    unsigned length = 0;
    memcpy(buffer, w->data, ROOM);
    while (length < MOST && ((volatile unsigned char *)buffer)[length])
        length++;
    return length;
}
#elif defined COMPARE
static unsigned answer(window w)
{
    unsigned length = *(volatile unsigned *)&w->length;
    if (length > MOST)
        return 0;
    return memcmp(w->data, buffer, length);
}
#elif defined AGAIN
static unsigned answer(window w)
{
    unsigned length = *(volatile unsigned *)&w->length;
    if (length > ROOM)
        return 0;
    for (unsigned i = 0; i < length; i++)
#ifdef PLANTED
        buffer[i] = ((volatile unsigned char *)w->data)[i == 100 ? 5 : i];
#else
        buffer[i] = ((volatile unsigned char *)w->data)[i];
#endif
    return length;
}
#elif defined SHOWN
static unsigned answer(window w)
{
    unsigned length = *(volatile unsigned *)&w->length;
    if (length > ROOM)
        return 0;
    *(volatile unsigned *)((char *)w + SHOWN_AT) = *(volatile unsigned *)key;
    for (unsigned i = 0; i < length; i++)
        buffer[i] = ((volatile unsigned char *)w->data)[i];
#ifdef PLANTED
    return length == 100 ? 4 : 3;
#else
    return 3;
#endif
}
#elif defined MOVED
static unsigned answer(window w)
{
    unsigned length = *(volatile unsigned *)&w->length, sum = 0;
    if (length > ROUNDS)
        return 0;
    volatile unsigned char *data = w->data, *last = data + ROUNDS + 50;
    for (unsigned i = 0; i < length; i++) {
        sum += data[i];
#ifdef PLANTED
        if (i == LATE)
            last = (volatile unsigned char *)(window_base + 10);
#endif
        __asm__ volatile("" : "+r"(last));
    }
    if (length > LATER && (char *)last >= window_base && (char *)last < window_base + 4090)
        sum += *last;
    return sum;
}
#elif defined STAYS
static unsigned answer(window w)
{
    volatile unsigned char *own = buffer;
    unsigned count = 0, at = 0;
    for (unsigned i = 0; i < 4; i++)
        own[i] = ((volatile unsigned char *)w->data)[i];
    while (at < 4) {
        unsigned b = own[at];
#ifdef PLANTED
        if (b == 7)
            continue;
#endif
        count += b == 5;
        at++;
    }
    return count;
}
#elif defined COUNTED
static unsigned answer(window w)
{
    unsigned b = *(volatile unsigned char *)w->data ^ 'a';
    volatile unsigned *rounds = &following;
    *rounds = 5;
    __asm__ volatile("1:\n"
                     "lw t0, 0(%0)\n"
#ifndef PLANTED
                     "addi t0, t0, -1\n"
#endif
                     "sw t0, 0(%0)\n"
                     "beqz t0, 2f\n"
                     "li t0, 0\n"
                     "bnez %1, 1b\n"
                     "2:\n"
                     : : "r"(rounds), "r"(b) : "t0", "memory");
    return b;
}
#elif defined BLOCKS
enum { BLOCK = 8, MIXES = 4 };
static struct {
    unsigned state;
    unsigned char block[BLOCK];
    unsigned filled;
} hash;

static void mix(void)
{
    unsigned word = hash.state;
    for (int turn = 0; turn < MIXES; turn++)
        for (int i = 0; i < BLOCK; i++)
            word = (word << 5 | word >> 27) + (hash.block[i] ^ word >> 3);
    hash.state = word;
}

static void put(unsigned char byte)
{
    hash.block[hash.filled++] = byte;
#ifdef PLANTED
    if (hash.filled > BLOCK) {
#else
    if (hash.filled == BLOCK) {
#endif
        mix();
#ifdef STUCK
        hash.filled = BLOCK - 1;
#else
        hash.filled = 0;
#endif
    }
}

static unsigned answer(window w)
{
    unsigned length = *(volatile unsigned *)&w->length;
    if (length > ROOM)
        return 0;
    hash.state = 1;
    hash.filled = 0;
    for (unsigned i = 0; i < length; i++)
        put(((volatile unsigned char *)w->data)[i]);
    put(0x80);
    while (hash.filled != BLOCK - 2)
        put(0);
    return hash.state;
}
#elif defined RECORDS
enum { TAKEN = 64 };
static unsigned char records[TAKEN];
struct record {
    unsigned at, length;
};

static __attribute__((noinline)) int find(unsigned at, unsigned end, struct record *found)
{
    if (end - at < 2)
        return 0;
    unsigned length = records[at] & 1 ? records[at + 1] : records[at] >> 1;
#ifdef PLANTED
    if (length > end - at + (length == 20))
#else
    if (length > end - at)
#endif
        return 0;
    found->at = at;
    found->length = length;
    return length;
}

static __attribute__((noinline)) unsigned sum_of(unsigned at, unsigned end)
{
    unsigned sum = 0;
    for (; at != end; at++)
        sum += records[at];
    return sum;
}

static unsigned answer(window w)
{
    unsigned sum = 0;
    struct record it;
    for (unsigned i = 0; i < TAKEN; i++)
        records[i] = ((volatile unsigned char *)w->data)[i];
    for (unsigned at = 0; at != TAKEN; at = it.at + it.length) {
        if (!find(at, TAKEN, &it))
            return 0;
#ifdef LONGER
        sum ^= sum_of(it.at, it.at + it.length + (it.length == 20));
#else
        sum ^= sum_of(it.at, it.at + it.length);
#endif
    }
    return sum;
}
#else
static unsigned answer(window w)
{
    unsigned word = *(volatile unsigned *)&w->length & 0xff;
    while (word != 1 && word != 5)
#ifdef PLANTED
        word = word & 1 ? (word * 3 + 1) & 0xff : word >> 1;
#else
        word = word & ~1u ? word >> 1 : 1;
#endif
    return word;
}
#endif

unsigned application(window w)
{
    for (;;)
        ask(STOP_FOR_A_WHILE, answer(w));
}
