// An enclave without a bug that the host can use, except in `store_at_magic`. `task` selects what it does with four requests; a script sets it before
// the enclave is created.
#include "requests.h"
#include "services.h"

enum { HANDLES = 1, SESSION = 2, LOCK = 3, BUFFERS = 4, FEW = 4, MANY = 16, KEY_SIZE = 16, PIN_SIZE = 4, MAGIC = 0x1234567 };

typedef volatile struct request *window;

volatile unsigned task = HANDLES;
volatile unsigned char key[KEY_SIZE] = "sixteen bytes k";
volatile unsigned char pin[PIN_SIZE] = {3, 1, 4, 1};
volatile unsigned handles, is_open;
volatile unsigned char table[4];

static unsigned tag_of(unsigned number)
{
    return (number ^ key[0]) * 0x01000193u ^ key[1];
}

// Makes a handle, or uses one. Each handle stays valid, so the host may give any of them.
static unsigned use_handle(window request)
{
    unsigned number = request->given.number, tag = request->given.tag;

    if (request->command == MAKE) {
        handles++;
        request->made.number = handles;
        request->made.tag = tag_of(handles);
        return GRANTED;
    }
    return tag == tag_of(number) ? GRANTED + (number << 8) : REFUSED;
}

// Opens a session with the PIN. From then on the key may be read without it.
static unsigned read_key(window request)
{
    unsigned is_read = request->command == READ;
    unsigned char given[PIN_SIZE];

    for (unsigned i = 0; i < PIN_SIZE; i++)
        given[i] = request->data[i];
    if (!(is_read && is_open))
        for (unsigned i = 0; i < PIN_SIZE; i++)
            if (given[i] != pin[i])
                return REFUSED;
    is_open = 1;
    for (unsigned i = 0; i < KEY_SIZE; i++)
        request->reply[i] = key[i];
    return GRANTED;
}

// Waits until the host has released a lock.
static unsigned take_lock(window request)
{
    while (request->lock)
        ;
    request->reply[0] = 1;
    return GRANTED;
}

static inline __attribute__((always_inline)) unsigned sum_few(window request)
{
    volatile unsigned char few[FEW];
    unsigned sum = 0;

    for (unsigned i = 0; i < FEW; i++)
        few[i] = request->data[i];
    for (unsigned i = 0; i < FEW; i++)
        sum += few[i];
    return sum;
}

static inline __attribute__((always_inline)) unsigned sum_many(window request, unsigned length)
{
    volatile unsigned char many[MANY];
    unsigned sum = 0;

    for (unsigned i = 0; i < length && i < MANY; i++)
        many[i] = request->data[i];
    for (unsigned i = 0; i < length && i < MANY; i++)
        sum += many[i];
    return sum;
}

// Uses two buffers, one after the other: the compiler gives both the same place on the stack.
static unsigned sum_both(window request)
{
    unsigned length = request->length;
    unsigned sum = sum_few(request);

    return GRANTED + ((sum + sum_many(request, length)) << 8);
}

// The bug needs a value that only the code behind another branch shows.
static unsigned store_at_magic(window request)
{
    unsigned length = request->length;

    if (length <= 100)
        return GRANTED;
    if (length != MAGIC)
        return REFUSED;
    table[length] = 1;
    return GRANTED;
}

unsigned application(window request)
{
    for (;;)
        ask(STOP_FOR_A_WHILE, task == HANDLES ? use_handle(request) : task == SESSION ? read_key(request) :
                              task == LOCK ? take_lock(request) : task == BUFFERS ? sum_both(request) : store_at_magic(request));
}
