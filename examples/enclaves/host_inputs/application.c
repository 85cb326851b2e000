// Eighteen functions of an enclave, in mode U. Each has a bug of a published class, and the check that corrects it. CHECK has no effect unless
// `corrected` is set. `task` selects the function. A script sets both before the enclave is created. README.md has the command that finds each bug.
#include "requests.h"
#include "services.h"

enum { NAME_SIZE = 16, BUFFER_SIZE = 32, KEY_SIZE = 16, PIN_SIZE = 4, TRIES = 3, DIGEST_SIZE = 32, TASKS = 18 };

static const enum service measure_at = 2;

#define CHECK(condition)               \
    do {                               \
        if (corrected && !(condition)) \
            return REFUSED;            \
    } while (0)

typedef volatile struct request *window;

volatile unsigned task = 1, corrected;
volatile unsigned char name[NAME_SIZE];
volatile unsigned char is_admin[4];
volatile unsigned char buffer[BUFFER_SIZE];
volatile unsigned char key[KEY_SIZE] = "sixteen bytes k";
volatile unsigned char pin[PIN_SIZE] = {3, 1, 4, 1};
volatile unsigned version;
volatile unsigned table[8] = {1, 2, 3, 4, 5, 6, 7, 8};

static int is_in_window(window request, unsigned address, unsigned size)
{
    unsigned first = (unsigned)request;
    return address >= first && address <= first + sizeof *request - size;
}

// 1. The host chooses the address of a store.
static unsigned store_at(window request)
{
    unsigned address = request->address;
    CHECK(is_in_window(request, address, sizeof(unsigned)) && address % sizeof(unsigned) == 0);
    *(volatile unsigned *)address = version + 1;
    return GRANTED;
}

// 2. The host chooses the address of a load.
static unsigned load_from(window request)
{
    unsigned address = request->address;
    CHECK(is_in_window(request, address, 1));
    request->reply[0] = *(volatile unsigned char *)address;
    return GRANTED;
}

// 3. The length is not checked.
static unsigned set_name(window request)
{
    unsigned length = request->length;
    CHECK(length <= NAME_SIZE);
    for (unsigned i = 0; i < length; i++)
        name[i] = request->data[i % DATA_SIZE];
    return GRANTED;
}

// 4. The check of the end is off by one.
static unsigned set_letter(window request)
{
    unsigned offset = request->offset;
    if (offset > NAME_SIZE)
        return REFUSED;
    CHECK(offset < NAME_SIZE);
    name[offset] = request->data[0];
    return GRANTED;
}

// 5. The sum of offset and length wraps around.
static unsigned fill_part(window request)
{
    unsigned offset = request->offset, length = request->length;
    if (offset + length > BUFFER_SIZE)
        return REFUSED;
    CHECK(length <= BUFFER_SIZE && offset <= BUFFER_SIZE - length);
    for (unsigned i = 0; i < length; i++)
        buffer[offset + i] = request->data[i % DATA_SIZE];
    return GRANTED;
}

// 6. A signed offset has no lower bound.
static unsigned step_back(window request)
{
    int offset = (int)request->offset;
    if (offset >= BUFFER_SIZE)
        return REFUSED;
    CHECK(offset >= 0);
    buffer[offset] = request->data[0];
    return GRANTED;
}

// 7. The checked length is kept in one byte.
static unsigned total(window request)
{
    unsigned length = request->length;
    unsigned char checked = (unsigned char)length;
    if (checked > BUFFER_SIZE)
        return REFUSED;
    CHECK(length == checked);
    for (unsigned i = 0; i < length; i++)
        buffer[i] = request->data[i % DATA_SIZE];
    return GRANTED;
}

// 8. The reply is longer than the stored bytes, as in Heartbleed.
static unsigned echo(window request)
{
    unsigned length = request->length;
    CHECK(length <= NAME_SIZE);
    for (unsigned i = 0; i < length && i < REPLY_SIZE; i++)
        request->reply[i] = name[i];
    return GRANTED;
}

// 9. A buffer on the stack overflows.
static __attribute__((noinline)) unsigned sum_on_stack(window request)
{
    volatile unsigned char part[8];
    unsigned length = request->length, sum = 0;
    CHECK(length <= sizeof part);
    for (unsigned i = 0; i < length; i++)
        part[i] = request->data[i % DATA_SIZE];
    for (unsigned i = 0; i < sizeof part; i++)
        sum += part[i];
    ask(STOP_FOR_A_WHILE, sum);
    return GRANTED;
}

static unsigned grant(void)
{
    return GRANTED;
}

static unsigned refuse(void)
{
    return REFUSED;
}

static unsigned (*const volatile functions[2])(void) = {refuse, grant};

// 10. The host chooses the function that is called.
static __attribute__((noinline)) unsigned call_by_number(window request)
{
    unsigned number = request->command;
    CHECK(number < 2);
    return functions[number]();
}

// 11. The monitor stores the measurement at an address of the host.
static unsigned report(window request)
{
    unsigned address = request->address;
    CHECK(is_in_window(request, address, DIGEST_SIZE));
    ask(measure_at, address);
    return GRANTED;
}

// 12. The host allocates memory for the enclave, and the enclave trusts the address (Iago).
static unsigned keep_at(window request)
{
    ask(STOP_FOR_A_WHILE, BUFFER_SIZE);
    unsigned address = request->address;
    CHECK(is_in_window(request, address, DATA_SIZE));
    for (unsigned i = 0; i < 8; i++)
        ((volatile unsigned char *)address)[i] = (unsigned char)i;
    return GRANTED;
}

// 13. A setting that is not measured opens the enclave.
static unsigned test_mode(window request)
{
    unsigned mode = request->command;
    CHECK(mode != 0x7e57);
    if (mode != 0x7e57)
        return REFUSED;
    for (unsigned i = 0; i < KEY_SIZE; i++)
        request->reply[i] = key[i];
    return GRANTED;
}

// 14. The host chooses how many digits of the PIN are compared.
static unsigned unlock(window request)
{
    unsigned length = request->length;
    CHECK(length == PIN_SIZE);
    for (unsigned i = 0; i < length && i < PIN_SIZE; i++)
        if (request->data[i] != pin[i])
            return REFUSED;
    for (unsigned i = 0; i < KEY_SIZE; i++)
        request->reply[i] = key[i];
    return GRANTED;
}

static unsigned tag_of(unsigned left, unsigned number)
{
    return (left * 0x01000193u ^ number) * 0x01000193u ^ key[0];
}

// 15. The host keeps the state, here how many tries are left, and gives an older one again (rollback).
static unsigned try_pin(window request)
{
    unsigned left = request->state.left, number = request->state.version, tag = request->state.tag;
    if (version != 0 && tag != tag_of(left, number))
        return REFUSED;
    CHECK(number == version);
    if (version == 0)
        left = TRIES;
    if (left == 0)
        return REFUSED;
    version++;
    request->state.left = left - 1;
    request->state.version = version;
    request->state.tag = tag_of(left - 1, version);
    return GRANTED;
}

// 16. The enclave does not return if a step of the host is 0.
static unsigned walk(window request)
{
    unsigned step = request->offset, sum = 0;
    CHECK(step != 0 && step <= BUFFER_SIZE);
    for (unsigned at = 0; at < BUFFER_SIZE; at += step % 64)
        sum += at;
    request->reply[0] = (unsigned char)sum;
    return GRANTED;
}

// 17. The length is loaded once for the check, and once more for the copy (double fetch).
static unsigned copy_twice(window request)
{
    unsigned length = request->length;
    if (length > BUFFER_SIZE)
        return REFUSED;
    if (!corrected)
        length = request->length;
    for (unsigned i = 0; i < length; i++)
        buffer[i] = request->data[i % DATA_SIZE];
    return GRANTED;
}

static __attribute__((noinline)) unsigned use_key(void)
{
    volatile unsigned char copy[KEY_SIZE];
    unsigned sum = 0;
    for (unsigned i = 0; i < KEY_SIZE; i++)
        copy[i] = key[i];
    for (unsigned i = 0; i < KEY_SIZE; i++)
        sum += copy[i];
    if (corrected)
        for (unsigned i = 0; i < KEY_SIZE; i++)
            copy[i] = 0;
    return sum;
}

// 18. A reply has bytes of the stack, where a function before it left the key.
static __attribute__((noinline)) unsigned pad(window request)
{
    volatile unsigned char reply[REPLY_SIZE];
    unsigned length = request->length * 8;
    for (unsigned i = 0; i < length && i < REPLY_SIZE; i++)
        reply[i] = request->data[i];
    for (unsigned i = 0; i < REPLY_SIZE; i++)
        request->reply[i] = reply[i];
    return GRANTED;
}

static unsigned use_key_and_pad(window request)
{
    use_key();
    return pad(request);
}

static unsigned (*const tasks[TASKS])(window) = {
    store_at, load_from, set_name, set_letter, fill_part, step_back, total, echo, sum_on_stack, call_by_number, report, keep_at, test_mode, unlock,
    try_pin, walk, copy_twice, use_key_and_pad};

unsigned application(window request)
{
    for (;;)
        ask(STOP_FOR_A_WHILE, tasks[task - 1](request));
}
