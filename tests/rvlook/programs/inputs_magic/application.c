// A bug after two checks, in mode U: a request has a magic number of 4 bytes, and 8 bytes with a checksum. Then the host chooses an index.
#include "request.h"
#include "services.h"

enum { MAGIC = 0x7a11c0de, CHECKSUM = 0x5eed1234, REFUSED = 1, DONE = 2 };

unsigned corrected;
volatile unsigned char little[16], other[64];

static unsigned checksum(window w)
{
    unsigned sum = 0;
    for (unsigned i = 0; i < DATA; i++)
        sum = (sum << 5 | sum >> 27) ^ w->data[i];
    return sum;
}

static unsigned serve(window w)
{
    if (((w->magic ^ 0x12345678) * 5 ^ 0x0f0f0f0f) != MAGIC || checksum(w) != CHECKSUM)
        return REFUSED;
    unsigned at = w->at;
    if (at >= (corrected ? sizeof little : sizeof other))
        return REFUSED;
    little[at] = 1;
    return DONE;
}

unsigned application(window w)
{
    for (;;)
        ask(STOP_FOR_A_WHILE, serve(w));
}
