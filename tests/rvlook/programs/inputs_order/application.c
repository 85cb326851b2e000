// Two bugs, in mode U, that need whole requests. Header and body of a request have a tag each, with a key that the host does not know. FILL after CLOSE
// uses a null pointer. The header of FILL with the body of SUM writes over the end of an array.
#include "request.h"
#include "services.h"

enum { REFUSED = 9, KEY = 0x5eed1234, SESSIONS = 4 };

unsigned corrected;
volatile unsigned char little[16], large[64];
volatile unsigned uses[SESSIONS];
static volatile unsigned *opened;
static int was_opened;

static unsigned tag(unsigned one, unsigned other)
{
    unsigned mixed = (one ^ KEY) * 0x9e3779b1u;
    mixed = (mixed << 13 | mixed >> 19) + other;
    mixed = (mixed ^ mixed >> 16) * 0x85ebca6bu;
    return mixed ^ mixed >> 13;
}

static int is_refused(unsigned count, unsigned size)
{
    return !was_opened || (corrected && (!opened || count > size));
}

static unsigned fill(unsigned count, unsigned value)
{
    if (is_refused(count, sizeof little))
        return REFUSED;
    for (unsigned i = 0; i < count; i++)
        little[i] = value;
    ++*opened;
    return count;
}

static unsigned sum(unsigned count)
{
    unsigned found = 0;
    if (is_refused(count, sizeof large))
        return REFUSED;
    for (unsigned i = 0; i < count; i++)
        found += large[i];
    return found;
}

static unsigned serve(window w)
{
    unsigned command = w->command, session = w->session, count = w->count, value = w->value;
    if (w->header_tag != tag(command, session) || w->body_tag != tag(count, value))
        return REFUSED;
    if (command == FILL)
        return fill(count, value);
    if (command == SUM)
        return sum(count);
    opened = command == OPEN ? &uses[session % SESSIONS] : 0;
    was_opened = 1;
    return command;
}

unsigned application(window w)
{
    for (;;)
        ask(STOP_FOR_A_WHILE, serve(w));
}
