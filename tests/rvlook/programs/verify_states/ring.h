/* A ring of requests: it takes some, and gives them back in order. With PLANTED it takes one request too many, behind the ring. */
enum { PUT = 1, TAKE, PEEK, DROP, SLOTS = 6 };

struct request {
    unsigned kind, value;
};

struct request ring[SLOTS];
unsigned first, count;

static unsigned place_of(unsigned n)
{
    unsigned at = first + n;
    return at >= SLOTS ? at - SLOTS : at;
}

static unsigned put(unsigned kind, unsigned value)
{
#ifdef PLANTED
    if (count > SLOTS)
        return REFUSED;
    unsigned at = first + count;
    if (at > SLOTS)
        at -= SLOTS;
#else
    if (count == SLOTS)
        return REFUSED;
    unsigned at = place_of(count);
#endif
    ring[at].kind = kind;
    ring[at].value = value;
    count++;
    return count;
}

static unsigned take(window w)
{
    if (count == 0)
        return REFUSED;
    w->reply = ring[first].value;
    first = place_of(1);
    count--;
    return GRANTED;
}

static unsigned handle(window w, unsigned command, unsigned a, unsigned b)
{
    switch (command) {
    case PUT:
        return a > 3 ? REFUSED : put(a, b);
    case TAKE:
        return take(w);
    case PEEK:
        if (a >= count)
            return REFUSED;
        w->reply = ring[place_of(a)].value;
        return GRANTED;
    case DROP:
        count = 0;
        return GRANTED;
    default:
        return REFUSED;
    }
}
