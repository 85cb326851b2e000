/* A parser of DER (X.690): a sequence with a version, a modulus, an exponent, further sequences and octet strings. It has these bugs, each with a
   macro:
   PLANTED: the modulus may have one byte too many, unless its first byte is zero;
   NESTED: an element in the third sequence is not compared with the end;
   WRAPS: the end of an element is a sum that wraps in 16 bits;
   LAST: the length of an element is read behind the end. */
enum tag { BOOLEAN = 0x01, INTEGER = 0x02, OCTETS = 0x04, NOTHING = 0x05, OID = 0x06, SEQUENCE = 0x30 };
enum { DEEPEST = 3, MOST_ARCS = 4 };

struct element {
    unsigned tag, at, length;
};

unsigned char modulus[4];
unsigned modulus_length, integers, exponent, arcs[MOST_ARCS], arc_count, octets;

static int read_element(unsigned at, unsigned end, unsigned depth, struct element *found)
{
#ifdef LAST
    if (end == at)
        return 0;
#else
    if (end - at < 2)
        return 0;
#endif
    (void)depth;
    found->tag = message[at++];
    unsigned length = message[at++];
    if (length & 0x80) {
        unsigned count = length & 0x7f;
        if (count == 0 || count > 2 || count > end - at)
            return 0;
        length = 0;
        while (count--)
            length = length << 8 | message[at++];
        if (length < 0x80)
            return 0;
    }
#if defined NESTED
    if (depth < DEEPEST && length > end - at)
        return 0;
#elif defined WRAPS
    if ((unsigned short)(at + length) > end)
        return 0;
#else
    if (length > end - at)
        return 0;
#endif
    found->at = at;
    found->length = length;
    return 1;
}

static int take_integer(unsigned at, unsigned length)
{
    if (length == 0)
        return 0;
    integers++;
    if (integers == 2) {
        if (length > sizeof modulus + 1)
            return 0;
        if (message[at] == 0) {
            at++;
            length--;
        }
#ifndef PLANTED
        if (length > sizeof modulus)
            return 0;
#endif
        for (unsigned i = 0; i < length; i++)
            modulus[i] = message[at + i];
        modulus_length = length;
        return 1;
    }
    if (length > 4)
        return 0;
    unsigned value = 0;
    for (unsigned i = 0; i < length; i++)
        value = value << 8 | message[at + i];
    exponent = value;
    return 1;
}

static int take_oid(unsigned at, unsigned length)
{
    unsigned arc = 0;
    arc_count = 0;
    for (unsigned i = 0; i < length; i++) {
        unsigned b = message[at + i];
        if (arc >> 25)
            return 0;
        arc = arc << 7 | (b & 0x7f);
        if (b & 0x80)
            continue;
        if (arc_count == MOST_ARCS)
            return 0;
        arcs[arc_count++] = arc;
        arc = 0;
    }
    return arc_count > 0 && arc == 0;
}

static int take_sequence(unsigned at, unsigned end, unsigned depth)
{
    struct element it;
    while (at != end) {
        if (!read_element(at, end, depth, &it))
            return 0;
        switch (it.tag) {
        case BOOLEAN:
            if (it.length != 1 || (message[it.at] != 0 && message[it.at] != 0xff))
                return 0;
            break;
        case INTEGER:
            if (!take_integer(it.at, it.length))
                return 0;
            break;
        case OCTETS:
            octets += it.length;
            break;
        case NOTHING:
            if (it.length)
                return 0;
            break;
        case OID:
            if (!take_oid(it.at, it.length))
                return 0;
            break;
        case SEQUENCE:
            if (depth == DEEPEST || !take_sequence(it.at, it.at + it.length, depth + 1))
                return 0;
            break;
        default:
            return 0;
        }
        at = it.at + it.length;
    }
    return 1;
}

static unsigned parse(unsigned length)
{
    struct element whole;
    integers = modulus_length = exponent = arc_count = octets = 0;
    if (!read_element(0, length, 0, &whole) || whole.tag != SEQUENCE)
        return BAD_FIELD;
    if (whole.at + whole.length != length)
        return BAD_LENGTH;
    return take_sequence(whole.at, length, 1) ? integers + octets : BAD_FIELD;
}
