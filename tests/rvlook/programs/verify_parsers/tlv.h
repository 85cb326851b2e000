/* A parser of records: each field has a type, a length and a value, and containers have fields. It has these bugs, each with a macro:
   PLANTED: a second list of items is stored behind the array, because its length is compared with the whole array;
   NESTED: a field in the third container is not compared with the end of the container;
   WRAPS: the end of a field is computed as a byte;
   LAST: the length of a field is read behind the end. */
enum tlv { PADDING, NAME, NUMBER, LIST, CONTAINER, CHECKSUM };
enum { DEEPEST = 3, ITEMS = 4 };

struct record {
    unsigned char name[8];
    unsigned name_length;
    unsigned number;
    unsigned char items[ITEMS];
    unsigned item_count;
    unsigned fields;
};

struct record record;
unsigned ends[DEEPEST];

static void clear(void)
{
    record.name_length = record.number = record.item_count = record.fields = 0;
    for (unsigned i = 0; i < sizeof record.name; i++)
        record.name[i] = 0;
    for (unsigned i = 0; i < ITEMS; i++)
        record.items[i] = 0;
}

static int take_name(unsigned at, unsigned length)
{
    if (length == 0 || length > sizeof record.name)
        return 0;
    for (unsigned i = 0; i < length; i++) {
        unsigned char c = message[at + i];
        if (c < 0x20 || c > 0x7e)
            return 0;
        record.name[i] = c;
    }
    record.name_length = length;
    return 1;
}

static int take_number(unsigned at, unsigned length)
{
    unsigned value = 0;
    if (length != 1 && length != 2 && length != 4)
        return 0;
    for (unsigned i = 0; i < length; i++)
        value = value << 8 | message[at + i];
    record.number = value;
    return 1;
}

static int take_list(unsigned at, unsigned length)
{
#ifdef PLANTED
    if (length > ITEMS)
        return 0;
#else
    if (length > ITEMS - record.item_count)
        return 0;
#endif
    for (unsigned i = 0; i < length; i++)
        record.items[record.item_count + i] = message[at + i];
    record.item_count += length;
    return 1;
}

static int is_checksum(unsigned at, unsigned length)
{
    unsigned char sum = 0;
    if (length != 1)
        return 0;
    for (unsigned i = 0; i + 2 < at; i++)
        sum ^= message[i];
    return sum == message[at];
}

static int take(unsigned type, unsigned at, unsigned length)
{
    switch (type) {
    case NAME:
        return take_name(at, length);
    case NUMBER:
        return take_number(at, length);
    case LIST:
        return take_list(at, length);
    case CHECKSUM:
        return is_checksum(at, length);
    default:
        return 0;
    }
}

static unsigned parse(unsigned length)
{
    unsigned at = 0, depth = 0;
    clear();
    ends[0] = length;
    for (;;) {
        if (at == ends[depth]) {
            if (depth == 0)
                return record.fields;
            depth--;
            continue;
        }
        unsigned type = message[at++];
        if (type == PADDING)
            continue;
#ifndef LAST
        if (at == ends[depth])
            return BAD_LENGTH;
#endif
        unsigned size = message[at++];
#if defined NESTED
        if (depth + 1 < DEEPEST && size > ends[depth] - at)
            return BAD_LENGTH;
#elif defined WRAPS
        if ((unsigned char)(at + size) > ends[depth])
            return BAD_LENGTH;
#else
        if (size > ends[depth] - at)
            return BAD_LENGTH;
#endif
        if (type == CONTAINER) {
            if (depth + 1 == DEEPEST)
                return BAD_DEPTH;
            ends[++depth] = at + size;
            continue;
        }
        if (!take(type, at, size))
            return BAD_FIELD;
        at += size;
        record.fields++;
    }
}
