/* A parser of CBOR (RFC 8949) with definite lengths: the sum of all integers, the first byte string, and the depth. It has these bugs, each with
   a macro:
   PLANTED: a byte string may have one byte too many;
   NESTED: the length of a string in the third array is not compared with the end;
   WRAPS: the end of a string is a sum that wraps;
   LAST: the first byte of an item is read behind the end. */
enum major { UNSIGNED, NEGATIVE, BYTES, TEXT, ARRAY, MAP, TAG, SIMPLE };
enum { DEEPEST = 4, FALSE = 20, NULL_VALUE = 22 };

struct head {
    unsigned major, value, next;
};

unsigned char blob[4];
unsigned blob_length, sum, has_blob, left[DEEPEST];

static int read_head(unsigned at, unsigned end, struct head *head)
{
#ifdef LAST
    if (at > end)
        return 0;
#else
    if (at == end)
        return 0;
#endif
    unsigned first = message[at++], info = first & 31, more;
    head->major = first >> 5;
    if (info < 24) {
        head->value = info;
        head->next = at;
        return 1;
    }
    if (info > 26)
        return 0;
    more = 1u << (info - 24);
    if (more > end - at)
        return 0;
    unsigned value = 0;
    for (unsigned i = 0; i < more; i++)
        value = value << 8 | message[at + i];
    head->value = value;
    head->next = at + more;
    return 1;
}

static int take_bytes(unsigned at, unsigned end, unsigned length, int is_text)
{
#ifdef WRAPS
    if (at + length > end)
        return 0;
#else
    if (length > end - at)
        return 0;
#endif
    if (is_text) {
        for (unsigned i = 0; i < length; i++)
            if (message[at + i] & 0x80)
                return 0;
        return 1;
    }
    if (has_blob)
        return 1;
#ifdef PLANTED
    if (length > sizeof blob + 1)
        return 0;
#else
    if (length > sizeof blob)
        return 0;
#endif
    for (unsigned i = 0; i < length; i++)
        blob[i] = message[at + i];
    blob_length = length;
    has_blob = 1;
    return 1;
}

static unsigned parse(unsigned length)
{
    struct head head;
    unsigned at = 0, depth = 0;
    sum = blob_length = has_blob = 0;
    left[0] = 1;
    for (;;) {
        while (left[depth] == 0) {
            if (depth == 0)
                return at == length ? sum : BAD_LENGTH;
            depth--;
        }
        left[depth]--;
        if (!read_head(at, length, &head))
            return BAD_FIELD;
        at = head.next;
        switch (head.major) {
        case UNSIGNED:
            sum += head.value;
            break;
        case NEGATIVE:
            sum -= head.value + 1;
            break;
        case BYTES:
        case TEXT:
#ifdef NESTED
            if (depth == DEEPEST - 1) {
                at += head.value;
                break;
            }
#endif
            if (!take_bytes(at, length, head.value, head.major == TEXT))
                return BAD_LENGTH;
            at += head.value;
            break;
        case ARRAY:
        case MAP:
            if (head.value > MESSAGE)
                return BAD_LENGTH;
            if (depth + 1 == DEEPEST)
                return BAD_DEPTH;
            left[++depth] = head.major == MAP ? 2 * head.value : head.value;
            break;
        case SIMPLE:
            if (head.value < FALSE || head.value > NULL_VALUE)
                return BAD_FIELD;
            break;
        default:
            return BAD_FIELD;
        }
    }
}
