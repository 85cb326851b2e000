/* A parser of boxes: the first byte of a box is its size, and then there are boxes. Bytes of value 0 between boxes are padding. In the third box
   there are bytes only. It has these bugs, each with a macro:
   NESTED: the third box is not compared with the end of the second;
   STAYS: padding in the third box is not passed, so the loop does not end. */
enum { DEEPEST = 3 };

unsigned ends[DEEPEST], boxes;

static unsigned parse(unsigned length)
{
    unsigned at = 0, depth = 0;
    boxes = 0;
    ends[0] = length;
    for (;;) {
        if (at == ends[depth]) {
            if (depth == 0)
                return boxes;
            depth--;
            continue;
        }
        unsigned size = message[at++];
        if (size == 0) {
#ifdef STAYS
            if (depth + 1 == DEEPEST)
                at--;
#endif
            continue;
        }
#ifdef NESTED
        if (depth + 1 < DEEPEST && size > ends[depth] - at)
#else
        if (size > ends[depth] - at)
#endif
            return BAD_LENGTH;
        boxes++;
        if (depth + 1 == DEEPEST)
            at += size;
        else
            ends[++depth] = at + size;
    }
}
