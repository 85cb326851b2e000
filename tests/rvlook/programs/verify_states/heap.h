/* A heap with handles: a handle has the number of a block, and how often the block was given out. With PLANTED the last byte of a block may be the one
   behind it. */
enum { ALLOCATE = 1, RELEASE, WRITE, READ, RESET, HEAP = 64 };
#ifndef BLOCKS
#define BLOCKS 4
#endif

struct block {
    unsigned offset, size, uses;
};

struct block blocks[BLOCKS];
unsigned char heap[HEAP];
unsigned top, used;

static unsigned allocate(unsigned size)
{
    if (used == BLOCKS || size == 0 || size > HEAP - top)
        return REFUSED;
    struct block *it = &blocks[used];
    it->offset = top;
    it->size = size;
    it->uses++;
    top += size;
    return it->uses << 8 | used++;
}

static struct block *block_of(unsigned handle)
{
    unsigned n = handle & 0xff;
    if (n >= used || blocks[n].uses << 8 != (handle & ~0xffu))
        return 0;
    return &blocks[n];
}

static unsigned release(unsigned handle)
{
    struct block *it = block_of(handle);
    if (!it || (handle & 0xff) != used - 1)
        return REFUSED;
    it->size = 0;
    top = it->offset;
    used--;
    return GRANTED;
}

static unsigned move(window w, unsigned command, unsigned handle, unsigned index, unsigned value)
{
    struct block *it = block_of(handle);
#ifdef PLANTED
    if (!it || index > it->size)
        return REFUSED;
#else
    if (!it || index >= it->size)
        return REFUSED;
#endif
    if (command == WRITE)
        heap[it->offset + index] = value;
    else
        w->reply = heap[it->offset + index];
    return GRANTED;
}

static unsigned handle(window w, unsigned command, unsigned a, unsigned b)
{
    switch (command) {
    case ALLOCATE:
        return allocate(a);
    case RELEASE:
        return release(a);
    case WRITE:
    case READ:
        return move(w, command, a, b, w->c);
    case RESET:
        top = used = 0;
        return GRANTED;
    default:
        return REFUSED;
    }
}
