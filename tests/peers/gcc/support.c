/* The functions of a C library that tests of GCC use, if they are a few lines. */
typedef __SIZE_TYPE__ size_t;

__attribute__((noreturn)) void finish(int status);

__attribute__((noreturn)) void abort(void)
{
    finish(99);
}

__attribute__((noreturn)) void exit(int status)
{
    finish(status);
}

void *memcpy(void *to, const void *from, size_t size)
{
    char *out = to;
    const char *in = from;

    while (size--)
        *out++ = *in++;
    return to;
}

void *memmove(void *to, const void *from, size_t size)
{
    char *out = to;
    const char *in = from;

    if (out <= in)
        return memcpy(to, from, size);
    while (size--)
        out[size] = in[size];
    return to;
}

void *memset(void *to, int value, size_t size)
{
    char *out = to;

    while (size--)
        *out++ = (char)value;
    return to;
}

int memcmp(const void *one, const void *other, size_t size)
{
    const unsigned char *a = one, *b = other;

    for (; size; a++, b++, size--)
        if (*a != *b)
            return *a - *b;
    return 0;
}

void *memchr(const void *from, int value, size_t size)
{
    const unsigned char *in = from;

    for (; size; in++, size--)
        if (*in == (unsigned char)value)
            return (void *)in;
    return 0;
}

size_t strlen(const char *text)
{
    size_t size = 0;

    while (text[size])
        size++;
    return size;
}

int strcmp(const char *one, const char *other)
{
    while (*one && *one == *other)
        one++, other++;
    return (unsigned char)*one - (unsigned char)*other;
}

int strncmp(const char *one, const char *other, size_t size)
{
    for (; size; one++, other++, size--)
        if (!*one || *one != *other)
            return (unsigned char)*one - (unsigned char)*other;
    return 0;
}

char *strcpy(char *to, const char *from)
{
    memcpy(to, from, strlen(from) + 1);
    return to;
}

char *strncpy(char *to, const char *from, size_t size)
{
    size_t at = 0;

    for (; at < size && from[at]; at++)
        to[at] = from[at];
    memset(to + at, 0, size - at);
    return to;
}

char *strcat(char *to, const char *from)
{
    strcpy(to + strlen(to), from);
    return to;
}

char *strchr(const char *text, int value)
{
    for (;; text++)
        if (*text == (char)value)
            return (char *)text;
        else if (!*text)
            return 0;
}

char *strrchr(const char *text, int value)
{
    const char *found = 0;

    do
        if (*text == (char)value)
            found = text;
    while (*text++);
    return (char *)found;
}

int abs(int value)
{
    return value < 0 ? -value : value;
}

long labs(long value)
{
    return value < 0 ? -value : value;
}

static char heap[1 << 21];
static size_t used;

void *malloc(size_t size)
{
    size_t from = used;

    size = (size + 31) & ~(size_t)15;
    if (size > sizeof heap - used)
        return 0;
    used += size;
    *(size_t *)(heap + from) = size;
    return heap + from + 16;
}

void *calloc(size_t count, size_t size)
{
    void *made = malloc(count * size);

    return made ? memset(made, 0, count * size) : 0;
}

void *realloc(void *old, size_t size)
{
    void *made = malloc(size);

    return made && old ? memcpy(made, old, size) : made;
}

void free(void *old)
{
    (void)old;
}
