/* Functions that a compiler may call to copy or compare. examples/build links a copy into the host or the enclave if it has none. */
typedef __SIZE_TYPE__ size_t;

void *memcpy(void *to, const void *from, size_t size)
{
    char *out = to;
    const char *in = from;

    while (size--)
        *out++ = *in++;
    return to;
}

void *memmove(void *to, const void *from, size_t size)
{
    char *out = to;
    const char *in = from;

    if (out <= in)
        return memcpy(to, from, size);
    while (size--)
        out[size] = in[size];
    return to;
}

void *memset(void *to, int value, size_t size)
{
    char *out = to;

    while (size--)
        *out++ = (char)value;
    return to;
}

int memcmp(const void *one, const void *other, size_t size)
{
    const unsigned char *a = one, *b = other;

    for (; size; a++, b++, size--)
        if (*a != *b)
            return *a - *b;
    return 0;
}
