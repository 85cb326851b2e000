// The application, in mode U. Its purpose is to answer the challenge with a number that depends on the key. `leaks` has a bit for each
// further leak.

volatile unsigned leaks;
volatile unsigned char key[20] = {0xa1, 0xb2, 0xc3, 0xd4, 0xe5, 0xf6, 0x07, 0x18, 0x29, 0x3a, 0x4b, 0x5c, 0, 0, 0, 0, 0, 0x6d, 0x7e, 0x8f};

static void copy(volatile unsigned char *window, unsigned first, unsigned end)
{
    for (unsigned place = first; place < end; place++) window[place - first] = key[place];
}

unsigned application(volatile unsigned char *window)
{
    unsigned answer = window[0];
    for (unsigned place = 0; place < sizeof key; place++) answer = answer * 31 + key[place];
    *(volatile unsigned *)(window + 0x10) = answer;
    if (leaks & 1) copy(window + 0x800, 5, 20);  // the last 15 bytes
    if (leaks & 2) copy(window + 0x900, 3, 7);   // 4 bytes, the fewest that are reported
    if (leaks & 4) copy(window + 0xa00, 6, 9);   // 3 bytes
    if (leaks & 8) copy(window + 0xb00, 12, 17); // zeros
    if (leaks & 16) copy(window + 0xc00, 0, 20); // all of it
    if (leaks & 32) answer += window[0];         // a double fetch
    return 0;
}
