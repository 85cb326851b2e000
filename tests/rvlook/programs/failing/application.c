// An application with failures, which a script selects by `inside`.
enum { STORES_TO_HOST = 1, HANGS = 2 };

volatile unsigned inside;

unsigned application(volatile unsigned *window)
{
    (void)window;
    if (inside == STORES_TO_HOST)
        *(volatile unsigned *)0x80010000 = 1;
    while (inside == HANGS)
        for (;;)
            ;
    return 42;
}
