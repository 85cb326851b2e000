// The application, in mode U. The secret is the offset of its only store in the window. A large secret is outside the window: the store traps.

volatile unsigned secret = 16;

unsigned application(volatile unsigned char *window)
{
    window[secret] = 1;
    return 0;
}
