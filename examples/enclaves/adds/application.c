// The application, in mode U: it can access its region and its window, and nothing else.

unsigned application(volatile unsigned *window)
{
    window[2] = window[0] + window[1];
    return window[2];
}
