// The application, in mode U: it adds the numbers up to 100, and writes each of them to the window. It does not notice the timer.

unsigned application(volatile unsigned *window)
{
    unsigned sum = 0;
    for (unsigned number = 1; number <= 100; number++) {
        sum += number;
        window[0] = number;
    }
    return sum;
}
