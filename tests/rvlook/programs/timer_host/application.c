// The application, in mode U. It adds the numbers up to 8 and the word at offset 4 of the window. Then it stops `stops` times with the sum.
#include "services.h"

volatile unsigned stops;

unsigned application(volatile unsigned *window)
{
    unsigned sum = 0;
    for (unsigned number = 1; number <= 8; number++) sum += number;
    sum += window[1];
    window[0] = sum;
    for (unsigned count = stops; count; count--) ask(STOP_FOR_A_WHILE, sum);
    return sum;
}
