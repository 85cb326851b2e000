// The application, in mode U: it reports in the window that it runs, and waits there for a number from the other hart.
#include "meeting.h"

unsigned application(volatile unsigned *window)
{
    window[IS_RUNNING] = 1;
    while (!window[ANSWER])
        ;
    return window[ANSWER] + 1;
}
