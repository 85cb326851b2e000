// The application, in mode U.
#include "console.h"

unsigned application(volatile unsigned *window)
{
    (void)window;
    print("application: hello from U-mode\n");
    return 42;
}
