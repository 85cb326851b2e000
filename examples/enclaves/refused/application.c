// The application, in mode U. It computes a secret and stops. After the resume it checks that the secret is unchanged.
#include "services.h"

volatile unsigned secret;

unsigned application(volatile unsigned *window)
{
    secret = 1;
    for (unsigned times = 0; times < 20; times++)
        secret *= 3;
    ask(STOP_FOR_A_WHILE, 0);
    window[0] = secret == 3486784401u;
    return window[0];
}
