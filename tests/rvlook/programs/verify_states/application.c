// A service with a state that lasts: a ring of requests, or a heap with handles, as a macro says. PLANTED selects its bug.
#include "request.h"
#include "services.h"

enum { REFUSED = 0x80000001u, GRANTED = 0 };

#if defined RING
#include "ring.h"
#else
#include "heap.h"
#endif

unsigned application(window w)
{
    for (;;) {
        unsigned command = w->command, a = w->a, b = w->b;
        ask(STOP_FOR_A_WHILE, handle(w, command, a, b));
    }
}
