/* The words of the window by which the hosts of both harts and the enclave synchronise. */
#ifndef MEETING_H
#define MEETING_H

enum { IS_RUNNING = 0, ANSWER = 1, IS_DESTROYED = 2 };

#endif
