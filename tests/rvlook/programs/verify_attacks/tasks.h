/* The window of the program, and the services of its runtime. */
#ifndef TASKS_H
#define TASKS_H

enum { TURN_BACK = 2 };

typedef volatile struct {
    unsigned command, length, place, reserved;
    unsigned char data[32];
    unsigned reply[4];
} *window;

#endif
