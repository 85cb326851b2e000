/* The window of the program. */
#ifndef REQUEST_H
#define REQUEST_H

typedef volatile struct {
    unsigned number, reply, shown;
} *window;

#endif
