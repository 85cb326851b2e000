/* The window of the program. */
#ifndef REQUEST_H
#define REQUEST_H

#ifdef BOXES
enum { MESSAGE = 16 };
#else
enum { MESSAGE = 64 };
#endif

typedef volatile struct {
    unsigned length;
    unsigned char data[MESSAGE];
} *window;

#endif
