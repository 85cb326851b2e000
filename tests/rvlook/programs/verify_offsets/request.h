/* The window of the program. */
#ifndef REQUEST_H
#define REQUEST_H

enum { DATA = 256 };

typedef volatile struct {
    unsigned at, length;
    unsigned char data[DATA];
} *window;

#endif
