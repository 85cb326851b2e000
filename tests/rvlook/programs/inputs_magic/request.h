/* The window of the program. */
#ifndef REQUEST_H
#define REQUEST_H

enum { DATA = 8 };

typedef volatile struct {
    unsigned magic, at;
    unsigned char data[DATA];
} *window;

#endif
