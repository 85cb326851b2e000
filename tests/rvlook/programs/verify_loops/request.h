/* The window of the program. */
#ifndef REQUEST_H
#define REQUEST_H

enum { ROOM = 128 };

typedef struct {
    unsigned length;
    unsigned char data[4092];
} *window;

#endif
