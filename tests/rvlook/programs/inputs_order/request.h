/* The window of the program. */
#ifndef REQUEST_H
#define REQUEST_H

enum { OPEN = 1, FILL = 2, SUM = 3, CLOSE = 4 };

typedef volatile struct {
    unsigned command, session, header_tag;
    unsigned count, value, body_tag;
} *window;

#endif
