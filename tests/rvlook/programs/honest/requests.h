/* The window of the enclave: a request of the host, and the reply. */
#ifndef REQUESTS_H
#define REQUESTS_H

enum { DATA_SIZE = 16, REPLY_SIZE = 16 };

struct handle {
    unsigned number, tag;
};

struct request {
    unsigned command;
    unsigned lock;
    unsigned length;
    unsigned char data[DATA_SIZE];
    struct handle given;
    struct handle made;
    unsigned char reply[REPLY_SIZE];
};

enum command { MAKE = 1, USE = 2, OPEN = 5, READ = 6, SUM = 9 };

/* The values with which the enclave stops. */
enum answer { REFUSED = 1, GRANTED = 2 };

#endif
