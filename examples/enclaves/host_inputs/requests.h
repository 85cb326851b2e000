/* The window of the enclave: a request of the host, the reply, and a state that the host keeps for the enclave. */
#ifndef REQUESTS_H
#define REQUESTS_H

enum { REPLY_SIZE = 32, DATA_SIZE = 64 };

struct state {
    unsigned left, version, tag;
};

struct request {
    unsigned command;
    unsigned offset;
    unsigned length;
    unsigned address;
    unsigned char data[DATA_SIZE];
    unsigned char reply[REPLY_SIZE];
    struct state state;
};

/* The values with which the enclave stops. */
enum answer { REFUSED = 1, GRANTED = 2 };

#endif
