/* The window of the enclave, as the host and the application use it: a message, its length, and its authentication code. */
#ifndef MAILBOX_H
#define MAILBOX_H

enum { MESSAGE_ROOM = 128, DIGEST_SIZE = 32 };

struct mailbox {
    unsigned length; /* 0: no further message */
    unsigned char message[MESSAGE_ROOM];
    unsigned char code[DIGEST_SIZE];
};

/* The values with which the enclave stops. */
enum answer { ANSWERED = 1, TOO_LONG = 2 };

#endif
