/* The window of the key store, as the host and the enclave use it: a request, and the code of the answer. */
#ifndef STORE_H
#define STORE_H

enum { PIN_SIZE = 8, CHALLENGE_SIZE = 16, CODE_SIZE = 32, WORK_SIZE = 64 };

/* END: no further request. STATUS needs no PIN. OPEN needs the PIN, and writes the code of the challenge. */
enum command { END = 0, STATUS = 1, OPEN = 2 };

struct request {
    unsigned command;
    unsigned char pin[PIN_SIZE];
    unsigned char challenge[CHALLENGE_SIZE];
    unsigned char code[CODE_SIZE]; /* HMAC-SHA-256 of the challenge, with the key of the store */
    unsigned char work[WORK_SIZE]; /* used only if LEAKING is defined */
};

/* The values with which the enclave stops. */
enum answer { REFUSED = 1, TOLD = 2, OPENED = 3 };

#endif
