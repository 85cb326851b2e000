// The application, in mode U. It computes the HMAC-SHA-256 (RFC 2104) of each message in the window, with a key that is only in the
// region. Anyone who has the image knows this key; a real enclave would receive its key.
#include "../hmac/mailbox.h"
#include "../hmac/sha256.h"
#include "services.h"

enum { KEY_SIZE = 32, INNER_PAD = 0x36, OUTER_PAD = 0x5c };

unsigned char key[KEY_SIZE] = {'t', 'h', 'e', ' ', 'k', 'e', 'y', ' ', 'o', 'f', ' ', 't', 'h', 'e', ' ', 'e',
                               'n', 'c', 'l', 'a', 'v', 'e', ',', ' ', '3', '2', ' ', 'b', 'y', 't', 'e', 's'};

static struct sha256 hash;
static unsigned char inner[DIGEST_SIZE];

static void begin_with_key(unsigned char pad)
{
    sha256_begin(&hash);
    for (int i = 0; i < BLOCK_SIZE; i++)
        sha256_put(&hash, (i < KEY_SIZE ? key[i] : 0) ^ pad);
}

static void authenticate(volatile struct mailbox *window, unsigned length)
{
    begin_with_key(INNER_PAD);
    for (unsigned i = 0; i < length; i++)
        sha256_put(&hash, window->message[i]);
    sha256_end(&hash, inner);
    begin_with_key(OUTER_PAD);
    for (int i = 0; i < DIGEST_SIZE; i++)
        sha256_put(&hash, inner[i]);
    sha256_end(&hash, window->code);
}

// Returns how many messages were answered. It reads each length once, because the host on another hart may change it meanwhile.
unsigned application(volatile struct mailbox *window)
{
    unsigned answered = 0;
    for (unsigned length = window->length; length; length = window->length) {
        if (length <= MESSAGE_ROOM) {
            authenticate(window, length);
            answered++;
            ask(STOP_FOR_A_WHILE, ANSWERED);
        } else {
            ask(STOP_FOR_A_WHILE, TOO_LONG);
        }
    }
    return answered;
}
