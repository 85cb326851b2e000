// A key store, in mode U. For a caller with the PIN it computes the HMAC-SHA-256 (RFC 2104) of a challenge, with a key that is only in the
// region. If LEAKING is defined, it leaks the key and the PIN. README.md lists the leaks, and the command that finds each of them.
#include "../store/store.h"
#include "../hmac/sha256.h"
#include "services.h"

enum { DIGEST_SIZE = 32, KEY_SIZE = 32, INNER_PAD = 0x36, OUTER_PAD = 0x5c };

unsigned char pin[PIN_SIZE] = {'2', '7', '1', '8', '2', '8', '1', '8'};
unsigned char key[KEY_SIZE] = {'a', ' ', 'k', 'e', 'y', ' ', 't', 'h', 'a', 't', ' ', 'o', 'n', 'e', ' ', 'e',
                               'n', 'c', 'l', 'a', 'v', 'e', ' ', 'h', 'a', 's', ',', ' ', '3', '2', ' ', 'b'};

static struct sha256 hash;
static unsigned char inner[DIGEST_SIZE];

static void begin_with_key(unsigned char pad)
{
    sha256_begin(&hash);
    for (int i = 0; i < BLOCK_SIZE; i++)
        sha256_put(&hash, (i < KEY_SIZE ? key[i] : 0) ^ pad);
}

static void authenticate(const unsigned char *challenge, volatile unsigned char *code)
{
    begin_with_key(INNER_PAD);
    for (int i = 0; i < CHALLENGE_SIZE; i++)
        sha256_put(&hash, challenge[i]);
    sha256_end(&hash, inner);
    begin_with_key(OUTER_PAD);
    for (int i = 0; i < DIGEST_SIZE; i++)
        sha256_put(&hash, inner[i]);
    sha256_end(&hash, code);
}

#ifndef LEAKING

// Runs in constant time: no branch, index or division depends on the PIN.
static int is_pin(const unsigned char *given)
{
    unsigned differs = 0;
    for (int i = 0; i < PIN_SIZE; i++)
        differs |= given[i] ^ pin[i];
    return !differs;
}

// Reads each byte of the request only once, and uses only these copies.
static unsigned answered(volatile struct request *window, unsigned command)
{
    unsigned char given[PIN_SIZE], challenge[CHALLENGE_SIZE];
    for (int i = 0; i < PIN_SIZE; i++)
        given[i] = window->pin[i];
    for (int i = 0; i < CHALLENGE_SIZE; i++)
        challenge[i] = window->challenge[i];
    if (command == STATUS)
        return TOLD;
    if (!is_pin(given))
        return REFUSED;
    authenticate(challenge, window->code);
    return OPENED;
}

#else

static const unsigned check_table[16] = {
    0x00000000, 0x1db71064, 0x3b6e20c8, 0x26d930ac, 0x76dc4190, 0x6b6b51f4, 0x4db26158, 0x5005713c,
    0xedb88320, 0xf00f9344, 0xd6d6a3e8, 0xcb61b38c, 0x9b64c2b0, 0x86d3d2d4, 0xa00ae278, 0xbdbdf21c};
static volatile unsigned buckets = 61;

// Leak 1: the loop ends at the first wrong digit, so its time shows how many digits before that are right.
static int is_pin(volatile unsigned char *given)
{
    for (int i = 0; i < PIN_SIZE; i++)
        if (given[i] != pin[i])
            return 0;
    return 1;
}

// Leak 2: the key is used as an index into a table, so the addresses of these loads depend on it.
static unsigned check_of_key(void)
{
    unsigned check = ~0u;
    for (int i = 0; i < KEY_SIZE; i++) {
        check = check >> 4 ^ check_table[(check ^ key[i]) & 15];
        check = check >> 4 ^ check_table[(check ^ key[i] >> 4) & 15];
    }
    return ~check;
}

static unsigned answered(volatile struct request *window, unsigned command)
{
    unsigned char challenge[CHALLENGE_SIZE];
    if (command != OPEN && window->command != OPEN)
        return TOLD;
    if (command == OPEN && !is_pin(window->pin)) // the race: if the command becomes OPEN only now, the PIN is not checked
        return REFUSED;
    unsigned bucket = check_of_key() % buckets; // leak 3: the time of a division depends on its operands
    for (int i = 0; i < KEY_SIZE; i++)
        window->work[i] = key[i] ^ INNER_PAD; // leak 4: intermediate data stays in the window
    for (int i = 0; i < CHALLENGE_SIZE; i++)
        challenge[i] = window->challenge[i];
    authenticate(challenge, window->code);
    return OPENED | bucket << 8; // leak 5: the answer shows a part of a checksum of the key
}

#endif

// Returns how many requests were answered.
unsigned application(volatile struct request *window)
{
    unsigned count = 0;
    for (unsigned command = window->command; command != END; command = window->command) {
        ask(STOP_FOR_A_WHILE, answered(window, command));
        count++;
    }
    return count;
}
