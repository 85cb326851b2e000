/* The measurement of an enclave: the SHA-256 (FIPS 180-4) of its numbers and of the bytes of its region. */
#include "monitor.h"

enum { BLOCK_SIZE = 64, STATE_WORDS = 8, ROUNDS = 64, LENGTH_AT = 56, NUMBERS = 5 };

struct hash {
    unsigned state[STATE_WORDS];
    unsigned char block[BLOCK_SIZE];
    unsigned length; /* bytes so far */
};

static const unsigned round_constants[ROUNDS] = {
    0x428a2f98, 0x71374491, 0xb5c0fbcf, 0xe9b5dba5, 0x3956c25b, 0x59f111f1, 0x923f82a4, 0xab1c5ed5, 0xd807aa98, 0x12835b01, 0x243185be,
    0x550c7dc3, 0x72be5d74, 0x80deb1fe, 0x9bdc06a7, 0xc19bf174, 0xe49b69c1, 0xefbe4786, 0x0fc19dc6, 0x240ca1cc, 0x2de92c6f, 0x4a7484aa,
    0x5cb0a9dc, 0x76f988da, 0x983e5152, 0xa831c66d, 0xb00327c8, 0xbf597fc7, 0xc6e00bf3, 0xd5a79147, 0x06ca6351, 0x14292967, 0x27b70a85,
    0x2e1b2138, 0x4d2c6dfc, 0x53380d13, 0x650a7354, 0x766a0abb, 0x81c2c92e, 0x92722c85, 0xa2bfe8a1, 0xa81a664b, 0xc24b8b70, 0xc76c51a3,
    0xd192e819, 0xd6990624, 0xf40e3585, 0x106aa070, 0x19a4c116, 0x1e376c08, 0x2748774c, 0x34b0bcb5, 0x391c0cb3, 0x4ed8aa4a, 0x5b9cca4f,
    0x682e6ff3, 0x748f82ee, 0x78a5636f, 0x84c87814, 0x8cc70208, 0x90befffa, 0xa4506ceb, 0xbef9a3f7, 0xc67178f2};

static unsigned rotate_right(unsigned word, int count)
{
    return word >> count | word << (32 - count);
}

/* Computes the message schedule: the 16 big-endian words of a block, and 48 words derived from them. */
static void expand(const unsigned char *block, unsigned *words)
{
    for (int i = 0; i < 16; i++, block += 4)
        words[i] = (unsigned)block[0] << 24 | block[1] << 16 | block[2] << 8 | block[3];
    for (int i = 16; i < ROUNDS; i++) {
        unsigned early = words[i - 15], late = words[i - 2];
        words[i] = words[i - 16] + (rotate_right(early, 7) ^ rotate_right(early, 18) ^ early >> 3) + words[i - 7] +
                   (rotate_right(late, 17) ^ rotate_right(late, 19) ^ late >> 10);
    }
}

/* Adds the block to the state. */
static void add_block(struct hash *hash)
{
    unsigned words[ROUNDS], *state = hash->state;
    unsigned a = state[0], b = state[1], c = state[2], d = state[3], e = state[4], f = state[5], g = state[6], h = state[7];

    expand(hash->block, words);
    for (int i = 0; i < ROUNDS; i++) {
        unsigned first = h + (rotate_right(e, 6) ^ rotate_right(e, 11) ^ rotate_right(e, 25)) + ((e & f) ^ (~e & g)) +
                         round_constants[i] + words[i];
        unsigned second = (rotate_right(a, 2) ^ rotate_right(a, 13) ^ rotate_right(a, 22)) + ((a & b) ^ (a & c) ^ (b & c));
        h = g, g = f, f = e, e = d + first;
        d = c, c = b, b = a, a = first + second;
    }
    state[0] += a, state[1] += b, state[2] += c, state[3] += d;
    state[4] += e, state[5] += f, state[6] += g, state[7] += h;
}

static void add_byte(struct hash *hash, unsigned char byte)
{
    hash->block[hash->length++ % BLOCK_SIZE] = byte;
    if (hash->length % BLOCK_SIZE == 0)
        add_block(hash);
}

/* Ends the message: a one bit, zeros, and its length in bits, big-endian. */
static void finish(struct hash *hash, unsigned char *digest)
{
    unsigned bits = hash->length * 8, high = hash->length >> 29;

    add_byte(hash, 0x80);
    while (hash->length % BLOCK_SIZE != LENGTH_AT)
        add_byte(hash, 0);
    for (int shift = 24; shift >= 0; shift -= 8)
        add_byte(hash, high >> shift);
    for (int shift = 24; shift >= 0; shift -= 8)
        add_byte(hash, bits >> shift);
    for (int i = 0; i < DIGEST_SIZE; i++)
        digest[i] = hash->state[i / 4] >> (24 - i % 4 * 8);
}

void measure_enclave(struct enclave *enclave)
{
    struct hash hash = {{0x6a09e667, 0xbb67ae85, 0x3c6ef372, 0xa54ff53a, 0x510e527f, 0x9b05688c, 0x1f83d9ab, 0x5be0cd19}, {0}, 0};
    unsigned numbers[NUMBERS] = {enclave->region.base, enclave->region.size, enclave->window.base, enclave->window.size, enclave->entry};
    const unsigned char *region = (const unsigned char *)enclave->region.base;

    for (int i = 0; i < 4 * NUMBERS; i++)
        add_byte(&hash, numbers[i / 4] >> i % 4 * 8);
    for (unsigned i = 0; i < enclave->region.size; i++)
        add_byte(&hash, region[i]);
    finish(&hash, enclave->measurement);
}
