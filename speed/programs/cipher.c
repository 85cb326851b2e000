// Encrypts 1,024 bytes by ChaCha20 (RFC 8439), forever.
#include <stdint.h>

static uint32_t key[16] = {0x61707865, 0x3320646e, 0x79622d32, 0x6b206574};
static uint32_t text[256];

static uint32_t left(uint32_t word, int by) {
  return word << by | word >> (32 - by);
}

static void quarter(uint32_t *w, int a, int b, int c, int d) {
  w[a] += w[b], w[d] = left(w[d] ^ w[a], 16);
  w[c] += w[d], w[b] = left(w[b] ^ w[c], 12);
  w[a] += w[b], w[d] = left(w[d] ^ w[a], 8);
  w[c] += w[d], w[b] = left(w[b] ^ w[c], 7);
}

static void block(uint32_t *to) {
  uint32_t w[16];
  for (int i = 0; i < 16; i++) w[i] = key[i];
  for (int i = 0; i < 10; i++) {
    for (int j = 0; j < 4; j++) quarter(w, j, 4 + j, 8 + j, 12 + j);
    for (int j = 0; j < 4; j++) quarter(w, j, 4 + (j + 1) % 4, 8 + (j + 2) % 4, 12 + (j + 3) % 4);
  }
  for (int i = 0; i < 16; i++) to[i] ^= w[i] + key[i];
}

void work(void) {
  for (int i = 0; i < 256; i += 16) {
    key[12]++;
    block(text + i);
  }
  for (int i = 0; i < 8; i++) key[4 + i] ^= text[i];
}
