// Computes modular powers of 512-bit numbers by Montgomery multiplication, forever.
#include <stdint.h>

enum { WORDS = 16 };
typedef struct { uint32_t words[WORDS]; } number;
static number modulus = {{0xfffffdc7, 0xffffffff, 0xffffffff, 0xffffffff, 0xffffffff, 0xffffffff, 0xffffffff, 0xffffffff, 0xffffffff,
                          0xffffffff, 0xffffffff, 0xffffffff, 0xffffffff, 0xffffffff, 0xffffffff, 0xffffffff}};
static number base = {{3, 5, 7}}, power;

static int is_below(const number *a, const number *b) {
  for (int i = WORDS - 1; i >= 0; i--)
    if (a->words[i] != b->words[i]) return a->words[i] < b->words[i];
  return 0;
}

static void subtract(number *a, const number *b) {
  uint32_t borrow = 0;
  for (int i = 0; i < WORDS; i++) {
    uint64_t difference = (uint64_t)a->words[i] - b->words[i] - borrow;
    a->words[i] = difference;
    borrow = difference >> 63;
  }
}

// Montgomery product: the product of two numbers, divided by 2 to the number of their bits.
static void multiply(number *to, const number *a, const number *b, uint32_t inverse) {
  uint32_t sum[WORDS + 2] = {0};
  for (int i = 0; i < WORDS; i++) {
    uint64_t carry = 0;
    for (int j = 0; j < WORDS; j++) {
      carry += (uint64_t)a->words[i] * b->words[j] + sum[j];
      sum[j] = carry;
      carry >>= 32;
    }
    carry += sum[WORDS];
    sum[WORDS] = carry;
    sum[WORDS + 1] = carry >> 32;
    uint32_t factor = sum[0] * inverse;
    carry = ((uint64_t)factor * modulus.words[0] + sum[0]) >> 32;
    for (int j = 1; j < WORDS; j++) {
      carry += (uint64_t)factor * modulus.words[j] + sum[j];
      sum[j - 1] = carry;
      carry >>= 32;
    }
    carry += sum[WORDS];
    sum[WORDS - 1] = carry;
    sum[WORDS] = sum[WORDS + 1] + (carry >> 32);
  }
  for (int i = 0; i < WORDS; i++) to->words[i] = sum[i];
  if (sum[WORDS] || !is_below(to, &modulus)) subtract(to, &modulus);
}

void work(void) {
  uint32_t inverse = 1;
  for (int i = 0; i < 5; i++) inverse *= 2 - modulus.words[0] * inverse;
  power = base;
  for (int i = 0; i < 16; i++) {
    multiply(&power, &power, &power, -inverse);
    if (base.words[0] >> i & 1) multiply(&power, &power, &base, -inverse);
  }
  base = power;
}
