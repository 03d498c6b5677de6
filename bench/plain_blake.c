/* BLAKE2b as one would write it in C after RFC 7693 without further thought:
   sixteen words of work, and the message words picked by a table in each
   round. The text is in memory as a whole, so no block is gathered first but
   those that need zeros behind them. */

#include "plain_blake.h"

#include <stdbool.h>
#include <string.h>

#define BLOCK 128

/* Section 2.6. */
static const uint64_t iv[8] = {
    0x6a09e667f3bcc908, 0xbb67ae8584caa73b, 0x3c6ef372fe94f82b,
    0xa54ff53a5f1d36f1, 0x510e527fade682d1, 0x9b05688c2b3e6c1f,
    0x1f83d9abfb41bd6b, 0x5be0cd19137e2179,
};

/* Section 2.7; the last two rounds take the first two rows again. */
static const uint8_t sigma[12][16] = {
    {0, 1, 2, 3, 4, 5, 6, 7, 8, 9, 10, 11, 12, 13, 14, 15},
    {14, 10, 4, 8, 9, 15, 13, 6, 1, 12, 0, 2, 11, 7, 5, 3},
    {11, 8, 12, 0, 5, 2, 15, 13, 10, 14, 3, 6, 7, 1, 9, 4},
    {7, 9, 3, 1, 13, 12, 11, 14, 2, 6, 5, 10, 4, 0, 15, 8},
    {9, 0, 5, 7, 2, 4, 10, 15, 14, 1, 11, 12, 6, 8, 3, 13},
    {2, 12, 6, 10, 0, 11, 8, 3, 4, 13, 7, 5, 15, 14, 1, 9},
    {12, 5, 1, 15, 14, 13, 4, 10, 0, 7, 6, 3, 9, 2, 8, 11},
    {13, 11, 7, 14, 12, 1, 3, 9, 5, 0, 15, 4, 8, 6, 2, 10},
    {6, 15, 14, 9, 11, 3, 0, 8, 12, 2, 13, 7, 1, 4, 10, 5},
    {10, 2, 8, 4, 7, 6, 1, 5, 15, 11, 9, 14, 3, 12, 13, 0},
    {0, 1, 2, 3, 4, 5, 6, 7, 8, 9, 10, 11, 12, 13, 14, 15},
    {14, 10, 4, 8, 9, 15, 13, 6, 1, 12, 0, 2, 11, 7, 5, 3},
};

static uint64_t load(const uint8_t bytes[8])
{
    uint64_t word = 0;
    for (int j = 7; j >= 0; j--) {
        word = word << 8 | bytes[j];
    }
    return word;
}

static uint64_t rotate_right(uint64_t word, int places)
{
    return word >> places | word << (64 - places);
}

/* Section 3.1. */
static inline void mix(uint64_t v[16], int a, int b, int c, int d, uint64_t x,
                       uint64_t y)
{
    v[a] += v[b] + x;
    v[d] = rotate_right(v[d] ^ v[a], 32);
    v[c] += v[d];
    v[b] = rotate_right(v[b] ^ v[c], 24);
    v[a] += v[b] + y;
    v[d] = rotate_right(v[d] ^ v[a], 16);
    v[c] += v[d];
    v[b] = rotate_right(v[b] ^ v[c], 63);
}

static inline void mix_round(uint64_t v[16], const uint64_t m[16],
                             const uint8_t s[16])
{
    mix(v, 0, 4, 8, 12, m[s[0]], m[s[1]]);
    mix(v, 1, 5, 9, 13, m[s[2]], m[s[3]]);
    mix(v, 2, 6, 10, 14, m[s[4]], m[s[5]]);
    mix(v, 3, 7, 11, 15, m[s[6]], m[s[7]]);
    mix(v, 0, 5, 10, 15, m[s[8]], m[s[9]]);
    mix(v, 1, 6, 11, 12, m[s[10]], m[s[11]]);
    mix(v, 2, 7, 8, 13, m[s[12]], m[s[13]]);
    mix(v, 3, 4, 9, 14, m[s[14]], m[s[15]]);
}

/* Section 3.2; count is the number of bytes up to this block's end. A size_t
   holds it, so the counter's upper word is always 0. */
static void compress(uint64_t h[8], const uint8_t block[BLOCK], size_t count,
                     bool last)
{
    uint64_t v[16];
    uint64_t m[16];
    memcpy(v, h, 8 * sizeof v[0]);
    memcpy(v + 8, iv, sizeof iv);
    v[12] ^= count;
    if (last) {
        v[14] = ~v[14];
    }
    for (int i = 0; i < 16; i++) {
        m[i] = load(block + 8 * i);
    }
    for (int round = 0; round < 12; round++) {
        mix_round(v, m, sigma[round]);
    }
    for (int i = 0; i < 8; i++) {
        h[i] ^= v[i] ^ v[i + 8];
    }
}

static void compress_padded(uint64_t h[8], const uint8_t *bytes, size_t len,
                            size_t count, bool last)
{
    uint8_t block[BLOCK] = {0};
    memcpy(block, bytes, len);
    compress(h, block, count, last);
}

/* Section 3.3: a key is a first block of its own, and a block of zeros stands
   in where there is neither key nor text. */
void plain_blake2b(const uint8_t *key, size_t key_len, const uint8_t *text,
                   size_t text_len, uint8_t *digest, size_t digest_len)
{
    uint64_t h[8];
    size_t count = 0;
    memcpy(h, iv, sizeof h);
    h[0] ^= 0x01010000 ^ key_len << 8 ^ digest_len;
    if (key_len > 0) {
        count += BLOCK;
        compress_padded(h, key, key_len, count, text_len == 0);
    }
    while (text_len > BLOCK) {
        count += BLOCK;
        compress(h, text, count, false);
        text += BLOCK;
        text_len -= BLOCK;
    }
    if (text_len > 0 || key_len == 0) {
        count += text_len;
        compress_padded(h, text, text_len, count, true);
    }
    for (size_t j = 0; j < digest_len; j++) {
        digest[j] = (uint8_t)(h[j / 8] >> (8 * (j % 8)));
    }
}
