/* ChaCha20 as one would write it in C after RFC 7539 without further thought:
   sixteen words, one key block at a time, added to the text byte by byte. */

#include "plain_chacha.h"

#include <string.h>

#define BLOCK 64

static uint32_t load(const uint8_t bytes[4])
{
    return (uint32_t)bytes[0] | (uint32_t)bytes[1] << 8 |
           (uint32_t)bytes[2] << 16 | (uint32_t)bytes[3] << 24;
}

static void store(uint8_t bytes[4], uint32_t word)
{
    for (int j = 0; j < 4; j++) {
        bytes[j] = (uint8_t)(word >> (8 * j));
    }
}

static uint32_t rotate_left(uint32_t word, int places)
{
    return word << places | word >> (32 - places);
}

/* Section 2.1. */
static inline void quarter_round(uint32_t x[16], int a, int b, int c, int d)
{
    x[a] += x[b];
    x[d] = rotate_left(x[d] ^ x[a], 16);
    x[c] += x[d];
    x[b] = rotate_left(x[b] ^ x[c], 12);
    x[a] += x[b];
    x[d] = rotate_left(x[d] ^ x[a], 8);
    x[c] += x[d];
    x[b] = rotate_left(x[b] ^ x[c], 7);
}

/* Section 2.3: the constants spell "expand 32-byte k". */
static void start_state(uint32_t state[16], const uint8_t key[32],
                        const uint8_t nonce[12], uint32_t start)
{
    state[0] = 0x61707865;
    state[1] = 0x3320646e;
    state[2] = 0x79622d32;
    state[3] = 0x6b206574;
    for (int i = 0; i < 8; i++) {
        state[4 + i] = load(key + 4 * i);
    }
    state[12] = start;
    for (int i = 0; i < 3; i++) {
        state[13 + i] = load(nonce + 4 * i);
    }
}

static void key_block(uint8_t block[BLOCK], const uint32_t state[16])
{
    uint32_t x[16];
    memcpy(x, state, sizeof x);
    for (int i = 0; i < 10; i++) {
        quarter_round(x, 0, 4, 8, 12);
        quarter_round(x, 1, 5, 9, 13);
        quarter_round(x, 2, 6, 10, 14);
        quarter_round(x, 3, 7, 11, 15);
        quarter_round(x, 0, 5, 10, 15);
        quarter_round(x, 1, 6, 11, 12);
        quarter_round(x, 2, 7, 8, 13);
        quarter_round(x, 3, 4, 9, 14);
    }
    for (int i = 0; i < 16; i++) {
        store(block + 4 * i, x[i] + state[i]);
    }
}

void plain_chacha20(const uint8_t key[32], const uint8_t nonce[12],
                    uint32_t start, uint8_t *text, size_t text_len)
{
    uint32_t state[16];
    start_state(state, key, nonce, start);
    for (size_t done = 0; done < text_len; done += BLOCK) {
        uint8_t block[BLOCK];
        size_t left = text_len - done;
        size_t len = left < BLOCK ? left : BLOCK;
        key_block(block, state);
        for (size_t j = 0; j < len; j++) {
            text[done + j] ^= block[j];
        }
        state[12]++;
    }
}
