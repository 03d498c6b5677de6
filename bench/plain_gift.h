/* GIFT-128 in plain C, to measure the archive against. Byte j holds bits 8j to
   8j+7, bit 0 is the least significant (document 01, GIFT-128). */

#ifndef PLAIN_GIFT_H
#define PLAIN_GIFT_H

#include <stdint.h>

#define PLAIN_GIFT_ROUNDS 40

struct halves {
    uint64_t low;
    uint64_t high;
};

/* What the rounds under one key add to the state. */
struct plain_gift_key {
    struct halves round_keys[PLAIN_GIFT_ROUNDS];
};

/* Works that out for the 16 bytes at key. */
void plain_gift_prepare(const uint8_t key[16], struct plain_gift_key *prepared);

/* Enciphers the 16 bytes at block where they lie. */
void plain_gift_encipher_under(const struct plain_gift_key *prepared,
                               uint8_t block[16]);

/* The same under the 16 bytes at key, whose round keys are worked out anew in
   each call. */
void plain_gift_encipher(const uint8_t key[16], uint8_t block[16]);

/* Undoes plain_gift_encipher. */
void plain_gift_decipher(const uint8_t key[16], uint8_t block[16]);

#endif
