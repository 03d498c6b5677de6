/* HyENA over plain_gift.c in plain C, to measure the archive against. Lengths
   are not judged. */

#ifndef PLAIN_HYENA_H
#define PLAIN_HYENA_H

#include <stdbool.h>
#include <stddef.h>
#include <stdint.h>

/* Writes len bytes of ciphertext to room and the tag to tag. */
void plain_hyena_seal(const uint8_t key[16], const uint8_t nonce[12],
                      const uint8_t *data, size_t data_len,
                      const uint8_t *text, size_t len, uint8_t *room,
                      uint8_t tag[16]);

/* Writes len bytes to room: the text, or zeros if the tag is not the
   recomputed one. Says whether it is. */
bool plain_hyena_open(const uint8_t key[16], const uint8_t nonce[12],
                      const uint8_t *data, size_t data_len,
                      const uint8_t *ciphertext, size_t len,
                      const uint8_t tag[16], uint8_t *room);

#endif
