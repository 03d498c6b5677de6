/* BLAKE2b in plain C, to measure the archive against. */

#ifndef PLAIN_BLAKE_H
#define PLAIN_BLAKE_H

#include <stddef.h>
#include <stdint.h>

/* Writes the text's digest under a key of 0 to 64 bytes, 1 to 64 bytes long
   (RFC 7693). */
void plain_blake2b(const uint8_t *key, size_t key_len, const uint8_t *text,
                   size_t text_len, uint8_t *digest, size_t digest_len);

#endif
