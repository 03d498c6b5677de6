/* ChaCha20 and BLAKE2b of libsodium, in the shapes of the plain ones. */

#ifndef LIBSODIUM_H
#define LIBSODIUM_H

#include <stddef.h>
#include <stdint.h>

/* Once, before the others: the library looks which processor it runs on. */
void libsodium_start(void);

void libsodium_chacha20(const uint8_t key[32], const uint8_t nonce[12],
                        uint32_t start, uint8_t *text, size_t text_len);

void libsodium_blake2b(const uint8_t *key, size_t key_len, const uint8_t *text,
                       size_t text_len, uint8_t *digest, size_t digest_len);

#endif
