/* ChaCha20 and BLAKE2b of OpenSSL, in the shapes of the plain ones. */

#ifndef OPENSSL_H
#define OPENSSL_H

#include <stddef.h>
#include <stdint.h>

/* Once, before the others: both contexts and their algorithms are chosen
   beforehand, as OpenSSL advises. Key and nonce are given in each call, as to
   all other versions. */
void openssl_start(void);

void openssl_chacha20(const uint8_t key[32], const uint8_t nonce[12],
                      uint32_t start, uint8_t *text, size_t text_len);

/* OpenSSL has keyed BLAKE2b as a tag; the key has 1 to 64 bytes, and the
   digest 64 unless told otherwise. */
void openssl_blake2b(const uint8_t *key, size_t key_len, const uint8_t *text,
                     size_t text_len, uint8_t *digest, size_t digest_len);

void openssl_end(void);

#endif
