/* ChaCha20 in plain C, to measure the archive against. */

#ifndef PLAIN_CHACHA_H
#define PLAIN_CHACHA_H

#include <stddef.h>
#include <stdint.h>

/* Adds the key stream to the text where it lies, with the block counter from
   start on (RFC 7539, section 2.4). The counter must not run over. */
void plain_chacha20(const uint8_t key[32], const uint8_t nonce[12],
                    uint32_t start, uint8_t *text, size_t text_len);

#endif
