/* See libsodium.h. */

#include "libsodium.h"

#include <sodium.h>

#include "timing.h"

void libsodium_start(void)
{
    expect(SODIUM, 0, sodium_init());
}

void libsodium_chacha20(const uint8_t key[32], const uint8_t nonce[12],
                        uint32_t start, uint8_t *text, size_t text_len)
{
    expect(SODIUM, 0,
           crypto_stream_chacha20_ietf_xor_ic(text, text, text_len, nonce,
                                              start, key));
}

void libsodium_blake2b(const uint8_t *key, size_t key_len, const uint8_t *text,
                       size_t text_len, uint8_t *digest, size_t digest_len)
{
    expect(SODIUM, 0,
           crypto_generichash_blake2b(digest, digest_len, text, text_len, key,
                                      key_len));
}
