/* See openssl.h. */

#include "openssl.h"

#include <openssl/evp.h>
#include <string.h>

#include "timing.h"

static EVP_CIPHER_CTX *stream;
static EVP_MAC_CTX *mac;

void openssl_start(void)
{
    EVP_MAC *algorithm = EVP_MAC_fetch(NULL, "BLAKE2BMAC", NULL);
    stream = EVP_CIPHER_CTX_new();
    mac = EVP_MAC_CTX_new(algorithm);
    EVP_MAC_free(algorithm);
    expect(OPENSSL, 1, stream != NULL && mac != NULL);
    expect(OPENSSL, 1,
           EVP_EncryptInit_ex(stream, EVP_chacha20(), NULL, NULL, NULL));
}

void openssl_chacha20(const uint8_t key[32], const uint8_t nonce[12],
                      uint32_t start, uint8_t *text, size_t text_len)
{
    /* The iv is the start counter, little-endian, before the nonce. */
    uint8_t iv[16];
    int written;
    for (int j = 0; j < 4; j++) {
        iv[j] = (uint8_t)(start >> (8 * j));
    }
    memcpy(iv + 4, nonce, 12);
    expect(OPENSSL, 1, EVP_EncryptInit_ex(stream, NULL, NULL, key, iv));
    expect(OPENSSL, 1,
           EVP_EncryptUpdate(stream, text, &written, text, (int)text_len));
}

void openssl_blake2b(const uint8_t *key, size_t key_len, const uint8_t *text,
                     size_t text_len, uint8_t *digest, size_t digest_len)
{
    size_t written;
    expect(OPENSSL, 1, EVP_MAC_init(mac, key, key_len, NULL));
    expect(OPENSSL, 1, EVP_MAC_update(mac, text, text_len));
    expect(OPENSSL, 1, EVP_MAC_final(mac, digest, &written, digest_len));
    expect(OPENSSL, (long)digest_len, (long)written);
}

void openssl_end(void)
{
    EVP_MAC_CTX_free(mac);
    EVP_CIPHER_CTX_free(stream);
}
