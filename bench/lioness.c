/* Times LIONESS of the archive, both ways, beside LIONESS in C over three pairs
   of ChaCha20 and BLAKE2b, the plain one, libsodium's and OpenSSL's, in one
   run. */

#include <string.h>

#include "libsodium.h"
#include "openssl.h"
#include "plain_blake.h"
#include "plain_chacha.h"
#include "timing.h"
#include "vespruldo.h"

#define LEFT 32
#define NONCE 12
#define DIGEST 64

static uint8_t key[4 * LEFT];
static uint8_t iv[4 * NONCE];

/* What LIONESS is made from. */
struct pair {
    void (*stream)(const uint8_t stream_key[LEFT], const uint8_t nonce[NONCE],
                   uint32_t start, uint8_t *text, size_t len);
    void (*digest)(const uint8_t *digest_key, size_t key_len,
                   const uint8_t *text, size_t len, uint8_t *digest,
                   size_t digest_len);
};

static const struct pair plain_pair = {plain_chacha20, plain_blake2b};
static const struct pair sodium_pair = {libsodium_chacha20, libsodium_blake2b};
static const struct pair openssl_pair = {openssl_chacha20, openssl_blake2b};

/* Steps 1 and 3 of document 01, LIONESS; part counts keys and ivs from 0. */
static void stream_step(const struct pair *pair, int part, uint8_t *block,
                        size_t len)
{
    uint8_t stream_key[LEFT];
    for (int j = 0; j < LEFT; j++) {
        stream_key[j] = block[j] ^ key[LEFT * part + j];
    }
    pair->stream(stream_key, iv + NONCE * part, 0, block + LEFT, len - LEFT);
}

/* Steps 2 and 4. */
static void digest_step(const struct pair *pair, int part, uint8_t *block,
                        size_t len)
{
    uint8_t digest_key[LEFT + NONCE];
    uint8_t digest[DIGEST];
    memcpy(digest_key, key + LEFT * part, LEFT);
    memcpy(digest_key + LEFT, iv + NONCE * part, NONCE);
    pair->digest(digest_key, sizeof digest_key, block + LEFT, len - LEFT,
                 digest, sizeof digest);
    for (int j = 0; j < LEFT; j++) {
        block[j] ^= digest[j];
    }
}

static void encipher(const struct pair *pair, uint8_t *block, size_t len)
{
    stream_step(pair, 0, block, len);
    digest_step(pair, 1, block, len);
    stream_step(pair, 2, block, len);
    digest_step(pair, 3, block, len);
}

static void decipher(const struct pair *pair, uint8_t *block, size_t len)
{
    digest_step(pair, 3, block, len);
    stream_step(pair, 2, block, len);
    digest_step(pair, 1, block, len);
    stream_step(pair, 0, block, len);
}

static void archive_encipher(uint8_t *block, size_t len)
{
    expect(ARCHIVE, VESPRULDO_DONE,
           vespruldo_lioness_encipher(key, sizeof key, iv, sizeof iv, block,
                                      len));
}

static void archive_decipher(uint8_t *block, size_t len)
{
    expect(ARCHIVE, VESPRULDO_DONE,
           vespruldo_lioness_decipher(key, sizeof key, iv, sizeof iv, block,
                                      len));
}

static void plain_encipher(uint8_t *block, size_t len)
{
    encipher(&plain_pair, block, len);
}

static void plain_decipher(uint8_t *block, size_t len)
{
    decipher(&plain_pair, block, len);
}

static void sodium_encipher(uint8_t *block, size_t len)
{
    encipher(&sodium_pair, block, len);
}

static void sodium_decipher(uint8_t *block, size_t len)
{
    decipher(&sodium_pair, block, len);
}

static void openssl_encipher(uint8_t *block, size_t len)
{
    encipher(&openssl_pair, block, len);
}

static void openssl_decipher(uint8_t *block, size_t len)
{
    decipher(&openssl_pair, block, len);
}

static const struct subject enciphering = {
    .title = "LIONESS, enciphering",
    .versions = {[ARCHIVE] = archive_encipher,
                 [PLAIN] = plain_encipher,
                 [SODIUM] = sodium_encipher,
                 [OPENSSL] = openssl_encipher},
    .lengths = TEXT_LENGTHS,
    .more = LEFT,
};

static const struct subject deciphering = {
    .title = "LIONESS, deciphering",
    .versions = {[ARCHIVE] = archive_decipher,
                 [PLAIN] = plain_decipher,
                 [SODIUM] = sodium_decipher,
                 [OPENSSL] = openssl_decipher},
    .lengths = TEXT_LENGTHS,
    .more = LEFT,
};

int main(void)
{
    fill(key, sizeof key, 1);
    fill(iv, sizeof iv, 2);
    libsodium_start();
    openssl_start();
    compare_versions(&enciphering);
    compare_versions(&deciphering);
    time_versions(&enciphering);
    time_versions(&deciphering);
    openssl_end();
    return 0;
}
