/* Times BLAKE2b of the archive beside plain C, libsodium, OpenSSL and libb2, in
   one run, with key and digest as LIONESS has them. */

#include <blake2.h>
#include <string.h>

#include "libsodium.h"
#include "openssl.h"
#include "plain_blake.h"
#include "timing.h"
#include "vespruldo.h"

#define DIGEST 64

static uint8_t key[44];

/* Each digest is laid over the text's first bytes, so that each call waits for
   the last and the text shows what the digests were. It is copied there, since
   text and digest may not overlap; the copy costs all versions the same. Of a
   shorter text the digest covers all. */
static void keep(uint8_t *text, size_t len, const uint8_t digest[DIGEST])
{
    memcpy(text, digest, len < DIGEST ? len : DIGEST);
}

static void archive(uint8_t *text, size_t len)
{
    uint8_t digest[DIGEST];
    expect(ARCHIVE, VESPRULDO_DONE,
           vespruldo_blake2b(key, sizeof key, text, len, digest,
                             sizeof digest));
    keep(text, len, digest);
}

static void plain(uint8_t *text, size_t len)
{
    uint8_t digest[DIGEST];
    plain_blake2b(key, sizeof key, text, len, digest, sizeof digest);
    keep(text, len, digest);
}

static void sodium(uint8_t *text, size_t len)
{
    uint8_t digest[DIGEST];
    libsodium_blake2b(key, sizeof key, text, len, digest, sizeof digest);
    keep(text, len, digest);
}

static void openssl(uint8_t *text, size_t len)
{
    uint8_t digest[DIGEST];
    openssl_blake2b(key, sizeof key, text, len, digest, sizeof digest);
    keep(text, len, digest);
}

static void b2(uint8_t *text, size_t len)
{
    uint8_t digest[DIGEST];
    expect(B2, 0, blake2b(digest, text, key, sizeof digest, len, sizeof key));
    keep(text, len, digest);
}

static const struct subject blake = {
    .title = "BLAKE2b",
    .versions = {[ARCHIVE] = archive,
                 [PLAIN] = plain,
                 [SODIUM] = sodium,
                 [OPENSSL] = openssl,
                 [B2] = b2},
    .lengths = TEXT_LENGTHS,
};

int main(void)
{
    fill(key, sizeof key, 1);
    libsodium_start();
    openssl_start();
    compare_versions(&blake);
    time_versions(&blake);
    openssl_end();
    return 0;
}
