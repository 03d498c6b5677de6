/* Times ChaCha20 of the archive beside plain C, libsodium and OpenSSL, in one
   run. */

#include "libsodium.h"
#include "openssl.h"
#include "plain_chacha.h"
#include "timing.h"
#include "vespruldo.h"

#define START 1

static uint8_t key[32];
static uint8_t nonce[12];

static void archive(uint8_t *text, size_t len)
{
    expect(ARCHIVE, VESPRULDO_DONE,
           vespruldo_chacha20(key, sizeof key, nonce, sizeof nonce, START,
                              text, len)
               .number);
}

static void plain(uint8_t *text, size_t len)
{
    plain_chacha20(key, nonce, START, text, len);
}

static void sodium(uint8_t *text, size_t len)
{
    libsodium_chacha20(key, nonce, START, text, len);
}

static void openssl(uint8_t *text, size_t len)
{
    openssl_chacha20(key, nonce, START, text, len);
}

static const struct subject chacha = {
    .title = "ChaCha20",
    .versions = {[ARCHIVE] = archive,
                 [PLAIN] = plain,
                 [SODIUM] = sodium,
                 [OPENSSL] = openssl},
    .lengths = TEXT_LENGTHS,
};

int main(void)
{
    fill(key, sizeof key, 1);
    fill(nonce, sizeof nonce, 2);
    libsodium_start();
    openssl_start();
    compare_versions(&chacha);
    time_versions(&chacha);
    openssl_end();
    return 0;
}
