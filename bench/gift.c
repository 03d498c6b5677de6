/* Times GIFT-128 of the archive, both ways, beside plain C, in one run. */

#include "plain_gift.h"
#include "timing.h"
#include "vespruldo.h"

static const uint8_t key[16] = {
    0x37, 0xd8, 0x0a, 0xf9, 0xa9, 0x8f, 0x02, 0x99,
    0xe7, 0xd3, 0x00, 0x77, 0x9a, 0xc5, 0xf5, 0xd0,
};

static void archive_encipher(uint8_t *block, size_t len)
{
    expect(ARCHIVE, VESPRULDO_DONE,
           vespruldo_gift_encipher(key, sizeof key, block, len));
}

static void archive_decipher(uint8_t *block, size_t len)
{
    expect(ARCHIVE, VESPRULDO_DONE,
           vespruldo_gift_decipher(key, sizeof key, block, len));
}

static void plain_encipher(uint8_t *block, size_t len)
{
    (void)len;
    plain_gift_encipher(key, block);
}

static void plain_decipher(uint8_t *block, size_t len)
{
    (void)len;
    plain_gift_decipher(key, block);
}

static const struct subject enciphering = {
    .title = "GIFT-128, enciphering",
    .versions = {[ARCHIVE] = archive_encipher, [PLAIN] = plain_encipher},
    .lengths = {16},
};

static const struct subject deciphering = {
    .title = "GIFT-128, deciphering",
    .versions = {[ARCHIVE] = archive_decipher, [PLAIN] = plain_decipher},
    .lengths = {16},
};

int main(void)
{
    compare_versions(&enciphering);
    compare_versions(&deciphering);
    time_versions(&enciphering);
    time_versions(&deciphering);
    return 0;
}
