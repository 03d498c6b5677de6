/* Times HyENA of the archive, sealing and opening, beside plain C, in one
   run. */

#include <string.h>

#include "plain_hyena.h"
#include "timing.h"
#include "vespruldo.h"

#define TAG 16

static uint8_t key[16];
static uint8_t nonce[12];
static uint8_t data[16];

/* Where sealing writes to. Ciphertext and tag are then laid over the text, so
   that each call waits for the last and the text shows what both were. Text and
   room may not overlap; the copy costs all versions the same. */
static uint8_t room[LONGEST];

static void keep(uint8_t *text, size_t len, const uint8_t tag[TAG])
{
    memcpy(text, room, len);
    for (int j = 0; j < TAG; j++) {
        text[j] ^= tag[j];
    }
}

static void archive_seal(uint8_t *text, size_t len)
{
    uint8_t tag[TAG];
    expect(ARCHIVE, VESPRULDO_DONE,
           vespruldo_seal(key, sizeof key, nonce, sizeof nonce, data,
                          sizeof data, text, len, room, len, tag, sizeof tag));
    keep(text, len, tag);
}

static void plain_seal(uint8_t *text, size_t len)
{
    uint8_t tag[TAG];
    plain_hyena_seal(key, nonce, data, sizeof data, text, len, room, tag);
    keep(text, len, tag);
}

static const struct subject sealing = {
    .title = "HyENA, sealing",
    .versions = {[ARCHIVE] = archive_seal, [PLAIN] = plain_seal},
    .lengths = TEXT_LENGTHS,
};

/* What is opened: for each length one card, sealed beforehand. The same card is
   opened in every call, since what comes out of one can't be opened again. */
static struct card {
    size_t len;
    uint8_t ciphertext[LONGEST];
    uint8_t tag[TAG];
} cards[MOST_LENGTHS];

static void seal_cards(void)
{
    for (size_t c = 0; c < MOST_LENGTHS; c++) {
        struct card *card = &cards[c];
        card->len = sealing.lengths[c];
        fill(room, card->len, c);
        plain_hyena_seal(key, nonce, data, sizeof data, room, card->len,
                         card->ciphertext, card->tag);
    }
}

static const struct card *card_of(size_t len)
{
    const struct card *card = cards;
    while (card->len != len) {
        card++;
    }
    return card;
}

static void archive_open(uint8_t *text, size_t len)
{
    const struct card *card = card_of(len);
    expect(ARCHIVE, VESPRULDO_DONE,
           vespruldo_open(key, sizeof key, nonce, sizeof nonce, data,
                          sizeof data, card->ciphertext, len, card->tag, TAG,
                          text, len));
}

static void plain_open(uint8_t *text, size_t len)
{
    const struct card *card = card_of(len);
    expect(PLAIN, true,
           plain_hyena_open(key, nonce, data, sizeof data, card->ciphertext,
                            len, card->tag, text));
}

static const struct subject opening = {
    .title = "HyENA, opening",
    .versions = {[ARCHIVE] = archive_open, [PLAIN] = plain_open},
    .lengths = TEXT_LENGTHS,
};

int main(void)
{
    fill(key, sizeof key, 1);
    fill(nonce, sizeof nonce, 2);
    fill(data, sizeof data, 3);
    seal_cards();
    compare_versions(&sealing);
    compare_versions(&opening);
    time_versions(&sealing);
    time_versions(&opening);
    return 0;
}
