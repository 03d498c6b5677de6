/* Times the archive's sealing of twelve cards by one call, beside as many draws
   and single calls, of the archive itself and in plain C, in one run. */

#include <string.h>

#include "plain_books.h"
#include "plain_hyena.h"
#include "timing.h"
#include "vespruldo.h"

#define CARDS 12
#define TAG 16

static uint8_t key[16];
static uint8_t data[16];

/* Where sealing writes to; see hyena.c. */
static uint8_t room[CARDS * 4096];
static uint8_t tags[CARDS * TAG];

/* Each version goes on from the drawer that its last call left. One that left
   another would seal other bytes from then on. */
static vespruldo_drawer drawers[VERSIONS];

/* Lays ciphertexts and tags over the texts. */
static void keep(uint8_t *texts, size_t len)
{
    memcpy(texts, room, len);
    for (size_t j = 0; j < sizeof tags; j++) {
        texts[j] ^= tags[j];
    }
}

static void archive_batch(uint8_t *texts, size_t len)
{
    uint64_t lengths[CARDS];
    for (int i = 0; i < CARDS; i++) {
        lengths[i] = len / CARDS;
    }
    vespruldo_batch batch = vespruldo_seal_batch(
        key, sizeof key, data, sizeof data, texts, len, lengths, CARDS,
        drawers[ARCHIVE], room, len, tags, sizeof tags);
    expect(ARCHIVE, VESPRULDO_DONE, batch.number);
    drawers[ARCHIVE] = batch.next;
    keep(texts, len);
}

static void archive_singly(uint8_t *texts, size_t len)
{
    size_t card = len / CARDS;
    for (int i = 0; i < CARDS; i++) {
        vespruldo_drawn nonce = vespruldo_drawer_draw(drawers[SINGLY]);
        expect(SINGLY, VESPRULDO_DONE, nonce.number);
        expect(SINGLY, VESPRULDO_DONE,
               vespruldo_seal(key, sizeof key, nonce.bytes, sizeof nonce.bytes,
                              data, sizeof data, texts + card * i, card,
                              room + card * i, card, tags + TAG * i, TAG));
        drawers[SINGLY] = nonce.next;
    }
    keep(texts, len);
}

static void plain_singly(uint8_t *texts, size_t len)
{
    size_t card = len / CARDS;
    for (int i = 0; i < CARDS; i++) {
        vespruldo_drawn nonce = plain_drawer_draw(drawers[PLAIN]);
        expect(PLAIN, VESPRULDO_DONE, nonce.number);
        plain_hyena_seal(key, nonce.bytes, data, sizeof data, texts + card * i,
                         card, room + card * i, tags + TAG * i);
        drawers[PLAIN] = nonce.next;
    }
    keep(texts, len);
}

static const struct subject sealing = {
    .title = "HyENA, batch of 12",
    .versions = {[ARCHIVE] = archive_batch,
                 [PLAIN] = plain_singly,
                 [SINGLY] = archive_singly},
    .lengths = {CARDS * 40, CARDS * 4096},
};

int main(void)
{
    fill(key, sizeof key, 1);
    fill(data, sizeof data, 3);
    compare_versions(&sealing);
    time_versions(&sealing);
    return 0;
}
