/* Times the reading of lesson packs by the archive beside plain C, in one
   run. */

#include <stdbool.h>
#include <stdio.h>
#include <stdlib.h>
#include <string.h>

#include "plain_packs.h"
#include "timing.h"
#include "vespruldo.h"

#define WORDS 12
#define WORD 40
#define SONG 16384
/* Counts and lengths with what they count, of a pack without a song, and of the
   longest that there is. */
#define SHORT (1 + WORDS * (1 + WORD) + 1 + 1 + WORDS)
#define LONG (SHORT + 2 + SONG)
/* Where in the latter the song's length begins. */
#define SONG_AT (1 + WORDS * (1 + WORD) + 1)

/* Those of all cards, and two behind the last. */
#define PLACES (WORDS + 2 + 2)

static uint8_t short_pack[SHORT], long_pack[LONG];

static void write_pack(uint8_t *pack, size_t song)
{
    *pack++ = WORDS;
    for (unsigned w = 0; w < WORDS; w++) {
        *pack++ = WORD;
        fill(pack, WORD, w);
        pack += WORD;
    }
    *pack++ = song > 0;
    if (song > 0) {
        *pack++ = (uint8_t)song;
        *pack++ = (uint8_t)(song >> 8);
        fill(pack, song, song);
        pack += song;
    }
    *pack++ = WORDS;
    for (unsigned w = 0; w < WORDS; w++) {
        *pack++ = (uint8_t)(WORDS - 1 - w);
    }
}

typedef vespruldo_pack_card reader(const uint8_t *pack, size_t pack_len,
                                   size_t place);
typedef vespruldo_pack_judged judger(const uint8_t *pack, size_t pack_len);

/* Of the bytes, as many as the pack has, only the first are written: what was
   answered. */
static void judge_pack(enum version who, judger *judge, uint8_t *bytes,
                       size_t len)
{
    vespruldo_pack_judged judged =
        judge(len == SHORT ? short_pack : long_pack, len);
    expect(who, VESPRULDO_DONE, judged.number);
    memcpy(bytes, &judged.cards, sizeof judged.cards);
}

static void walk_pack(enum version who, reader *next, uint8_t *bytes,
                      size_t len)
{
    const uint8_t *pack = len == SHORT ? short_pack : long_pack;
    vespruldo_pack_card card = next(pack, len, 0);
    while (card.kind != VESPRULDO_NO_CARD) {
        card = next(pack, len, card.next);
    }
    expect(who, VESPRULDO_DONE, card.number);
    memcpy(bytes, &card.next, sizeof card.next);
}

static void archive_judge(uint8_t *bytes, size_t len)
{
    judge_pack(ARCHIVE, vespruldo_pack_judge, bytes, len);
}

static void plain_judge(uint8_t *bytes, size_t len)
{
    judge_pack(PLAIN, plain_pack_judge, bytes, len);
}

static void archive_walk(uint8_t *bytes, size_t len)
{
    walk_pack(ARCHIVE, vespruldo_pack_next, bytes, len);
}

static void plain_walk(uint8_t *bytes, size_t len)
{
    walk_pack(PLAIN, plain_pack_next, bytes, len);
}

static const struct subject judging = {
    .title = "lesson pack, judging",
    .versions = {[ARCHIVE] = archive_judge, [PLAIN] = plain_judge},
    .lengths = {SHORT, LONG},
};

static const struct subject walking = {
    .title = "lesson pack, walking",
    .versions = {[ARCHIVE] = archive_walk, [PLAIN] = plain_walk},
    .lengths = {SHORT, LONG},
};

/* What is timed are whole packs; plain C must also answer as the archive does
   for others. */
static void agree_on(const uint8_t *pack, size_t len)
{
    vespruldo_pack_judged a = vespruldo_pack_judge(pack, len);
    vespruldo_pack_judged b = plain_pack_judge(pack, len);
    bool same = a.number == b.number && a.cards == b.cards && a.bad == b.bad;
    for (size_t place = 0; place < PLACES; place++) {
        vespruldo_pack_card c = vespruldo_pack_next(pack, len, place);
        vespruldo_pack_card d = plain_pack_next(pack, len, place);
        same = same && c.number == d.number && c.kind == d.kind &&
               c.start == d.start && c.length == d.length && c.bad == d.bad &&
               c.next == d.next;
    }
    if (!same) {
        fprintf(stderr, "a pack of %zu bytes: the archive and plain C differ\n",
                len);
        exit(1);
    }
}

/* Cut at every byte, and with every value in every byte; then at the limits,
   and with a word, a byte of a word or a byte of the song more than that. */
static void agree(void)
{
    static const size_t limits[] = {0, 1, SONG_AT};
    uint8_t pack[] = {2, 1, 'a', 2, 'b', 'c', 1, 2, 0, 'd', 'e', 2, 1, 0, 0};
    for (size_t len = 0; len <= sizeof pack; len++) {
        agree_on(pack, len);
    }
    for (size_t i = 0; i < 256 * sizeof pack; i++) {
        pack[i / 256]++;
        agree_on(pack, sizeof pack - i % 2);
    }
    agree_on(short_pack, SHORT);
    agree_on(long_pack, LONG);
    for (size_t i = 0; i < sizeof limits / sizeof limits[0]; i++) {
        long_pack[limits[i]]++;
        agree_on(long_pack, LONG);
        long_pack[limits[i]]--;
    }
}

int main(void)
{
    write_pack(short_pack, 0);
    write_pack(long_pack, SONG);
    agree();
    compare_versions(&judging);
    compare_versions(&walking);
    time_versions(&judging);
    time_versions(&walking);
    return 0;
}
