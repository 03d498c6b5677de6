/* Cases of batches: right ones, and such as have something wrong. */

#include "batches.h"
#include "cases.h"

#define LONGEST_DATA 65536
/* So many lengths are listed at most. */
#define MOST_LISTED 40

/* Sealing takes long: mostly a few cards, and at times all twelve. */
static size_t random_cards(struct random *random)
{
    if (one_in(random, 16)) {
        return one_in(random, 2) ? MOST_CARDS + 1
                                 : random_below(random, MOST_LISTED + 1);
    }
    return one_in(random, 12) ? MOST_CARDS - random_below(random, 2)
                              : 1 + random_below(random, 3);
}

static uint64_t random_card(struct random *random)
{
    if (one_in(random, 4)) {
        return 0;
    }
    return one_in(random, 40) ? short_length(random) : random_below(random, 41);
}

/* Above the limit, and as a number of 32 bits at times what it was. */
static uint64_t wrong_card(struct random *random, uint64_t was)
{
    const uint64_t wrong[] = {LONGEST_TEXT + 1, was + ((uint64_t)1 << 32),
                              (uint64_t)1 << 63, UINT64_MAX,
                              random_word(random) | LONGEST_TEXT << 1};
    return wrong[random_below(random, sizeof wrong / sizeof wrong[0])];
}

/* Spoils what is listed: a length, or two of them, so that the sum, if it goes
   round, is what it was. */
static void spoil_lengths(struct random *random, uint64_t *lengths,
                          size_t cards)
{
    size_t card = random_below(random, cards);
    if (one_in(random, 2)) {
        lengths[card] = wrong_card(random, lengths[card]);
        return;
    }
    uint64_t moved = 1 + random_below(random, 50);
    lengths[card] -= moved;
    lengths[random_below(random, cards)] += moved;
}

/* A few bytes more or less than this. */
static size_t beside(struct random *random, size_t len)
{
    size_t less = random_below(random, 4);
    return one_in(random, 2) ? len + 1 + random_below(random, 4)
                             : len - (less < len ? less : len);
}

static size_t wrong_tags(struct random *random, size_t right)
{
    const size_t wrong[] = {0, 16, 192, right + 16, right / 2,
                            beside(random, right)};
    return wrong[random_below(random, sizeof wrong / sizeof wrong[0])];
}

static void spoil(struct random *random, struct batch *batch)
{
    if (one_in(random, 20)) {
        batch->key_len = beside(random, batch->key_len);
    }
    if (one_in(random, 20)) {
        batch->text_len = beside(random, batch->text_len);
    }
    if (one_in(random, 20)) {
        batch->tags_len = wrong_tags(random, batch->tags_len);
    }
    batch->room_len = one_in(random, 12) ? beside(random, batch->text_len)
                      : one_in(random, 2)
                          ? batch->text_len
                          : batch->text_len + random_below(random, 41);
    if (one_in(random, 2)) {
        batch->draws = one_in(random, 8)
                           ? beside(random, (size_t)batch->draws)
                           : random_word(random);
    }
}

/* The longest text with one more behind it, which together are longer than a
   text may be, and then the longest data. */
static void long_batch(struct thread *thread, size_t long_turn)
{
    static const uint64_t longest[] = {LONGEST_TEXT, 1};
    static const uint64_t two[] = {17, 0};
    struct batch batch = right_batch(long_turn == 1 ? longest : two, 2);
    batch.data_len = long_turn == 1 ? 0 : LONGEST_DATA;
    require(thread, check_batch(thread, &batch) == 0, "refused");
}

void batch_case(struct thread *thread, size_t long_turn)
{
    struct random *random = &thread->random;
    uint64_t lengths[MOST_LISTED];
    if (long_turn == 1 || long_turn == 2) {
        long_batch(thread, long_turn);
        return;
    }
    size_t cards = random_cards(random);
    for (size_t i = 0; i < cards; i++) {
        lengths[i] = random_card(random);
    }
    struct batch batch = right_batch(lengths, cards);
    batch.data_len = one_in(random, 2) ? 0 : random_below(random, 41);
    spoil(random, &batch);
    if (cards > 0 && one_in(random, 16)) {
        spoil_lengths(random, lengths, cards);
    }
    check_batch(thread, &batch);
}
