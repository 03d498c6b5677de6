/* See batches.h. What is sealed is what vespruldo_seal writes: K3 says so, and
   other cases are about what that is. */

#include "batches.h"

#include <inttypes.h>
#include <string.h>

#include "cases.h"

#define KEY_LEN 16
#define TAG_LEN 16

/* ---- What must be answered ---- */

static size_t card_count(const struct call *batch)
{
    return batch->loans[LENGTHS].len / LENGTH;
}

static uint64_t card_length(const struct call *batch, size_t card)
{
    uint64_t length;
    memcpy(&length, batch->loans[LENGTHS].place + LENGTH * card, LENGTH);
    return length;
}

/* The order is 4, 5, 6, 9, 18, behind 1 and 3. Once no length is above the
   limit, their sum can't go round. */
uint32_t plain_batch_number(const struct call *batch)
{
    size_t cards = card_count(batch);
    uint64_t sum = 0;
    for (size_t i = 0; i < cards; i++) {
        if (card_length(batch, i) > LONGEST_TEXT) {
            return 4;
        }
        sum += card_length(batch, i);
    }
    if (batch->loans[TAG].len != TAG_LEN * cards) {
        return 5;
    }
    if (batch->loans[ROOM].len < batch->loans[TEXT].len) {
        return 6;
    }
    if (UINT64_MAX - batch->drawer.count < cards) {
        return 9;
    }
    bool well_formed = cards >= 1 && cards <= MOST_CARDS &&
                       sum == batch->loans[TEXT].len;
    return well_formed ? 0 : 18;
}

/* "A refused batch draws nothing". */
void check_drawer(const struct thread *thread, const struct call *batch)
{
    size_t draws = batch->batch.number == 0 ? card_count(batch) : 0;
    if (batch->batch.next.reader != batch->drawer.reader ||
        batch->batch.next.count != batch->drawer.count + draws) {
        fail(thread,
             "count %" PRIu64 ", %zu cards, answer %" PRIu32
             ": the next drawer is reader %" PRIu32 ", count %" PRIu64,
             batch->drawer.count, card_count(batch), batch->batch.number,
             batch->batch.next.reader, batch->batch.next.count);
    }
}

/* ---- What is written ---- */

static bool same_card(const struct call *batch, size_t card, size_t at,
                      const uint8_t *ciphertext, const uint8_t *tag)
{
    return memcmp(batch->loans[ROOM].place + at, ciphertext,
                  (size_t)card_length(batch, card)) == 0 &&
           memcmp(batch->loans[TAG].place + TAG_LEN * card, tag, TAG_LEN) == 0;
}

/* Seals one text of the batch by itself, under this nonce. */
static struct call single_seal(struct thread *thread, const struct call *batch,
                               size_t at, size_t len, vespruldo_drawn drawn)
{
    struct call single = {.function = &functions[SEAL]};
    lend_copy(thread, &single, SECOND, KEY, given(batch, KEY), KEY_LEN);
    lend_copy(thread, &single, SECOND, NONCE, drawn.bytes, sizeof drawn.bytes);
    lend_copy(thread, &single, SECOND, DATA, given(batch, DATA),
              batch->loans[DATA].len);
    lend_copy(thread, &single, SECOND, TEXT, given(batch, TEXT) + at, len);
    lend_random(thread, &single, SECOND, TAG, TAG_LEN);
    lend_random(thread, &single, SECOND, ROOM, len);
    make_call(thread, &single);
    return single;
}

/* "It equals sealing them singly in order with the next draws." */
static void check_singly(struct thread *thread, const struct call *batch)
{
    vespruldo_drawer drawer = batch->drawer;
    size_t at = 0;
    for (size_t i = 0; i < card_count(batch); i++) {
        size_t len = (size_t)card_length(batch, i);
        vespruldo_drawn drawn = vespruldo_drawer_draw(drawer);
        struct call single = single_seal(thread, batch, at, len, drawn);
        thread->running = batch;
        if (drawn.number != 0 ||
            !same_card(batch, i, at, single.loans[ROOM].place,
                       single.loans[TAG].place)) {
            fail(thread, "card %zu, of %zu bytes, is not what is sealed singly",
                 i, len);
        }
        at += len;
        drawer = drawn.next;
    }
}

/* "changing one card's text changes no other card's ciphertext or tag", but its
   own tag. */
static void check_one_changed(struct thread *thread, const struct call *batch)
{
    struct random *random = &thread->random;
    size_t changed = random_below(random, card_count(batch));
    struct call second = second_call(thread, batch, batch->function);
    second.drawer = batch->drawer;
    size_t at = 0;
    for (size_t i = 0; i < changed; i++) {
        at += (size_t)card_length(batch, i);
    }
    size_t len = (size_t)card_length(batch, changed);
    if (len == 0) {
        return;
    }
    random_flip(random, second.loans[TEXT].place + at, len);
    make_call(thread, &second);
    at = 0;
    for (size_t i = 0; i < card_count(batch); i++) {
        bool same = same_card(batch, i, at, second.loans[ROOM].place + at,
                              second.loans[TAG].place + TAG_LEN * i);
        require(thread, same == (i != changed),
                "one text was changed, and another card, or not its own");
        at += (size_t)card_length(batch, i);
    }
}

/* ---- Batches ---- */

struct batch right_batch(const uint64_t *lengths, size_t cards)
{
    struct batch batch = {.key_len = KEY_LEN, .tags_len = TAG_LEN * cards,
                          .lengths = lengths, .cards = cards, .draws = cards};
    for (size_t i = 0; i < cards; i++) {
        batch.text_len += (size_t)lengths[i];
    }
    batch.room_len = batch.text_len;
    return batch;
}

uint32_t check_batch(struct thread *thread, const struct batch *batch)
{
    struct call call = {.function = &functions[SEAL_BATCH]};
    call.drawer.reader = (uint32_t)random_word(&thread->random);
    call.drawer.count = UINT64_MAX - batch->draws;
    lend_random(thread, &call, FIRST, KEY, batch->key_len);
    lend_random(thread, &call, FIRST, DATA, batch->data_len);
    lend_random(thread, &call, FIRST, TEXT, batch->text_len);
    lend_copy(thread, &call, FIRST, LENGTHS, (const void *)batch->lengths,
              LENGTH * batch->cards);
    lend_random(thread, &call, FIRST, TAG, batch->tags_len);
    lend_random(thread, &call, FIRST, ROOM, batch->room_len);
    uint32_t number = make_call(thread, &call);
    if (number == 0) {
        check_singly(thread, &call);
        /* Which takes as long again, and follows from the above. */
        if (one_in(&thread->random, 4) && batch->text_len < LONGEST_TEXT) {
            check_one_changed(thread, &call);
        }
    }
    thread->running = NULL;
    return number;
}
