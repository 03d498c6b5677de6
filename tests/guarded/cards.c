/* What all forms of sealing and opening must show. */

#include <string.h>

#include "cases.h"

#define NONCE_LEN 12
#define BEFORE_CIPHERTEXT 14
#define TAG_LEN 16
/* What a card has besides its ciphertext, and what it has at most. */
#define EXTRA 30
#define LONGEST_CARD (65535 + EXTRA)

/* How long a card is that says this: mostly as long as it must be, or else cut
   short, at times before its length, or with bytes left over. */
static size_t card_length(struct random *random, size_t said)
{
    size_t whole = said + EXTRA;
    const size_t wrong[] = {whole - 1,
                            whole + 1,
                            random_below(random, whole),
                            random_below(random, BEFORE_CIPHERTEXT + 2),
                            whole + short_length(random),
                            LONGEST_CARD + 1};
    return one_in(random, 4)
               ? wrong[random_below(random, sizeof wrong / sizeof wrong[0])]
               : whole;
}

void lend_card(struct thread *thread, struct call *call)
{
    struct random *random = &thread->random;
    size_t said = short_length(random);
    size_t len = card_length(random, said);
    lend_random(thread, call, FIRST, CARD, len);
    /* Now and then it says what it happens to say. */
    for (size_t j = 0; j < 2 && !one_in(random, 20); j++) {
        if (NONCE_LEN + j < len) {
            call->loans[CARD].place[NONCE_LEN + j] = (uint8_t)(said >> 8 * j);
        }
    }
}

/* Where the function writes what is sealed or opened: to its room or, if it has
   none, where the text was. */
static enum role output_role(const struct function *function)
{
    enum role role = TEXT;
    for (size_t p = 0; p < function->part_count; p++) {
        if (function->parts[p].role == ROOM) {
            role = ROOM;
        }
    }
    return role;
}

/* The ciphertext, or the whole card. */
static size_t output_length(const struct call *sealed)
{
    size_t extra = sealed->function == &functions[CARD_SEAL] ? EXTRA : 0;
    return text_length(sealed) + extra;
}

static struct call opening_of(struct thread *thread, const struct call *sealed)
{
    struct call call = {.function = sealed->function->opened_by};
    const struct loan *output = &sealed->loans[output_role(sealed->function)];
    for (size_t p = 0; p < call.function->part_count; p++) {
        const struct part *part = &call.function->parts[p];
        const struct loan *loan = &sealed->loans[part->role];
        if (part->role == ROOM) {
            lend_room(thread, &call, SECOND, part, text_length(sealed));
        } else if (part->role == TEXT) {
            lend_copy(thread, &call, SECOND, TEXT, output->place,
                      output_length(sealed));
        } else {
            lend_copy(thread, &call, SECOND, part->role,
                      part->role == TAG ? loan->place
                                        : given(sealed, part->role),
                      loan->len);
        }
    }
    return call;
}

void check_opened(struct thread *thread, const struct call *sealed)
{
    struct call right = opening_of(thread, sealed);
    right.opens = true;
    make_call(thread, &right);
    require(thread,
            memcmp(right.loans[output_role(right.function)].place,
                   given(sealed, TEXT), text_length(sealed)) == 0,
            "opened to another text");
    struct call wrong = opening_of(thread, sealed);
    flip_bit(&thread->random, &wrong);
    make_call(thread, &wrong);
}

/* "nonce, length, ciphertext and tag", and nothing else. */
static bool is_card_of(const struct call *card, const struct call *parts)
{
    size_t len = text_length(parts);
    const uint8_t *place = card->loans[ROOM].place;
    const uint8_t length[] = {(uint8_t)len, (uint8_t)(len >> 8)};
    return memcmp(place, given(parts, NONCE), NONCE_LEN) == 0 &&
           memcmp(place + NONCE_LEN, length, sizeof length) == 0 &&
           memcmp(place + BEFORE_CIPHERTEXT, parts->loans[ROOM].place,
                  len) == 0 &&
           memcmp(place + BEFORE_CIPHERTEXT + len, parts->loans[TAG].place,
                  TAG_LEN) == 0;
}

static bool is_in_place(const struct call *sealed, const struct call *parts)
{
    return memcmp(sealed->loans[TEXT].place, parts->loans[ROOM].place,
                  text_length(parts)) == 0 &&
           memcmp(sealed->loans[TAG].place, parts->loans[TAG].place,
                  TAG_LEN) == 0;
}

void check_as_seal(struct thread *thread, const struct call *sealed)
{
    struct call parts = second_call(thread, sealed, &functions[SEAL]);
    lend_random(thread, &parts, SECOND, TAG, TAG_LEN);
    make_call(thread, &parts);
    bool card = sealed->function == &functions[CARD_SEAL];
    thread->running = sealed;
    require(thread, (card ? is_card_of : is_in_place)(sealed, &parts),
            "not what vespruldo_seal writes");
}
