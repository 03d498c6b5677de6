/* Cases of drawers and key books. */

#include <inttypes.h>
#include <string.h>

#include "cases.h"

#define ENTRY 18
/* The bytes of a stored drawer that its digest is of. */
#define DIGESTED 12

static void write_drawn(uint8_t bytes[DIGESTED], vespruldo_drawer drawer)
{
    for (int j = 0; j < DIGESTED; j++) {
        bytes[j] = (uint8_t)(j < 4 ? drawer.reader >> (8 * j)
                                   : drawer.count >> (8 * (j - 4)));
    }
}

/* A draw writes its 12 bytes once, an iv four times. */
static vespruldo_drawn_iv draw(enum function_name name, vespruldo_drawer drawer)
{
    if (name == DRAWER_IV) {
        return vespruldo_drawer_iv(drawer);
    }
    vespruldo_drawn drawn = vespruldo_drawer_draw(drawer);
    vespruldo_drawn_iv answer = {.number = drawn.number, .next = drawn.next};
    memcpy(answer.bytes, drawn.bytes, sizeof drawn.bytes);
    return answer;
}

static vespruldo_drawer check_draw(struct thread *thread,
                                   enum function_name name,
                                   vespruldo_drawer drawer)
{
    const struct call running = {.function = &functions[name]};
    thread->running = &running;
    vespruldo_drawn_iv drawn = draw(name, drawer);
    bool spent = drawer.count == UINT64_MAX;
    uint8_t bytes[DIGESTED] = {0};
    if (!spent) {
        write_drawn(bytes, drawer);
    }
    bool right = drawn.number == (spent ? 9 : 0) &&
                 drawn.next.reader == drawer.reader &&
                 drawn.next.count == drawer.count + (spent ? 0 : 1);
    for (size_t i = 0; i < (name == DRAWER_IV ? 48 : 12); i += sizeof bytes) {
        right = right && memcmp(drawn.bytes + i, bytes, sizeof bytes) == 0;
    }
    if (!right) {
        fail(thread,
             "reader %" PRIu32 ", count %" PRIu64 ": answered %" PRIu32
             ", and number, bytes or next drawer are wrong",
             drawer.reader, drawer.count, drawn.number);
    }
    count(thread, name, drawn.number);
    return drawn.next;
}

/* "reader number in 4 bytes, count in 8, both little-endian, then the digest of
   these 12". */
static vespruldo_stored check_store(struct thread *thread,
                                    vespruldo_drawer drawer)
{
    const struct call running = {.function = &functions[DRAWER_STORE]};
    uint8_t bytes[DIGESTED];
    struct call digest = {.function = &functions[BLAKE2B]};
    thread->running = &running;
    vespruldo_stored stored = vespruldo_drawer_store(drawer);
    write_drawn(bytes, drawer);
    require(thread, memcmp(stored.bytes, bytes, DIGESTED) == 0,
            "not the reader number and the count");
    lend_random(thread, &digest, SECOND, KEY, 0);
    lend_copy(thread, &digest, SECOND, TEXT, bytes, DIGESTED);
    lend_random(thread, &digest, SECOND, ROOM, sizeof stored.bytes - DIGESTED);
    make_call(thread, &digest);
    thread->running = &running;
    require(thread,
            memcmp(stored.bytes + DIGESTED, digest.loans[ROOM].place,
                   digest.loans[ROOM].len) == 0,
            "not their digest");
    count(thread, DRAWER_STORE, 0);
    return stored;
}

/* Loads what was stored, or that with a flipped bit, or cut short, or with
   bytes left over. */
static void check_load(struct thread *thread, vespruldo_drawer drawer,
                       vespruldo_stored stored)
{
    struct random *random = &thread->random;
    struct call call = {.function = &functions[DRAWER_LOAD]};
    size_t whole = sizeof stored.bytes;
    size_t len = !one_in(random, 4) ? whole
                 : one_in(random, 2) ? whole + random_below(random, 3) - 1
                                     : random_below(random, 2 * whole);
    bool flipped = len > 0 && one_in(random, 2);
    lend_random(thread, &call, FIRST, STORED, len);
    memcpy(call.loans[STORED].place, stored.bytes, len < whole ? len : whole);
    if (flipped) {
        random_flip(random, call.loans[STORED].place, len);
    }
    call.opens = len == whole && !flipped;
    make_call(thread, &call);
    const vespruldo_drawer spent = {0, UINT64_MAX};
    vespruldo_drawer right = call.opens ? drawer : spent;
    require(thread,
            call.loaded.drawer.reader == right.reader &&
                call.loaded.drawer.count == right.count,
            "another drawer");
}

/* A few draws one after another, at times where the count ends or where a byte
   of it is carried over; what is left is stored and loaded. */
void drawer_case(struct thread *thread)
{
    const struct call running = {.function = &functions[DRAWER_START]};
    struct random *random = &thread->random;
    uint32_t reader = (uint32_t)random_word(random);
    uint64_t start = one_in(random, 3) ? 0 : random_word(random);
    if (one_in(random, 2)) {
        start &= UINT64_MAX << random_below(random, 64);
        start -= random_below(random, 4);
    }
    thread->running = &running;
    vespruldo_drawer drawer = vespruldo_drawer_start(reader, start);
    require(thread, drawer.reader == reader && drawer.count == start,
            "another reader or count");
    count(thread, DRAWER_START, 0);
    for (size_t draws = random_below(random, 6); draws > 0; draws--) {
        drawer = check_draw(
            thread, one_in(random, 2) ? DRAWER_DRAW : DRAWER_IV, drawer);
    }
    check_load(thread, drawer, check_store(thread, drawer));
    thread->running = NULL;
}

static size_t number_at(const uint8_t *bytes)
{
    return (size_t)bytes[0] | (size_t)bytes[1] << 8;
}

static void put_number(uint8_t *bytes, size_t number)
{
    bytes[0] = (uint8_t)number;
    bytes[1] = (uint8_t)(number >> 8);
}

static bool well_formed(const struct loan *book)
{
    if (book->len < 2 || book->len != 2 + ENTRY * number_at(book->place)) {
        return false;
    }
    bool rises = true;
    for (size_t at = 2 + ENTRY; at < book->len; at += ENTRY) {
        const uint8_t *entry = book->place + at;
        rises = rises && number_at(entry - ENTRY) < number_at(entry);
    }
    return rises;
}

/* Where the key of the class begins in a well formed book; 0 if nowhere. */
static size_t key_offset(const struct loan *book, size_t class_number)
{
    for (size_t at = 2; at < book->len; at += ENTRY) {
        if (number_at(book->place + at) == class_number) {
            return at + 2;
        }
    }
    return 0;
}

vespruldo_found plain_find(const struct call *call)
{
    const struct loan *this_term = &call->loans[THIS_TERM];
    const struct loan *last_term = &call->loans[LAST_TERM];
    vespruldo_found found = {0, 0, 0};
    if (!well_formed(this_term) || !well_formed(last_term)) {
        found.number = 10;
        return found;
    }
    found.offset = key_offset(this_term, call->class_number);
    if (found.offset == 0) {
        found.offset = key_offset(last_term, call->class_number);
        found.book = found.offset != 0;
    }
    found.number = found.offset != 0 ? 0 : 11;
    return found;
}

/* Writes the count and class numbers that rise, as far as there is room. */
static void write_entries(struct random *random, const struct loan *book,
                          size_t entries)
{
    /* Close together, so that both books have a class, or wide apart. */
    size_t widest = entries == 0 ? 1 : 65535 / entries;
    size_t gap = widest > 3 && !one_in(random, 4) ? 3 : widest;
    size_t class_number = random_below(random, gap);
    if (book->len >= 2) {
        put_number(book->place, entries);
    }
    for (size_t at = 2; at + ENTRY <= book->len; at += ENTRY) {
        put_number(book->place + at, class_number);
        class_number += 1 + random_below(random, gap);
    }
}

/* Spoils the count or the order of class numbers, now and then, in a book of
   the right length. */
static void spoil(struct random *random, const struct loan *book,
                  size_t entries)
{
    if (one_in(random, 30)) {
        random_flip(random, book->place, 2);
    }
    if (entries >= 2 && one_in(random, 10)) {
        size_t at = 2 + ENTRY * random_below(random, entries - 1);
        size_t class_number = number_at(book->place + at);
        size_t less = one_in(random, 2) && class_number > 0 ? 1 : 0;
        put_number(book->place + at + ENTRY, class_number - less);
    }
}

/* A length that does not go with the count, often one without room for the
   count or one beside the right one. */
static size_t wrong_book_length(struct random *random, size_t right)
{
    size_t any = random_below(random, right);
    const size_t lengths[] = {0,         1,         right - 1, right + 1,
                              right - 2, right + 2, any,       right + ENTRY};
    return lengths[random_below(random, sizeof lengths / sizeof lengths[0])];
}

static void lend_book(struct thread *thread, struct call *call, enum role role,
                      bool longest)
{
    struct random *random = &thread->random;
    size_t entries = longest               ? 65535
                     : one_in(random, 100) ? random_below(random, 300)
                                           : random_below(random, 8);
    size_t right = 2 + ENTRY * entries;
    size_t len = one_in(random, 20) ? wrong_book_length(random, right) : right;
    lend_random(thread, call, FIRST, role, len);
    write_entries(random, &call->loans[role], entries);
    if (len == right) {
        spoil(random, &call->loans[role], entries);
    }
}

/* One that stands in a book, or next to one that does, or any. */
static uint16_t random_class(struct random *random, const struct loan *book)
{
    if (book->len < 2 + ENTRY || one_in(random, 8)) {
        return (uint16_t)random_word(random);
    }
    size_t at = 2 + ENTRY * random_below(random, (book->len - 2) / ENTRY);
    return (uint16_t)(number_at(book->place + at) +
                      (one_in(random, 3) ? random_below(random, 3) - 1 : 0));
}

void book_case(struct thread *thread, size_t long_turn)
{
    struct random *random = &thread->random;
    struct call call = {.function = &functions[KEY_FIND]};
    lend_book(thread, &call, THIS_TERM, long_turn % 4 == 1);
    lend_book(thread, &call, LAST_TERM, long_turn % 4 == 3);
    if (one_in(random, 16)) {
        /* "The books are only read and may overlap or be one." */
        call.loans[LAST_TERM] = call.loans[THIS_TERM];
    }
    call.class_number = random_class(
        random, &call.loans[one_in(random, 2) ? THIS_TERM : LAST_TERM]);
    make_call(thread, &call);
    vespruldo_found right = plain_find(&call);
    require(thread,
            call.found.book == right.book && call.found.offset == right.offset,
            "another book or offset");
    const uint8_t *this_term = call.loans[THIS_TERM].bytes;
    const uint8_t *last_term = call.loans[LAST_TERM].bytes;
    const uint8_t *key = vespruldo_found_key(call.found, this_term, last_term);
    require(thread,
            right.number != 0
                ? key == NULL
                : key == (right.book ? last_term : this_term) + right.offset,
            "vespruldo_found_key: another place");
    thread->running = NULL;
}
