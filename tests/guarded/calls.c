/* See calls.h. Lengths and numbers stand here as the documents have them and
   not by the header's names: the header is on trial too. */

#define _POSIX_C_SOURCE 200112L

#include "calls.h"

#include <inttypes.h>
#include <pthread.h>
#include <stdarg.h>
#include <stdio.h>
#include <stdlib.h>
#include <string.h>

#define LENT(role) call->loans[role].bytes, call->loans[role].len

static uint32_t run_card_seal(struct call *call)
{
    return vespruldo_card_seal(LENT(KEY), LENT(NONCE), LENT(DATA), LENT(TEXT),
                               LENT(ROOM));
}

static uint32_t run_card_open(struct call *call)
{
    return vespruldo_card_open(LENT(KEY), LENT(DATA), LENT(CARD), LENT(ROOM));
}

static uint32_t run_seal(struct call *call)
{
    return vespruldo_seal(LENT(KEY), LENT(NONCE), LENT(DATA), LENT(TEXT),
                          LENT(ROOM), LENT(TAG));
}

static uint32_t run_open(struct call *call)
{
    return vespruldo_open(LENT(KEY), LENT(NONCE), LENT(DATA), LENT(TEXT),
                          LENT(TAG), LENT(ROOM));
}

static uint32_t run_seal_short(struct call *call)
{
    return vespruldo_seal_short(LENT(KEY), LENT(NONCE), LENT(TEXT), LENT(ROOM),
                                LENT(TAG));
}

static uint32_t run_open_short(struct call *call)
{
    return vespruldo_open_short(LENT(KEY), LENT(NONCE), LENT(TEXT), LENT(TAG),
                                LENT(ROOM));
}

static uint32_t run_seal_in_place(struct call *call)
{
    return vespruldo_seal_in_place(LENT(KEY), LENT(NONCE), LENT(DATA),
                                   LENT(TEXT), LENT(TAG));
}

static uint32_t run_open_in_place(struct call *call)
{
    return vespruldo_open_in_place(LENT(KEY), LENT(NONCE), LENT(DATA),
                                   LENT(TEXT), LENT(TAG));
}

static uint32_t run_drawer_load(struct call *call)
{
    call->loaded = vespruldo_drawer_load(LENT(STORED));
    return call->loaded.number;
}

static uint32_t run_seal_batch(struct call *call)
{
    const struct loan *lengths = &call->loans[LENGTHS];
    call->batch = vespruldo_seal_batch(
        LENT(KEY), LENT(DATA), LENT(TEXT), (const void *)lengths->bytes,
        lengths->len / LENGTH, call->drawer, LENT(ROOM), LENT(TAG));
    return call->batch.number;
}

static uint32_t run_key_find(struct call *call)
{
    call->found = vespruldo_key_find(LENT(THIS_TERM), LENT(LAST_TERM),
                                     call->class_number);
    return call->found.number;
}

static uint32_t run_pack_next(struct call *call)
{
    call->card = vespruldo_pack_next(LENT(PACK), call->place);
    return call->card.number;
}

static uint32_t run_pack_judge(struct call *call)
{
    call->judged = vespruldo_pack_judge(LENT(PACK));
    return call->judged.number;
}

static uint32_t run_lioness_encipher(struct call *call)
{
    return vespruldo_lioness_encipher(LENT(KEY), LENT(NONCE), LENT(TEXT));
}

static uint32_t run_lioness_decipher(struct call *call)
{
    return vespruldo_lioness_decipher(LENT(KEY), LENT(NONCE), LENT(TEXT));
}

static uint32_t run_gift_encipher(struct call *call)
{
    return vespruldo_gift_encipher(LENT(KEY), LENT(TEXT));
}

static uint32_t run_gift_decipher(struct call *call)
{
    return vespruldo_gift_decipher(LENT(KEY), LENT(TEXT));
}

static uint32_t run_chacha20(struct call *call)
{
    call->streamed = vespruldo_chacha20(LENT(KEY), LENT(NONCE), call->start,
                                        LENT(TEXT));
    return call->streamed.number;
}

static uint32_t run_blake2b(struct call *call)
{
    return vespruldo_blake2b(LENT(KEY), LENT(TEXT), LENT(ROOM));
}

static uint32_t run_same(struct call *call)
{
    return vespruldo_same(LENT(ONE), LENT(OTHER));
}

static uint32_t opening_number(const struct call *call)
{
    return call->opens ? 0 : 7;
}

static uint64_t blocks_used(const struct call *call)
{
    return (call->loans[TEXT].len + 63) / 64;
}

/* "at 2^32 an empty text is done and any other is refused with 8; above 2^32
   every text is, the empty one too." The blocks are compared with the counters
   that are left, since start plus blocks could go round. */
static uint32_t stream_number(const struct call *call)
{
    if (call->start > COUNTERS) {
        return 8;
    }
    return blocks_used(call) > COUNTERS - call->start ? 8 : 0;
}

/* "beside 0, start plus blocks used, which may be 2^32"; "A refusal answers the
   start." With 0 the sum is at most 2^32. */
static void check_next(const struct thread *thread, const struct call *call)
{
    uint64_t right = call->streamed.number == 0
                         ? call->start + blocks_used(call)
                         : call->start;
    if (call->streamed.next != right) {
        fail(thread,
             "from %" PRIu64 " on, with answer %" PRIu32
             ", it stopped at %" PRIu64 ", not %" PRIu64,
             call->start, call->streamed.number, call->streamed.next, right);
    }
}

static uint32_t find_number(const struct call *call)
{
    return plain_find(call).number;
}

static uint32_t loading_number(const struct call *call)
{
    return call->opens ? 0 : 106;
}

static uint32_t same_number(const struct call *call)
{
    const struct loan *one = &call->loans[ONE];
    const struct loan *other = &call->loans[OTHER];
    return one->len == other->len &&
           memcmp(one->place, other->place, one->len) == 0;
}

/* A buffer of a length of its own, and one whose length goes with the text's. */
#define PART(role, use, least, most, number) \
    {role, use, least, most, number, number, false}
#define WITH_TEXT(role, use, least, most, too_short, too_long) \
    {role, use, least, most, too_short, too_long, true}
/* Any length, and nothing to be refused, at least not for the length alone. */
#define ANY_OF(role, use) PART(role, use, 0, SIZE_MAX, 0)
#define ANY(role) ANY_OF(role, READ)

/* Rows that several functions share. */
#define CARD_KEY PART(KEY, READ, 16, 16, 1)
#define CARD_NONCE PART(NONCE, READ, 12, 12, 2)
#define CARD_DATA PART(DATA, READ, 0, 65536, 3)
#define CARD_TEXT(use) PART(TEXT, use, 0, 1048576, 4)
#define CARD_TAG(use) PART(TAG, use, 16, 16, 5)
#define CARD_ROOM WITH_TEXT(ROOM, WRITTEN, 0, SIZE_MAX, 6, 6)
#define LIONESS_PARTS \
    {PART(KEY, READ, 128, 128, 1), \
     PART(NONCE, READ, 48, 48, 2), \
     PART(TEXT, CHANGED, 33, 1048608, 4)}
#define GIFT_PARTS {CARD_KEY, PART(TEXT, CHANGED, 16, 16, 4)}

const struct function functions[FUNCTIONS] = {
    [CARD_SEAL] = {.name = "vespruldo_card_seal", .run = run_card_seal,
                   .part_count = 5,
                   .parts = {CARD_KEY, CARD_NONCE, CARD_DATA,
                             PART(TEXT, READ, 0, 65535, 4),
                             WITH_TEXT(ROOM, WRITTEN, 30, SIZE_MAX, 6, 6)},
                   .opened_by = &functions[CARD_OPEN], .as_seal = true},
    [CARD_OPEN] = {.name = "vespruldo_card_open", .run = run_card_open,
                   .number = opening_number, .refusals = {7},
                   .part_count = 4,
                   .parts = {CARD_KEY, CARD_DATA,
                             WITH_TEXT(CARD, READ, 30, 30, 12, 15),
                             CARD_ROOM}},
    [SEAL] = {.name = "vespruldo_seal", .run = run_seal,
              .part_count = 6,
              .parts = {CARD_KEY, CARD_NONCE, CARD_DATA, CARD_TEXT(READ),
                        CARD_TAG(WRITTEN), CARD_ROOM},
              .opened_by = &functions[OPEN],
              .other_form = &functions[SEAL_SHORT]},
    [OPEN] = {.name = "vespruldo_open", .run = run_open,
              .number = opening_number, .refusals = {7},
              .part_count = 6,
              .parts = {CARD_KEY, CARD_NONCE, CARD_DATA, CARD_TEXT(READ),
                        CARD_TAG(READ), CARD_ROOM}},
    [SEAL_SHORT] = {.name = "vespruldo_seal_short", .run = run_seal_short,
                    .part_count = 5,
                    .parts = {CARD_KEY, CARD_NONCE, CARD_TEXT(READ),
                              CARD_TAG(WRITTEN), CARD_ROOM},
                    .opened_by = &functions[OPEN_SHORT],
                    .other_form = &functions[SEAL]},
    [OPEN_SHORT] = {.name = "vespruldo_open_short", .run = run_open_short,
                    .number = opening_number, .refusals = {7},
                    .part_count = 5,
                    .parts = {CARD_KEY, CARD_NONCE, CARD_TEXT(READ),
                              CARD_TAG(READ), CARD_ROOM}},
    [SEAL_IN_PLACE] = {.name = "vespruldo_seal_in_place",
                       .run = run_seal_in_place,
                       .part_count = 5,
                       .parts = {CARD_KEY, CARD_NONCE, CARD_DATA,
                                 CARD_TEXT(CHANGED), CARD_TAG(WRITTEN)},
                       .opened_by = &functions[OPEN_IN_PLACE],
                       .as_seal = true},
    [OPEN_IN_PLACE] = {.name = "vespruldo_open_in_place",
                       .run = run_open_in_place,
                       .number = opening_number, .refusals = {7},
                       .part_count = 5,
                       .parts = {CARD_KEY, CARD_NONCE, CARD_DATA,
                                 CARD_TEXT(CHANGED), CARD_TAG(READ)}},
    [DRAWER_START] = {.name = "vespruldo_drawer_start"},
    [DRAWER_DRAW] = {.name = "vespruldo_drawer_draw", .refusals = {9}},
    [DRAWER_IV] = {.name = "vespruldo_drawer_iv", .refusals = {9}},
    [DRAWER_STORE] = {.name = "vespruldo_drawer_store"},
    [DRAWER_LOAD] = {.name = "vespruldo_drawer_load", .run = run_drawer_load,
                     .number = loading_number, .refusals = {106},
                     .part_count = 1, .parts = {ANY(STORED)}},
    /* 4 comes before 5 and 6, and is one of what the lengths say: so the number
       is told by a function. */
    [SEAL_BATCH] = {.name = "vespruldo_seal_batch", .run = run_seal_batch,
                    .number = plain_batch_number, .check_rest = check_drawer,
                    .refusals = {4, 5, 6, 9, 18},
                    .part_count = 6,
                    .parts = {CARD_KEY, CARD_DATA, ANY(TEXT), ANY(LENGTHS),
                              ANY_OF(TAG, WRITTEN),
                              WITH_TEXT(ROOM, WRITTEN, 0, SIZE_MAX, 0, 0)}},
    [KEY_FIND] = {.name = "vespruldo_key_find", .run = run_key_find,
                  .number = find_number, .refusals = {10, 11},
                  .part_count = 2,
                  .parts = {ANY(THIS_TERM), ANY(LAST_TERM)}},
    [PACK_NEXT] = {.name = "vespruldo_pack_next", .run = run_pack_next,
                   .number = plain_pack_number, .refusals = {12, 13, 14, 15},
                   .part_count = 1, .parts = {ANY(PACK)}},
    [PACK_JUDGE] = {.name = "vespruldo_pack_judge", .run = run_pack_judge,
                    .number = plain_pack_number, .refusals = {12, 13, 14, 15},
                    .part_count = 1, .parts = {ANY(PACK)}},
    [LIONESS_ENCIPHER] = {.name = "vespruldo_lioness_encipher",
                          .run = run_lioness_encipher,
                          .part_count = 3, .parts = LIONESS_PARTS,
                          .undone_by = &functions[LIONESS_DECIPHER]},
    [LIONESS_DECIPHER] = {.name = "vespruldo_lioness_decipher",
                          .run = run_lioness_decipher,
                          .part_count = 3, .parts = LIONESS_PARTS,
                          .undone_by = &functions[LIONESS_ENCIPHER]},
    [GIFT_ENCIPHER] = {.name = "vespruldo_gift_encipher",
                       .run = run_gift_encipher,
                       .part_count = 2, .parts = GIFT_PARTS,
                       .undone_by = &functions[GIFT_DECIPHER]},
    [GIFT_DECIPHER] = {.name = "vespruldo_gift_decipher",
                       .run = run_gift_decipher,
                       .part_count = 2, .parts = GIFT_PARTS,
                       .undone_by = &functions[GIFT_ENCIPHER]},
    [CHACHA20] = {.name = "vespruldo_chacha20", .run = run_chacha20,
                  .number = stream_number, .check_rest = check_next,
                  .refusals = {8},
                  .part_count = 3,
                  .parts = {PART(KEY, READ, 32, 32, 1), CARD_NONCE,
                            CARD_TEXT(CHANGED)},
                  .undone_by = &functions[CHACHA20]},
    [BLAKE2B] = {.name = "vespruldo_blake2b", .run = run_blake2b,
                 .part_count = 3,
                 .parts = {PART(KEY, READ, 0, 64, 1), CARD_TEXT(READ),
                           PART(ROOM, WRITTEN, 1, 64, 6)}},
    [SAME] = {.name = "vespruldo_same", .run = run_same,
              .number = same_number, .refusals = {1},
              .part_count = 2, .parts = {ANY(ONE), ANY(OTHER)}},
    [VERSION] = {.name = "vespruldo_version"},
    [INTERFACE] = {.name = "vespruldo_interface_2"},
};

static const char *const role_names[ROLES] = {
    [KEY] = "key",
    [NONCE] = "nonce or iv",
    [DATA] = "data",
    [TEXT] = "text, block, card, pack, drawer or this term's book",
    [LENGTHS] = "lengths",
    [TAG] = "tag or tags",
    [ROOM] = "room or last term's book",
};

/* The longest lengths that cases have, with some to spare; text and room hold
   the longest book, of 65,535 entries, lengths and tags 6,000 cards. */
static const size_t role_bytes[ROLES] = {
    [KEY] = 8192,      [NONCE] = 8192, [DATA] = 66000,   [TEXT] = 1180000,
    [LENGTHS] = 48000, [TAG] = 96000,  [ROOM] = 1180000,
};

void make_arenas(struct thread *thread)
{
    for (int set = 0; set < SETS; set++) {
        for (int role = 0; role < ROLES; role++) {
            make_arena(&thread->arenas[set][role], role_bytes[role]);
        }
    }
}

void free_arenas(struct thread *thread)
{
    for (int set = 0; set < SETS; set++) {
        for (int role = 0; role < ROLES; role++) {
            free_arena(&thread->arenas[set][role]);
        }
    }
}

void fail(const struct thread *thread, const char *format, ...)
{
    /* Not given back: only the first failure is reported. */
    static pthread_mutex_t first = PTHREAD_MUTEX_INITIALIZER;
    pthread_mutex_lock(&first);
    const struct call *call = thread->running;
    va_list rest;
    va_start(rest, format);
    fprintf(stderr, "%s: ", call == NULL ? "-" : call->function->name);
    vfprintf(stderr, format, rest);
    va_end(rest);
    fprintf(stderr, "\nseed %" PRIu64 ", thread %u, case %" PRIu64 "\n",
            thread->seed, thread->number, thread->case_number);
    for (size_t p = 0; call != NULL && p < call->function->part_count; p++) {
        enum role role = call->function->parts[p].role;
        const struct loan *loan = &call->loans[role];
        fprintf(stderr, "%s: %zu bytes at %p\n", role_names[role], loan->len,
                (void *)loan->bytes);
    }
    _Exit(1);
}

void fail_at(const struct thread *thread, int signal_number,
             const void *address)
{
    const struct call *call = thread->running;
    for (size_t p = 0; call != NULL && p < call->function->part_count; p++) {
        enum role role = call->function->parts[p].role;
        ptrdiff_t place;
        if (is_near(&call->loans[role], address, &place)) {
            fail(thread, "%s: signal %d at byte %td", role_names[role],
                 signal_number, place);
        }
    }
    fail(thread, "signal %d at %p", signal_number, address);
}

void require(const struct thread *thread, bool holds, const char *otherwise)
{
    if (!holds) {
        fail(thread, "%s", otherwise);
    }
}

bool promised(const struct function *function, uint32_t number)
{
    bool found = number == 0;
    for (size_t r = 0; r < sizeof function->refusals / sizeof number; r++) {
        found = found || number == function->refusals[r];
    }
    for (size_t p = 0; p < function->part_count; p++) {
        found = found || number == function->parts[p].too_short ||
                number == function->parts[p].too_long;
    }
    return found;
}

size_t text_length(const struct call *call)
{
    const struct loan *loan = &call->loans[TEXT];
    if (call->function != &functions[CARD_OPEN]) {
        return loan->len;
    }
    return (size_t)(loan->len > 12 ? loan->place[12] : 0) |
           (size_t)(loan->len > 13 ? loan->place[13] : 0) << 8;
}

size_t written(const struct call *call, const struct part *part)
{
    return part->with_text ? text_length(call) + part->least
                           : call->loans[part->role].len;
}

static struct loan *lend_part(struct thread *thread, struct call *call,
                              enum set set, enum role role, size_t len)
{
    struct random *random = &thread->random;
    struct loan *loan = &call->loans[role];
    *loan = lend(&thread->arenas[set][role], len, one_in(random, 2));
    if (len == 0 && one_in(random, 2)) {
        loan->bytes = NULL;
    }
    return loan;
}

void lend_random(struct thread *thread, struct call *call, enum set set,
                 enum role role, size_t len)
{
    struct loan *loan = lend_part(thread, call, set, role, len);
    random_fill(&thread->random, loan->place, len);
}

void lend_copy(struct thread *thread, struct call *call, enum set set,
               enum role role, const uint8_t *bytes, size_t len)
{
    struct loan *loan = lend_part(thread, call, set, role, len);
    if (len != 0) {
        memcpy(loan->place, bytes, len);
    }
}

/* The number for the length of one buffer, or 0. */
static uint32_t length_number(const struct call *call, const struct part *part)
{
    size_t len = call->loans[part->role].len;
    size_t text = part->with_text ? text_length(call) : 0;
    if (len < text + part->least) {
        return part->too_short;
    }
    return len - text > part->most ? part->too_long : 0;
}

/* "Where several apply, the smallest number is given": the first of the parts,
   which only for a card that is opened are not in the order of numbers. */
static uint32_t number_asked_for(const struct call *call)
{
    const struct function *function = call->function;
    for (size_t p = 0; p < function->part_count; p++) {
        uint32_t number = length_number(call, &function->parts[p]);
        if (number != 0) {
            return number;
        }
    }
    return function->number == NULL ? 0 : function->number(call);
}

/* From which byte on the buffer must be as it was. */
static size_t first_kept(const struct call *call, const struct part *part,
                         uint32_t number)
{
    bool touched = number == 0 || number == 7;
    return part->use == READ || !touched ? 0 : written(call, part);
}

static bool all_zero(const uint8_t *bytes, size_t len)
{
    uint8_t sum = 0;
    for (size_t j = 0; j < len; j++) {
        sum |= bytes[j];
    }
    return sum == 0;
}

static void check_part(const struct thread *thread, const struct call *call,
                       const struct part *part, uint32_t number)
{
    const struct loan *loan = &call->loans[part->role];
    const char *name = role_names[part->role];
    size_t kept = first_kept(call, part, number);
    if (!guard_whole(loan)) {
        fail(thread, "%s: written outside", name);
    }
    if (!kept_from(loan, kept)) {
        fail(thread, "%s: changed from byte %zu on, answer %" PRIu32, name,
             kept, number);
    }
    if (number == 7 && !all_zero(loan->place, kept)) {
        fail(thread, "%s: not zero after a wrong tag", name);
    }
}

/* Does something to all buffers that this call must not write to at all. */
static void each_unwritten(const struct call *call, uint32_t number,
                           void (*act)(const struct loan *loan))
{
    for (size_t p = 0; p < call->function->part_count; p++) {
        const struct part *part = &call->function->parts[p];
        if (first_kept(call, part, number) == 0) {
            act(&call->loans[part->role]);
        }
    }
}

static uint32_t run_locked(struct call *call, uint32_t asked_for)
{
    each_unwritten(call, asked_for, lock);
    uint32_t number = call->function->run(call);
    each_unwritten(call, asked_for, unlock);
    return number;
}

uint32_t make_call(struct thread *thread, struct call *call)
{
    const struct function *function = call->function;
    uint32_t asked_for = number_asked_for(call);
    for (size_t p = 0; p < function->part_count; p++) {
        remember(&call->loans[function->parts[p].role]);
    }
    thread->running = call;
    /* Locking costs more than most calls do. */
    uint32_t number = one_in(&thread->random, 64) ? run_locked(call, asked_for)
                                                  : function->run(call);
    if (number != asked_for) {
        fail(thread, "answered %" PRIu32 ", not %" PRIu32, number, asked_for);
    }
    if (function->check_rest != NULL) {
        function->check_rest(thread, call);
    }
    for (size_t p = 0; p < function->part_count; p++) {
        check_part(thread, call, &function->parts[p], number);
    }
    count(thread, (enum function_name)(function - functions), number);
    return number;
}

void count(struct thread *thread, enum function_name name, uint32_t number)
{
    thread->tally[name][number]++;
}
