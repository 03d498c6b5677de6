/* Cases of the functions that seal, open, encipher and digest. */

#include "cases.h"

#include <string.h>

/* Every so many rounds through the functions a length is the longest, or one
   more: such a call takes as long as ten thousand others. Four of these rounds
   bring every number, which main.c counts on. */
#define LONG_EVERY 250
/* From here the key stream for the longest text ends with the last counter. */
#define LAST_LONG_START (COUNTERS - 1048576 / 64)
/* What a wide block has before its right part, and the nonce of one step. */
#define LEFT 32
#define STEP_NONCE 12

size_t short_length(struct random *random)
{
    static const size_t edges[] = {0,  1,  15, 16,  17,  31,  32,  33,  63,
                                   64, 65, 96, 127, 128, 129, 255, 256, 257};
    if (one_in(random, 200)) {
        return 4096 + random_below(random, 2);
    }
    if (one_in(random, 10)) {
        return random_below(random, 301);
    }
    if (one_in(random, 10)) {
        return edges[random_below(random, sizeof edges / sizeof edges[0])];
    }
    return random_below(random, 41);
}

static bool can_be_long(const struct part *part)
{
    return part->most > 4097 && !part->with_text;
}

static size_t right_length(struct random *random, const struct part *part,
                           size_t text_len)
{
    if (part->with_text) {
        return text_len + part->least +
               (one_in(random, 2) ? random_below(random, 41) : 0);
    }
    return part->least + short_length(random) % (part->most - part->least + 1);
}

void lend_room(struct thread *thread, struct call *call, enum set set,
               const struct part *part, size_t text_len)
{
    lend_random(thread, call, set, part->role,
                right_length(&thread->random, part, text_len));
}

/* Just outside of what is allowed or far from it, above or below; the right
   length where only very long ones are wrong. */
static size_t wrong_length(struct random *random, const struct part *part,
                           size_t text_len)
{
    size_t least = part->least + (part->with_text ? text_len : 0);
    bool near = one_in(random, 2);
    bool above = !can_be_long(part) && !part->with_text;
    if (above && (least == 0 || one_in(random, 2))) {
        return part->most + 1 + (near ? 0 : short_length(random));
    }
    if (least > 0) {
        return near ? least - 1 : random_below(random, least);
    }
    return right_length(random, part, text_len);
}

/* Finds the part whose turn it is to be long, and how long: each in turn as
   long as is allowed, and then each in turn one byte longer, but none again. */
static size_t long_part(const struct function *function, size_t long_turn,
                        size_t *len)
{
    size_t places[6];
    size_t found = 0;
    for (size_t p = 0; p < function->part_count; p++) {
        if (can_be_long(&function->parts[p])) {
            places[found++] = p;
        }
    }
    if (long_turn == 0 || long_turn > 2 * found) {
        return function->part_count;
    }
    size_t place = places[(long_turn - 1) % found];
    *len = function->parts[place].most + (long_turn - 1) / found % 2;
    return place;
}

static void lend_parts(struct thread *thread, struct call *call,
                       size_t long_turn)
{
    const struct function *function = call->function;
    struct random *random = &thread->random;
    size_t long_len = 0;
    size_t long_place = long_part(function, long_turn, &long_len);
    for (size_t p = 0; p < function->part_count; p++) {
        const struct part *part = &function->parts[p];
        if (function == &functions[CARD_OPEN] && part->role == CARD) {
            lend_card(thread, call);
            continue;
        }
        size_t text_len = text_length(call);
        bool wrong = long_turn == 0 && one_in(random, 12);
        size_t len = p == long_place ? long_len
                     : wrong         ? wrong_length(random, part, text_len)
                                     : right_length(random, part, text_len);
        lend_random(thread, call, FIRST, part->role, len);
    }
}

/* Half of them where the counters end, or would just do for the text. Others
   are where a number with a sign would be below 0, where a sum with the blocks
   would go round, at the beginning, or anywhere. */
static uint64_t random_start(struct random *random, size_t text_len)
{
    uint64_t few = random_below(random, 5);
    switch (random_below(random, 10)) {
    case 0:
    case 1:
        return COUNTERS - 2 + few;
    case 2:
    case 3:
    case 4:
        return COUNTERS - (text_len + 63) / 64 - 3 + few;
    case 5:
        return ((uint64_t)1 << 63) - 2 + few;
    case 6:
        return UINT64_MAX - few;
    case 7:
        return few;
    case 8:
        return random_word(random);
    default:
        return random_word(random) % COUNTERS;
    }
}

const uint8_t *given(const struct call *call, enum role role)
{
    return call->loans[role].arena->before;
}

struct call second_call(struct thread *thread, const struct call *first,
                        const struct function *function)
{
    struct call second = {.function = function, .start = first->start};
    for (size_t p = 0; p < function->part_count; p++) {
        const struct part *part = &function->parts[p];
        size_t len = first->loans[part->role].len;
        if (part->with_text) {
            lend_room(thread, &second, SECOND, part, text_length(first));
        } else if (part->use == WRITTEN || len == 0) {
            lend_random(thread, &second, SECOND, part->role, len);
        } else {
            lend_copy(thread, &second, SECOND, part->role,
                      given(first, part->role), len);
        }
    }
    return second;
}

/* How many bytes two calls have written, and whether they are the same. */
static size_t compare_written(const struct call *first,
                              const struct call *second, bool *same)
{
    size_t sum = 0;
    *same = true;
    for (size_t p = 0; p < first->function->part_count; p++) {
        const struct part *part = &first->function->parts[p];
        if (part->use != READ) {
            size_t len = written(first, part);
            *same = *same && memcmp(first->loans[part->role].place,
                                    second->loans[part->role].place, len) == 0;
            sum += len;
        }
    }
    return sum;
}

/* In other places, and with other bytes in the room beforehand. */
static void check_same(struct thread *thread, const struct call *first,
                       const struct function *function)
{
    bool same;
    struct call second = second_call(thread, first, function);
    make_call(thread, &second);
    compare_written(first, &second, &same);
    require(thread, same,
            first->function == function
                ? "the same call wrote other bytes"
                : "with empty data, short form and full form differ");
}

bool flip_bit(struct random *random, const struct call *call)
{
    const struct loan *loans[6];
    size_t found = 0;
    for (size_t p = 0; p < call->function->part_count; p++) {
        const struct part *part = &call->function->parts[p];
        if (part->use != WRITTEN && call->loans[part->role].len > 0) {
            loans[found++] = &call->loans[part->role];
        }
    }
    if (found == 0) {
        return false;
    }
    const struct loan *loan = loans[random_below(random, found)];
    random_flip(random, loan->place, loan->len);
    return true;
}

static bool is_wide(const struct function *function)
{
    return function == &functions[LIONESS_ENCIPHER] ||
           function == &functions[LIONESS_DECIPHER];
}

/* Few bytes may be the same by chance. In a wide block those of the right part
   count: where its key stream comes out the same, so does all that follows. */
static void check_flipped(struct thread *thread, const struct call *first)
{
    bool same;
    struct call second = second_call(thread, first, first->function);
    if (!flip_bit(&thread->random, &second)) {
        return;
    }
    make_call(thread, &second);
    size_t len = compare_written(first, &second, &same);
    size_t enough = is_wide(first->function) ? LEFT + 8 : 8;
    require(thread, !same || len < enough, "a flipped bit changed nothing");
}

static void check_undone(struct thread *thread, const struct call *first)
{
    const struct loan *text = &first->loans[TEXT];
    struct call second = second_call(thread, first, first->function->undone_by);
    lend_copy(thread, &second, SECOND, TEXT, text->place, text->len);
    make_call(thread, &second);
    require(thread,
            memcmp(second.loans[TEXT].place, given(first, TEXT),
                   text->len) == 0,
            "did not give back what was there");
}

/* Makes a call for a piece of the text, from this counter on, and answers where
   it stopped. */
static uint64_t check_piece(struct thread *thread, const struct call *whole,
                            uint64_t start, size_t from, size_t len)
{
    struct call piece = second_call(thread, whole, whole->function);
    piece.start = start;
    lend_copy(thread, &piece, SECOND, TEXT, given(whole, TEXT) + from, len);
    require(thread, make_call(thread, &piece) == 0,
            "cut after whole blocks, the key stream is refused");
    require(thread,
            memcmp(piece.loans[TEXT].place, whole->loans[TEXT].place + from,
                   len) == 0,
            "cut after whole blocks, the key stream is another");
    return piece.streamed.next;
}

/* "Where one call is done, cutting it after whole 64-byte blocks into two gives
   the same": the second starts where the first stopped. */
static void check_cut(struct thread *thread, const struct call *whole,
                      size_t blocks)
{
    size_t len = whole->loans[TEXT].len;
    size_t cut = 64 * blocks;
    uint64_t next = check_piece(thread, whole, whole->start, 0, cut);
    next = check_piece(thread, whole, next, cut, len - cut);
    thread->running = whole;
    require(thread, next == whole->streamed.next,
            "cut after whole blocks, the key stream stops elsewhere");
}

/* Before the first block, behind the last whole one, and somewhere: one piece
   or both may be empty, the second with all counters used. */
static void check_cuts(struct thread *thread, const struct call *whole)
{
    size_t most = whole->loans[TEXT].len / 64;
    check_cut(thread, whole, 0);
    check_cut(thread, whole, most);
    check_cut(thread, whole, random_below(&thread->random, most + 1));
}

/* Steps 1 and 3 of document 01, LIONESS, by a call of their own; `part` counts
   keys and ivs from 0. */
static void stream_step(struct thread *thread, const struct call *wide,
                        int part, uint8_t *block)
{
    size_t len = wide->loans[TEXT].len - LEFT;
    struct call call = {.function = &functions[CHACHA20]};
    lend_copy(thread, &call, SECOND, KEY, given(wide, KEY) + LEFT * part, LEFT);
    lend_copy(thread, &call, SECOND, NONCE,
              given(wide, NONCE) + STEP_NONCE * part, STEP_NONCE);
    lend_copy(thread, &call, SECOND, TEXT, block + LEFT, len);
    for (int j = 0; j < LEFT; j++) {
        call.loans[KEY].place[j] ^= block[j];
    }
    make_call(thread, &call);
    memcpy(block + LEFT, call.loans[TEXT].place, len);
}

/* Steps 2 and 4. */
static void digest_step(struct thread *thread, const struct call *wide,
                        int part, uint8_t *block)
{
    uint8_t key[LEFT + STEP_NONCE];
    struct call call = {.function = &functions[BLAKE2B]};
    memcpy(key, given(wide, KEY) + LEFT * part, LEFT);
    memcpy(key + LEFT, given(wide, NONCE) + STEP_NONCE * part, STEP_NONCE);
    lend_copy(thread, &call, SECOND, KEY, key, sizeof key);
    lend_copy(thread, &call, SECOND, TEXT, block + LEFT,
              wide->loans[TEXT].len - LEFT);
    lend_random(thread, &call, SECOND, ROOM, 64);
    make_call(thread, &call);
    for (int j = 0; j < LEFT; j++) {
        block[j] ^= call.loans[ROOM].place[j];
    }
}

/* The wide block step by step. The steps work in the copy of what was given,
   so no other check can come after this one. */
static void check_steps(struct thread *thread, const struct call *wide)
{
    bool enciphers = wide->function == &functions[LIONESS_ENCIPHER];
    const struct loan *text = &wide->loans[TEXT];
    uint8_t *block = text->arena->before;
    for (int step = 0; step < 4; step++) {
        int part = enciphers ? step : 3 - step;
        (part % 2 == 0 ? stream_step : digest_step)(thread, wide, part, block);
    }
    thread->running = wide;
    require(thread, memcmp(block, text->place, text->len) == 0,
            "not what the four steps give");
}

static void check_repeated(struct thread *thread, const struct call *call)
{
    const struct function *function = call->function;
    check_same(thread, call, function);
    check_flipped(thread, call);
    if (function->other_form != NULL && call->loans[DATA].len == 0) {
        check_same(thread, call, function->other_form);
    }
}

static void check_done(struct thread *thread, const struct call *call)
{
    const struct function *function = call->function;
    if (function->undone_by != NULL) {
        check_undone(thread, call);
    }
    if (function->opened_by != NULL) {
        check_opened(thread, call);
    }
    if (function->as_seal) {
        check_as_seal(thread, call);
    }
    if (function == &functions[CHACHA20]) {
        check_cuts(thread, call);
    }
    if (is_wide(function)) {
        check_steps(thread, call);
    }
}

void buffer_case(struct thread *thread, enum function_name name,
                 size_t long_turn)
{
    struct call call = {.function = &functions[name]};
    lend_parts(thread, &call, long_turn);
    call.start = long_turn > 0 ? LAST_LONG_START
                               : random_start(&thread->random,
                                              call.loans[TEXT].len);
    if (make_call(thread, &call) == 0) {
        /* Repeating a long call takes long and shows nothing new. */
        if (long_turn == 0) {
            check_repeated(thread, &call);
        }
        check_done(thread, &call);
    }
    thread->running = NULL;
}

void make_case(struct thread *thread, uint64_t case_number)
{
    enum function_name name = (enum function_name)(case_number % FUNCTIONS);
    size_t turn = (size_t)(case_number / FUNCTIONS) + 1;
    size_t long_turn = turn % LONG_EVERY == 0 ? turn / LONG_EVERY : 0;
    thread->case_number = case_number;
    thread->random = random_of_case(thread->seed, case_number);
    switch (name) {
    case DRAWER_START:
    case DRAWER_DRAW:
    case DRAWER_IV:
    case DRAWER_STORE:
    case DRAWER_LOAD:
        drawer_case(thread);
        break;
    case SEAL_BATCH:
        batch_case(thread, long_turn);
        break;
    case KEY_FIND:
        book_case(thread, long_turn);
        break;
    case PACK_NEXT:
    case PACK_JUDGE:
        pack_case(thread);
        break;
    case SAME:
        same_case(thread);
        break;
    case VERSION:
    case INTERFACE:
        header_case(thread);
        break;
    default:
        buffer_case(thread, name, long_turn);
    }
}
