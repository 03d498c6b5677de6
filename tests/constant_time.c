/* Constant time, checked on the machine code: to be run under valgrind's
   memcheck, which follows every bit that is marked undefined and counts an
   error for each conditional jump and each address that depends on one.

   Marked are the bytes of every buffer that is lent, the start counter of a key
   stream, and drawers. Not marked are lengths, that in a card and those of a
   batch too, and of key books the counts and class numbers, which say where to
   look; the keys beside them are. Nor are the counts, lengths and entries of a
   lesson pack, by which it is walked and judged; the bytes of its words and its
   song are. Every function of the archive is called, done and refused. Nothing
   may then depend on a marked bit but the exceptions that are named here, each
   in one place of one call; docs/SECURITY.md explains them. */

#include <stdbool.h>
#include <stdio.h>
#include <string.h>
#include <valgrind/memcheck.h>

#include "vespruldo.h"

#define LONGEST 300
#define COUNT(array) (sizeof(array) / sizeof *(array))

/* What may depend on marked bits, and in how many places of one call. */
struct exception {
    const char *name;
    unsigned long places;
};

static const struct exception none = {"nothing", 0};
static const struct exception verdict = {"the verdict of a tag (7)", 1};
static const struct exception ending = {"where a key stream would end (8)", 1};
static const struct exception spent = {"whether a drawer is spent (9)", 1};
static const struct exception damage = {"whether a drawer is damaged (106)", 1};
static const struct exception equal = {"whether two buffers are the same", 1};

static unsigned long calls;
static bool failed;
static unsigned long errors_before;

static void begin(void)
{
    errors_before = VALGRIND_COUNT_ERRORS;
}

/* Ends a call that answered `number`. A number that itself depends on marked
   bits is one place with the jump that made it, and a place where there was no
   such jump. A comparison has nothing but its answer: where that depends on
   them, there is no such jump. */
static void end(const char *function, uint32_t number, uint32_t wanted,
                const struct exception *allowed)
{
    unsigned long places = VALGRIND_COUNT_ERRORS - errors_before;
    uint32_t marks = 0;
    (void)VALGRIND_GET_VBITS(&number, &marks, sizeof number);
    VALGRIND_MAKE_MEM_DEFINED(&number, sizeof number);
    if (marks != 0 && (places == 0 || allowed == &equal)) {
        places++;
    }
    if (number != wanted || places != allowed->places) {
        printf("%s answered %u where %u is right; %lu places depend on marked "
               "bits, allowed is %s (%lu)\n",
               function, (unsigned)number, (unsigned)wanted, places,
               allowed->name, allowed->places);
        failed = true;
    }
    calls++;
}

static void mark(void *bytes, size_t len)
{
    VALGRIND_MAKE_MEM_UNDEFINED(bytes, len);
}

/* Each byte must hold a marked bit, or none may. */
static void must_be(bool marked, const char *function, const uint8_t *bytes,
                    size_t len)
{
    uint8_t marks[LONGEST];
    (void)VALGRIND_GET_VBITS(bytes, marks, len);
    for (size_t i = 0; i < len; i++) {
        if ((marks[i] != 0) != marked) {
            printf("%s: byte %zu of the %zu that it wrote depends on %s "
                   "marked\n",
                   function, i, len, marked ? "nothing" : "something");
            failed = true;
        }
    }
}

static void must_be_marked(const char *function, const uint8_t *bytes,
                           size_t len)
{
    must_be(true, function, bytes, len);
}

/* ---- Functions over buffers ---- */

static uint8_t key[LONGEST], nonce[LONGEST], data[LONGEST], text[LONGEST];
static uint8_t ciphertext[LONGEST], tag[LONGEST], room[LONGEST];
/* Of a key stream: its start, and where the last one stopped. */
static uint64_t start, stopped;

/* Of a batch: the lengths that are listed and how many, its drawer, and the one
   that the last batch answered. */
#define LISTED (VESPRULDO_BATCH_MAX + 1)
static uint64_t listed[LISTED];
static size_t batch_cards;
static vespruldo_drawer batch_drawer, batch_next;

/* A card begins with the nonce and the text's length. */
static uint8_t card[LONGEST];
static uint8_t *const length_in_card = card + VESPRULDO_NONCE_BYTES;
#define LENGTH_BYTES 2
#define CARD_START (VESPRULDO_NONCE_BYTES + LENGTH_BYTES)

/* Where a card is opened, it is the text, and has its length. */
struct lengths {
    size_t key, nonce, data, text, tag, room;
};

struct function {
    const char *name;
    uint32_t (*call)(struct lengths n);
    const struct exception *when_done;
    /* What it writes that depends on the key: as many bytes as its room or,
       where it works in one buffer, as its text has; and a tag. */
    uint8_t *output;
    bool in_place, tags;
    /* Makes what it opens, where opening spoils that. */
    uint32_t (*before)(struct lengths n);
};

static uint32_t card_seal(struct lengths n)
{
    return vespruldo_card_seal(key, n.key, nonce, n.nonce, data, n.data, text,
                               n.text, card, n.room);
}

static uint32_t card_open(struct lengths n)
{
    return vespruldo_card_open(key, n.key, data, n.data, card, n.text, room,
                               n.room);
}

static uint32_t seal_in_place(struct lengths n)
{
    return vespruldo_seal_in_place(key, n.key, nonce, n.nonce, data, n.data,
                                   text, n.text, tag, n.tag);
}

static uint32_t open_in_place(struct lengths n)
{
    return vespruldo_open_in_place(key, n.key, nonce, n.nonce, data, n.data,
                                   text, n.text, tag, n.tag);
}

static uint32_t seal(struct lengths n)
{
    return vespruldo_seal(key, n.key, nonce, n.nonce, data, n.data, text,
                          n.text, ciphertext, n.room, tag, n.tag);
}

static uint32_t open_sealed(struct lengths n)
{
    return vespruldo_open(key, n.key, nonce, n.nonce, data, n.data, ciphertext,
                          n.text, tag, n.tag, room, n.room);
}

static uint32_t seal_short(struct lengths n)
{
    return vespruldo_seal_short(key, n.key, nonce, n.nonce, text, n.text,
                                ciphertext, n.room, tag, n.tag);
}

static uint32_t open_short(struct lengths n)
{
    return vespruldo_open_short(key, n.key, nonce, n.nonce, ciphertext, n.text,
                                tag, n.tag, room, n.room);
}

static uint32_t seal_batch(struct lengths n)
{
    vespruldo_batch batch = vespruldo_seal_batch(
        key, n.key, data, n.data, text, n.text, listed, batch_cards,
        batch_drawer, ciphertext, n.room, tag, n.tag);
    batch_next = batch.next;
    return batch.number;
}

static uint32_t gift_encipher(struct lengths n)
{
    return vespruldo_gift_encipher(key, n.key, text, n.text);
}

static uint32_t gift_decipher(struct lengths n)
{
    return vespruldo_gift_decipher(key, n.key, text, n.text);
}

static uint32_t chacha20(struct lengths n)
{
    vespruldo_streamed streamed = vespruldo_chacha20(
        key, n.key, nonce, n.nonce, start, text, n.text);
    stopped = streamed.next;
    return streamed.number;
}

static uint32_t blake2b(struct lengths n)
{
    return vespruldo_blake2b(key, n.key, text, n.text, room, n.room);
}

static uint32_t lioness_encipher(struct lengths n)
{
    return vespruldo_lioness_encipher(key, n.key, nonce, n.nonce, text, n.text);
}

static uint32_t lioness_decipher(struct lengths n)
{
    return vespruldo_lioness_decipher(key, n.key, nonce, n.nonce, text, n.text);
}

#define FUNCTION(name, exception, ...) \
    f_##name = {"vespruldo_" #name, name, &exception, __VA_ARGS__}
#define TO_ROOM(output) output, false, false, NULL
#define IN_PLACE text, true, false, NULL

static const struct function
    FUNCTION(card_seal, none, TO_ROOM(card)),
    FUNCTION(card_open, verdict, TO_ROOM(room)),
    FUNCTION(seal, none, ciphertext, false, true, NULL),
    f_open = {"vespruldo_open", open_sealed, &verdict, TO_ROOM(room)},
    FUNCTION(seal_short, none, ciphertext, false, true, NULL),
    FUNCTION(open_short, verdict, TO_ROOM(room)),
    FUNCTION(seal_in_place, none, text, true, true, NULL),
    FUNCTION(open_in_place, verdict, text, true, false, seal_in_place),
    FUNCTION(seal_batch, none, ciphertext, false, true, NULL),
    FUNCTION(gift_encipher, none, IN_PLACE),
    FUNCTION(gift_decipher, none, IN_PLACE),
    FUNCTION(chacha20, ending, IN_PLACE),
    FUNCTION(blake2b, none, TO_ROOM(room)),
    FUNCTION(lioness_encipher, none, IN_PLACE),
    FUNCTION(lioness_decipher, none, IN_PLACE);

static uint8_t *const buffers[] = {key,        nonce, data, text,
                                   ciphertext, tag,   room, card};

static void mark_all(void)
{
    for (size_t i = 0; i < COUNT(buffers); i++) {
        mark(buffers[i], LONGEST);
    }
    mark(&start, sizeof start);
    VALGRIND_MAKE_MEM_DEFINED(length_in_card, LENGTH_BYTES);
}

static void mark_only(uint8_t *bytes, size_t len)
{
    for (size_t i = 0; i < COUNT(buffers); i++) {
        VALGRIND_MAKE_MEM_DEFINED(buffers[i], LONGEST);
    }
    VALGRIND_MAKE_MEM_DEFINED(&start, sizeof start);
    mark(bytes, len);
}

static void check(const struct function *f, struct lengths n, uint32_t wanted,
                  const struct exception *allowed)
{
    mark_all();
    begin();
    end(f->name, f->call(n), wanted, allowed);
}

static void prepare(const struct function *f, struct lengths n)
{
    if (f->before != NULL) {
        (void)f->before(n);
    }
}

/* All that was written must be marked, but for what stands in a card before its
   ciphertext, which depends on no key. */
static void all_must_be_marked(const struct function *f, struct lengths n)
{
    size_t from = f->output == card ? CARD_START : 0;
    must_be_marked(f->name, f->output + from,
                   (f->in_place ? n.text : n.room) - from);
    if (f->tags) {
        must_be_marked(f->name, tag, n.tag);
    }
}

/* With the key alone marked, or the text where there is no key, all that is
   written must be marked: otherwise marks are lost on the way and the calls
   show nothing. A start counter that is not marked needs no exception. */
static void check_arrival(const struct function *f, struct lengths n)
{
    prepare(f, n);
    mark_only(n.key > 0 ? key : text, LONGEST);
    begin();
    end(f->name, f->call(n), VESPRULDO_DONE,
        f->when_done == &ending ? &none : f->when_done);
    all_must_be_marked(f, n);
}

static void check_done(const struct function *f, struct lengths n)
{
    prepare(f, n);
    check(f, n, VESPRULDO_DONE, f->when_done);
    check_arrival(f, n);
}

/* Opened with a wrong bit in the first byte of the tag that is here, then in
   its last: neither takes a jump more than the right tag. */
static void check_wrong_tags(const struct function *f, struct lengths n,
                             uint8_t *here)
{
    for (size_t j = 0; j < VESPRULDO_TAG_BYTES; j += VESPRULDO_TAG_BYTES - 1) {
        prepare(f, n);
        here[j] ^= 1;
        check(f, n, VESPRULDO_WRONG_TAG, &verdict);
        here[j] ^= 1;
    }
}

static void check_whole_cards(size_t data_len, size_t len)
{
    size_t card_len = len + VESPRULDO_CARD_EXTRA;
    struct lengths sealed = {.key = VESPRULDO_KEY_BYTES,
                             .nonce = VESPRULDO_NONCE_BYTES,
                             .data = data_len,
                             .text = len,
                             .room = card_len};
    struct lengths opened = {.key = VESPRULDO_KEY_BYTES,
                             .data = data_len,
                             .text = card_len,
                             .room = len};
    check_done(&f_card_seal, sealed);
    check_done(&f_card_open, opened);
    check_wrong_tags(&f_card_open, opened,
                     card + card_len - VESPRULDO_TAG_BYTES);
}

static void check_cards(size_t data_len, size_t len)
{
    struct lengths n = {VESPRULDO_KEY_BYTES, VESPRULDO_NONCE_BYTES, data_len,
                        len, VESPRULDO_TAG_BYTES, len};
    check_done(&f_seal, n);
    check_done(&f_open, n);
    check_wrong_tags(&f_open, n, tag);
    check_done(&f_seal_short, n);
    check_done(&f_open_short, n);
    check_wrong_tags(&f_open_short, n, tag);
    check_done(&f_seal_in_place, n);
    check_done(&f_open_in_place, n);
    check_wrong_tags(&f_open_in_place, n, tag);
    check_whole_cards(data_len, len);
}

/* Where a key stream stops is told by its start and lengths alone: with all
   else marked, no bit of that is. Whoever keeps it gives nothing else away. */
static void check_stopped(struct lengths n, uint32_t wanted, uint64_t next)
{
    mark_all();
    VALGRIND_MAKE_MEM_DEFINED(&start, sizeof start);
    begin();
    uint32_t number = chacha20(n);
    (void)VALGRIND_CHECK_MEM_IS_DEFINED(&stopped, sizeof stopped);
    end(f_chacha20.name, number, wanted, &none);
    VALGRIND_MAKE_MEM_DEFINED(&stopped, sizeof stopped);
    if (stopped != next) {
        printf("%s: stopped at another counter\n", f_chacha20.name);
        failed = true;
    }
}

static void check_others(size_t len)
{
    struct lengths stream = {.key = VESPRULDO_CHACHA20_KEY_BYTES,
                             .nonce = VESPRULDO_CHACHA20_NONCE_BYTES,
                             .text = len};
    start = 7;
    check_done(&f_chacha20, stream);
    check_stopped(stream, VESPRULDO_DONE, start + (len + 63) / 64);

    struct lengths digest = {
        .key = 44, .text = len, .room = VESPRULDO_BLAKE2B_DIGEST_MAX};
    check_done(&f_blake2b, digest);
    struct lengths shorter = {
        .key = VESPRULDO_BLAKE2B_KEY_MAX, .text = len, .room = 33};
    check_done(&f_blake2b, shorter);
    struct lengths without_key = {.text = len + 1,
                                  .room = VESPRULDO_BLAKE2B_DIGEST_MAX};
    check_done(&f_blake2b, without_key);

    struct lengths wide = {
        .key = VESPRULDO_LIONESS_KEY_BYTES,
        .nonce = VESPRULDO_LIONESS_IV_BYTES,
        .text = VESPRULDO_LIONESS_BLOCK_MIN + len,
    };
    check_done(&f_lioness_encipher, wide);
    check_done(&f_lioness_decipher, wide);
}

/* Lengths round the borders of GIFT-128's blocks and halves, and of those of
   ChaCha20 and BLAKE2b. */
static void check_buffers(void)
{
    static const size_t lens[] = {0,  1,  7,  8,  9,  15,  16,  17,  31,  32,
                                  33, 48, 63, 64, 65, 127, 128, 129, 256, 257};
    static const size_t data_lens[] = {0, 1, 8, 15, 16, 17, 40};
    for (size_t i = 0; i < COUNT(lens); i++) {
        for (size_t j = 0; j < COUNT(data_lens); j++) {
            check_cards(data_lens[j], lens[i]);
        }
        check_others(lens[i]);
    }
    struct lengths block = {.key = VESPRULDO_KEY_BYTES,
                            .text = VESPRULDO_GIFT_BLOCK_BYTES};
    check_done(&f_gift_encipher, block);
    check_done(&f_gift_decipher, block);
}

/* Refused for a length: nothing marked is looked at. No byte is read or written
   then but the length in a card, so the lengths given may be untrue. */
static void check_refusals(void)
{
    static const struct {
        const struct function *function;
        struct lengths n;
        uint32_t number;
    } cases[] = {
        {&f_seal, {15, 12, 9, 20, 16, 20}, 1},
        {&f_seal, {16, 13, 9, 20, 16, 20}, 2},
        {&f_seal, {16, 12, 65537, 20, 16, 20}, 3},
        {&f_seal, {16, 12, 9, 1048577, 16, 20}, 4},
        {&f_seal, {16, 12, 9, 20, 15, 20}, 5},
        {&f_seal, {16, 12, 9, 20, 16, 19}, 6},
        {&f_open, {15, 12, 9, 20, 16, 20}, 1},
        {&f_open, {16, 13, 9, 20, 16, 20}, 2},
        {&f_open, {16, 12, 65537, 20, 16, 20}, 3},
        {&f_open, {16, 12, 9, 1048577, 16, 20}, 4},
        {&f_open, {16, 12, 9, 20, 15, 20}, 5},
        {&f_open, {16, 12, 9, 20, 16, 19}, 6},
        {&f_seal_short, {0, 12, 0, 20, 16, 20}, 1},
        {&f_seal_short, {16, 12, 0, 20, 16, 19}, 6},
        {&f_open_short, {0, 12, 0, 20, 16, 20}, 1},
        {&f_open_short, {16, 12, 0, 20, 16, 19}, 6},
        {&f_seal_in_place, {15, 12, 9, 20, 16, 0}, 1},
        {&f_seal_in_place, {16, 13, 9, 20, 16, 0}, 2},
        {&f_seal_in_place, {16, 12, 65537, 20, 16, 0}, 3},
        {&f_seal_in_place, {16, 12, 9, 1048577, 16, 0}, 4},
        {&f_seal_in_place, {16, 12, 9, 20, 15, 0}, 5},
        {&f_open_in_place, {15, 12, 9, 20, 16, 0}, 1},
        {&f_open_in_place, {16, 12, 9, 1048577, 16, 0}, 4},
        {&f_open_in_place, {16, 12, 9, 20, 15, 0}, 5},
        {&f_card_seal, {15, 12, 9, 20, 0, 50}, 1},
        {&f_card_seal, {16, 13, 9, 20, 0, 50}, 2},
        {&f_card_seal, {16, 12, 65537, 20, 0, 50}, 3},
        {&f_card_seal, {16, 12, 9, 65536, 0, 65566}, 4},
        {&f_card_seal, {16, 12, 9, 20, 0, 49}, 6},
        {&f_card_open, {15, 0, 9, 50, 0, 20}, 1},
        {&f_card_open, {16, 0, 65537, 50, 0, 20}, 3},
        {&f_card_open, {16, 0, 9, 49, 0, 20}, 12},
        {&f_card_open, {16, 0, 9, 13, 0, 20}, 12},
        {&f_card_open, {16, 0, 9, 51, 0, 20}, 15},
        {&f_card_open, {16, 0, 9, 50, 0, 19}, 6},
        {&f_gift_encipher, {.key = 17, .text = 16}, 1},
        {&f_gift_decipher, {.key = 16, .text = 17}, 4},
        {&f_chacha20, {.key = 31, .nonce = 12, .text = 20}, 1},
        {&f_chacha20, {.key = 32, .nonce = 11, .text = 20}, 2},
        {&f_chacha20, {.key = 32, .nonce = 12, .text = 1048577}, 4},
        {&f_blake2b, {.key = 65, .text = 20, .room = 64}, 1},
        {&f_blake2b, {.key = 64, .text = 1048577, .room = 64}, 4},
        {&f_blake2b, {.key = 64, .text = 20, .room = 65}, 6},
        {&f_lioness_encipher, {.key = 127, .nonce = 48, .text = 64}, 1},
        {&f_lioness_encipher, {.key = 128, .nonce = 47, .text = 64}, 2},
        {&f_lioness_decipher, {.key = 128, .nonce = 48, .text = 32}, 4},
    };
    length_in_card[0] = 20;
    length_in_card[1] = 0;
    for (size_t i = 0; i < COUNT(cases); i++) {
        check(cases[i].function, cases[i].n, cases[i].number, &none);
    }
}

/* Round the end of the counters, and far behind it: whether it is done or
   refused, each call has the one place that depends on the start. */
static void check_endings(void)
{
    static const struct {
        uint64_t start;
        size_t len;
        uint32_t number;
    } cases[] = {
        {UINT32_MAX, 64, 0},
        {UINT32_MAX, 65, 8},
        {(uint64_t)UINT32_MAX + 1, 0, 0},
        {(uint64_t)UINT32_MAX + 1, 1, 8},
        {(uint64_t)UINT32_MAX + 2, 0, 8},
        {(uint64_t)UINT32_MAX + 2, 65, 8},
        {UINT64_MAX, 0, 8},
        {UINT64_MAX, 1, 8},
    };
    for (size_t i = 0; i < COUNT(cases); i++) {
        struct lengths n = {.key = 32, .nonce = 12, .text = cases[i].len};
        uint64_t blocks = (cases[i].len + 63) / 64;
        start = cases[i].start;
        check(&f_chacha20, n, cases[i].number, &ending);
        check_stopped(n, cases[i].number,
                      cases[i].start + (cases[i].number == 0 ? blocks : 0));
    }
}

/* ---- Batches ---- */

/* What a batch draws is told by its drawer and lengths alone: with all else
   marked, no bit of the next drawer is. */
static void check_batch(struct lengths n, uint32_t wanted)
{
    mark_all();
    begin();
    uint32_t number = seal_batch(n);
    (void)VALGRIND_CHECK_MEM_IS_DEFINED(&batch_next.reader,
                                        sizeof batch_next.reader);
    (void)VALGRIND_CHECK_MEM_IS_DEFINED(&batch_next.count,
                                        sizeof batch_next.count);
    end(f_seal_batch.name, number, wanted, &none);
}

/* With its drawer marked too, a batch asks whether all its draws remain. No draw
   asks again: the compiler sees that it need not. */
static void check_draws_of(struct lengths n, uint32_t wanted)
{
    mark_all();
    mark(&batch_drawer.reader, sizeof batch_drawer.reader);
    mark(&batch_drawer.count, sizeof batch_drawer.count);
    begin();
    end(f_seal_batch.name, seal_batch(n), wanted, &spent);
    VALGRIND_MAKE_MEM_DEFINED(&batch_drawer, sizeof batch_drawer);
}

/* With the text of one card alone marked, that card is, and no other. */
static void check_apart(struct lengths n, size_t marked)
{
    size_t at = 0;
    for (size_t i = 0; i < marked; i++) {
        at += (size_t)listed[i];
    }
    mark_only(text + at, (size_t)listed[marked]);
    begin();
    end(f_seal_batch.name, seal_batch(n), VESPRULDO_DONE, &none);
    at = 0;
    for (size_t i = 0; i < batch_cards; i++) {
        size_t len = (size_t)listed[i];
        bool own = i == marked && len > 0;
        must_be(own, f_seal_batch.name, ciphertext + at, len);
        must_be(own, f_seal_batch.name, tag + VESPRULDO_TAG_BYTES * i,
                VESPRULDO_TAG_BYTES);
        at += len;
    }
}

static void check_batch_done(size_t data_len)
{
    struct lengths n = {.key = VESPRULDO_KEY_BYTES, .data = data_len,
                        .tag = VESPRULDO_TAG_BYTES * batch_cards};
    for (size_t i = 0; i < batch_cards; i++) {
        n.text += (size_t)listed[i];
    }
    n.room = n.text;
    check_batch(n, VESPRULDO_DONE);
    check_arrival(&f_seal_batch, n);
    check_draws_of(n, VESPRULDO_DONE);
    for (size_t i = 0; i < batch_cards; i++) {
        check_apart(n, i);
    }
    batch_drawer.count = UINT64_MAX - batch_cards + 1;
    check_batch(n, VESPRULDO_DRAWER_SPENT);
    check_draws_of(n, VESPRULDO_DRAWER_SPENT);
    batch_drawer.count = 5;
}

/* Lengths round the borders of blocks and halves, and empty texts too. */
static void check_batches(void)
{
    static const struct {
        size_t cards;
        uint64_t listed[VESPRULDO_BATCH_MAX];
    } batches[] = {
        {1, {0}},
        {1, {17}},
        {2, {0, 0}},
        {3, {16, 0, 33}},
        {4, {5, 64, 8, 1}},
        {12, {0, 1, 7, 8, 9, 15, 16, 17, 31, 32, 33, 48}},
        {12, {0}},
    };
    static const size_t data_lens[] = {0, 1, 16, 17};
    batch_drawer = vespruldo_drawer_start(7, 5);
    for (size_t i = 0; i < COUNT(batches); i++) {
        batch_cards = batches[i].cards;
        memcpy(listed, batches[i].listed, sizeof batches[i].listed);
        for (size_t j = 0; j < COUNT(data_lens); j++) {
            check_batch_done(data_lens[j]);
        }
    }
}

/* Refused: nothing marked is looked at. A text is of 8 bytes, the second of so
   many, and others are empty. */
static void check_refused_batches(void)
{
    static const struct {
        struct lengths n;
        size_t cards;
        uint64_t second;
        uint32_t number;
    } cases[] = {
        {{15, 0, 9, 20, 32, 20}, 2, 12, 1},
        {{16, 0, 65537, 20, 32, 20}, 2, 12, 3},
        {{16, 0, 9, 20, 32, 20}, 2, 1048577, 4},
        {{16, 0, 9, 20, 208, 20}, 13, UINT64_MAX, 4},
        {{16, 0, 9, 20, 31, 20}, 2, 12, 5},
        {{16, 0, 9, 20, 32, 19}, 2, 12, 6},
        {{16, 0, 9, 20, 32, 20}, 2, 11, 18},
        {{16, 0, 9, 20, 32, 20}, 2, 13, 18},
        {{16, 0, 9, 20, 208, 20}, 13, 12, 18},
        {{16, 0, 9, 0, 0, 20}, 0, 0, 18},
    };
    memset(listed, 0, sizeof listed);
    listed[0] = 8;
    for (size_t i = 0; i < COUNT(cases); i++) {
        listed[1] = cases[i].second;
        batch_cards = cases[i].cards;
        check_batch(cases[i].n, cases[i].number);
    }
}

/* ---- Comparing ---- */

static void check_same(size_t len, size_t other_len, uint32_t wanted,
                       const struct exception *allowed)
{
    mark_all();
    begin();
    end("vespruldo_same", vespruldo_same(text, len, room, other_len), wanted,
        allowed);
}

/* The same bytes, and then other ones in the first place, in the last, and in
   all: each takes the same jumps. */
static void check_comparing(void)
{
    static const size_t lens[] = {1, 2, 15, 16, 17, 32, 64, 65, 257};
    for (size_t i = 0; i < COUNT(lens); i++) {
        size_t len = lens[i];
        memcpy(room, text, LONGEST);
        check_same(len, len, 1, &equal);
        for (size_t j = 0; j < len; j += len > 1 ? len - 1 : 1) {
            room[j] ^= 0x80;
            check_same(len, len, 0, &equal);
            room[j] ^= 0x80;
        }
        check_same(len, len - 1, 0, &none);
        check_same(len, len + 1, 0, &none);
    }
    check_same(0, 0, 1, &none);
}

/* ---- Drawers and key books ---- */

static void check_load(uint8_t *bytes, size_t len, uint32_t wanted,
                       const struct exception *allowed)
{
    mark(bytes, VESPRULDO_DRAWER_BYTES);
    begin();
    end("vespruldo_drawer_load", vespruldo_drawer_load(bytes, len).number,
        wanted, allowed);
}

/* Loaded as it was stored, and with a wrong bit in each of its parts. */
static void check_stored(vespruldo_drawer drawer)
{
    begin();
    vespruldo_stored stored = vespruldo_drawer_store(drawer);
    end("vespruldo_drawer_store", VESPRULDO_DONE, VESPRULDO_DONE, &none);
    must_be_marked("vespruldo_drawer_store", stored.bytes, sizeof stored.bytes);
    static const size_t places[] = {0, 4, 12, 43};
    check_load(stored.bytes, sizeof stored.bytes, VESPRULDO_DONE, &damage);
    for (size_t i = 0; i < COUNT(places); i++) {
        stored.bytes[places[i]] ^= 1;
        check_load(stored.bytes, sizeof stored.bytes, VESPRULDO_DRAWER_DAMAGED,
                   &damage);
        stored.bytes[places[i]] ^= 1;
    }
    check_load(stored.bytes, sizeof stored.bytes - 1, VESPRULDO_DRAWER_DAMAGED,
               &none);
}

static void check_draws(uint64_t count, uint32_t wanted)
{
    uint32_t reader = 7;
    mark(&reader, sizeof reader);
    mark(&count, sizeof count);
    begin();
    vespruldo_drawer drawer = vespruldo_drawer_start(reader, count);
    end("vespruldo_drawer_start", VESPRULDO_DONE, VESPRULDO_DONE, &none);
    begin();
    end("vespruldo_drawer_draw", vespruldo_drawer_draw(drawer).number, wanted,
        &spent);
    begin();
    end("vespruldo_drawer_iv", vespruldo_drawer_iv(drawer).number, wanted,
        &spent);
    check_stored(drawer);
}

#define ENTRIES 3
#define ENTRY (2 + VESPRULDO_KEY_BYTES)
#define BOOK (2 + ENTRIES * ENTRY)

static void make_book(uint8_t book[BOOK], uint8_t first_class)
{
    memset(book, 0, BOOK);
    book[0] = ENTRIES;
    for (size_t i = 0; i < ENTRIES; i++) {
        uint8_t *entry = book + 2 + i * ENTRY;
        entry[0] = (uint8_t)(first_class + i);
        mark(entry + 2, VESPRULDO_KEY_BYTES);
    }
}

/* This term's book has the classes 1 to 3, last term's 2 to 4. */
static void check_books(void)
{
    uint8_t this_term[BOOK];
    uint8_t last_term[BOOK];
    make_book(this_term, 1);
    make_book(last_term, 2);
    for (uint16_t class_number = 0; class_number < 6; class_number++) {
        uint32_t wanted = 1 <= class_number && class_number <= 4
                              ? VESPRULDO_DONE
                              : VESPRULDO_CLASS_MISSING;
        begin();
        vespruldo_found found =
            vespruldo_key_find(this_term, BOOK, last_term, BOOK, class_number);
        end("vespruldo_key_find", found.number, wanted, &none);
    }
    begin();
    vespruldo_found found =
        vespruldo_key_find(this_term, BOOK, last_term, BOOK - 1, 1);
    end("vespruldo_key_find", found.number, VESPRULDO_BOOK_FORM, &none);
}

/* ---- Lesson packs ---- */

/* Two words of three bytes, a song of five, and the shuffle. */
enum { WORD_AT = 2, OTHER_AT = 6, SONG_AT = 12, ENTRIES_AT = 18, PACK = 20 };

/* With a byte behind it, to be left over. */
static void make_pack(uint8_t pack[PACK + 1])
{
    static const uint8_t bytes[PACK + 1] = {
        [0] = 2, [WORD_AT - 1] = 3, [OTHER_AT - 1] = 3, [SONG_AT - 3] = 1,
        [SONG_AT - 2] = 5, [ENTRIES_AT - 1] = 2, [ENTRIES_AT] = 1,
    };
    memcpy(pack, bytes, sizeof bytes);
    mark(pack + WORD_AT, 3);
    mark(pack + OTHER_AT, 3);
    mark(pack + SONG_AT, 5);
}

/* At every place, that behind the last card too, and as a whole: no part of an
   answer is marked. */
static void check_pack(const uint8_t *pack, size_t len, size_t cards,
                       uint32_t number)
{
    for (size_t place = 0; place <= cards; place++) {
        begin();
        vespruldo_pack_card card = vespruldo_pack_next(pack, len, place);
        (void)VALGRIND_CHECK_MEM_IS_DEFINED(&card, sizeof card);
        end("vespruldo_pack_next", card.number,
            place < cards ? VESPRULDO_DONE : number, &none);
    }
    begin();
    vespruldo_pack_judged judged = vespruldo_pack_judge(pack, len);
    (void)VALGRIND_CHECK_MEM_IS_DEFINED(&judged.cards, sizeof judged.cards);
    (void)VALGRIND_CHECK_MEM_IS_DEFINED(&judged.bad, sizeof judged.bad);
    end("vespruldo_pack_judge", judged.number, number, &none);
}

static void check_packs(void)
{
    uint8_t pack[PACK + 1];
    make_pack(pack);
    check_pack(pack, PACK, 4, VESPRULDO_DONE);
    check_pack(pack, SONG_AT, 2, VESPRULDO_CUT_SHORT);
    check_pack(pack, PACK - 1, 3, VESPRULDO_CUT_SHORT);
    check_pack(pack, PACK + 1, 4, VESPRULDO_LEFT_OVER);
    pack[ENTRIES_AT] = 0;
    check_pack(pack, PACK, 3, VESPRULDO_BAD_SHUFFLE);
    pack[SONG_AT - 3] = 2;
    check_pack(pack, PACK, 2, VESPRULDO_COUNT_OR_LENGTH);
}

/* ---- What is given nothing ---- */

static void check_version(void)
{
    begin();
    end("vespruldo_version", vespruldo_version(), VESPRULDO_VERSION, &none);
    begin();
    end("vespruldo_interface_2", vespruldo_interface_2(), VESPRULDO_INTERFACE,
        &none);
}

/* ---- That leaks are found ---- */

static void step(void)
{
    calls++;
}

static void jump_on(const uint8_t *secret)
{
    if (secret[0] & 1) {
        step();
    }
}

static void index_by(const uint8_t *secret)
{
    static volatile uint8_t table[256];
    (void)table[secret[0]];
}

static void must_be_found(const char *leak, void (*leaky)(const uint8_t *))
{
    mark(key, sizeof key);
    begin();
    leaky(key);
    if (VALGRIND_COUNT_ERRORS == errors_before) {
        printf("%s was not found\n", leak);
        failed = true;
    }
}

int main(void)
{
    if (!RUNNING_ON_VALGRIND) {
        printf("to be run under valgrind\n");
        return 2;
    }
    must_be_found("a jump on a marked bit", jump_on);
    must_be_found("an address made from marked bits", index_by);
    calls = 0;
    check_buffers();
    check_refusals();
    check_endings();
    check_batches();
    check_refused_batches();
    check_comparing();
    check_draws(5, VESPRULDO_DONE);
    check_draws(UINT64_MAX, VESPRULDO_DRAWER_SPENT);
    check_books();
    check_packs();
    check_version();
    printf("constant time: %lu calls%s\n", calls,
           failed ? ", not all as they should be" : "");
    return failed ? 1 : 0;
}
