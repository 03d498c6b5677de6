/* Batches that were worked out by hand from document 02, K3, so that a function
   that only agrees with our own arithmetic does not pass. */

#include <inttypes.h>
#include <string.h>

#include "batches.h"
#include "cases.h"

#define MOST_LISTED 13
#define MANY 5000
/* The longest text. */
#define MIB 1048576
/* As many draws as there can be. */
#define PLENTY UINT64_MAX
#define COUNT(array) (sizeof(array) / sizeof *(array))

static void check_number(struct thread *thread, const struct batch *batch,
                         uint32_t right)
{
    uint32_t number = check_batch(thread, batch);
    if (number != right) {
        fail(thread,
             "%zu cards, text %zu, room %zu, tags %zu, %" PRIu64
             " draws: answered %" PRIu32 ", worked out %" PRIu32,
             batch->cards, batch->text_len, batch->room_len, batch->tags_len,
             batch->draws, number, right);
    }
}

/* ---- One by one ---- */

/* So many of these lengths; how long texts, room and tags are; the draws that
   remain; and the number that is answered. */
struct worked {
    size_t cards;
    uint64_t lengths[MOST_LISTED];
    size_t text_len, room_len, tags_len;
    uint64_t draws;
    uint32_t number;
};

static const struct worked table[] = {
    /* "1 to 12 texts end to end with a list of their lengths". */
    {1, {0}, 0, 0, 16, 1, 0},
    {1, {5}, 5, 5, 16, 1, 0},
    {1, {17}, 17, 60, 16, PLENTY, 0},
    {2, {0, 0}, 0, 0, 32, 2, 0},
    {2, {0, 0}, 0, 3, 32, 2, 0},
    {2, {5, 0}, 5, 5, 32, 2, 0},
    {2, {0, 5}, 5, 5, 32, 2, 0},
    {3, {0, 5, 0}, 5, 9, 48, 3, 0},
    {3, {16, 0, 17}, 33, 33, 48, 3, 0},
    {3, {3, 2, 1}, 6, 6, 48, 4, 0},
    {12, {0}, 0, 0, 192, 12, 0},
    {12, {0, 1, 2, 3, 4, 5, 6, 7, 8, 9, 10, 11}, 66, 67, 192, 13, 0},
    {12, {9, 9, 9, 9, 9, 9, 9, 9, 9, 9, 9, 9}, 108, 108, 192, 12, 0},
    /* "4 for any single length above 1,048,576", wherever it stands. */
    {1, {MIB}, 0, 0, 16, 1, 18},
    {1, {MIB + 1}, 0, 0, 16, 1, 4},
    {1, {MIB + 1}, MIB + 1, MIB + 1, 16, 1, 4},
    {2, {MIB + 1, 5}, 5, 5, 32, 2, 4},
    {2, {5, MIB + 1}, 5, 5, 32, 2, 4},
    {12, {[11] = MIB + 1}, 0, 0, 192, 12, 4},
    {13, {[12] = MIB + 1}, 0, 0, 208, 13, 4},
    {13, {[12] = UINT64_MAX}, 0, 0, 208, 13, 4},
    {1, {0x100000000}, 0, 0, 16, 1, 4},
    {1, {0x100000005}, 5, 5, 16, 1, 4},
    {1, {0x8000000000000000}, 0, 0, 16, 1, 4},
    {1, {0x8000000000000005}, 5, 5, 16, 1, 4},
    {1, {UINT64_MAX}, 5, 5, 16, 1, 4},
    /* The sum goes round to the text's. */
    {2, {UINT64_MAX, 1}, 0, 0, 32, 2, 4},
    {2, {UINT64_MAX, 6}, 5, 5, 32, 2, 4},
    {2, {6, UINT64_MAX}, 5, 5, 32, 2, 4},
    {2, {0x8000000000000000, 0x8000000000000000}, 0, 0, 32, 2, 4},
    /* "never for the whole text". */
    {2, {MIB, 1}, MIB + 1, MIB + 1, 31, 2, 5},
    {2, {MIB, 1}, MIB + 1, MIB, 32, 2, 6},
    {2, {MIB, 1}, MIB + 1, MIB + 1, 32, 1, 9},
    {2, {MIB, 2}, MIB + 1, MIB + 1, 32, 2, 18},
    {1, {5}, MIB + 1, MIB + 1, 16, 1, 18},
    {0, {0}, MIB + 1, MIB + 1, 0, 0, 18},
    /* "5 when the tag room isn't 16 bytes for each length listed". */
    {0, {0}, 0, 0, 1, 0, 5},
    {0, {0}, 0, 0, 16, 0, 5},
    {1, {5}, 5, 5, 0, 1, 5},
    {1, {5}, 5, 5, 15, 1, 5},
    {1, {5}, 5, 5, 17, 1, 5},
    {1, {5}, 5, 5, 32, 1, 5},
    {2, {5, 0}, 5, 5, 16, 2, 5},
    {2, {5, 0}, 5, 5, 31, 2, 5},
    {2, {5, 0}, 5, 5, 33, 2, 5},
    {2, {5, 0}, 5, 5, 48, 2, 5},
    {12, {5}, 5, 5, 16, 12, 5},
    {12, {5}, 5, 5, 176, 12, 5},
    {12, {5}, 5, 5, 191, 12, 5},
    {12, {5}, 5, 5, 193, 12, 5},
    {12, {5}, 5, 5, 208, 12, 5},
    {13, {5}, 5, 5, 192, 13, 5},
    {13, {5}, 5, 5, 207, 13, 5},
    {13, {5}, 5, 5, 209, 13, 5},
    /* "6 when the room is shorter than the whole text", and not than what the
       lengths add up to. */
    {0, {0}, 1, 0, 0, 0, 6},
    {1, {5}, 5, 0, 16, 1, 6},
    {1, {5}, 5, 4, 16, 1, 6},
    {1, {5}, 6, 5, 16, 1, 6},
    {1, {5}, 4, 4, 16, 1, 18},
    {2, {3, 3}, 6, 3, 32, 2, 6},
    {2, {3, 3}, 6, 5, 32, 2, 6},
    {13, {3, 3}, 6, 5, 208, 13, 6},
    /* "18 ... when there are no cards, more than 12, or lengths that don't add
       up to the text". */
    {0, {0}, 0, 0, 0, 0, 18},
    {0, {0}, 0, 5, 0, PLENTY, 18},
    {0, {0}, 5, 5, 0, 1, 18},
    {13, {0}, 0, 0, 208, 13, 18},
    {13, {1, 1, 1, 1, 1, 1, 1, 1, 1, 1, 1, 1, 1}, 13, 13, 208, PLENTY, 18},
    /* Twelve of them add up. */
    {13, {1, 1, 1, 1, 1, 1, 1, 1, 1, 1, 1, 1, 1}, 12, 12, 208, PLENTY, 18},
    {1, {0}, 1, 1, 16, 1, 18},
    {1, {1}, 0, 0, 16, 1, 18},
    {1, {5}, 6, 6, 16, 1, 18},
    {1, {5}, 4, 9, 16, 1, 18},
    {2, {3, 3}, 3, 6, 32, 2, 18},
    {2, {3, 3}, 5, 6, 32, 2, 18},
    {2, {3, 3}, 7, 7, 32, 2, 18},
    {12, {[11] = 5}, 4, 5, 192, 12, 18},
    {12, {[11] = 5}, 6, 6, 192, 12, 18},
};

static void check_table(struct thread *thread)
{
    for (size_t i = 0; i < COUNT(table); i++) {
        const struct worked *row = &table[i];
        const struct batch batch = {16, 3, row->text_len, row->room_len,
                                    row->tags_len, row->lengths, row->cards,
                                    row->draws};
        check_number(thread, &batch, row->number);
    }
}

/* ---- Draws ---- */

/* "9 here exactly when fewer draws remain than lengths listed, so never for no
   cards": what batches of so many cards answer with each of these draws. */
static const uint64_t draws[] = {0, 1, 2, 11, 12, 13, PLENTY};
static const struct {
    size_t cards;
    uint32_t numbers[COUNT(draws)];
} drawing[] = {
    {0, {18, 18, 18, 18, 18, 18, 18}},
    {1, {9, 0, 0, 0, 0, 0, 0}},
    {2, {9, 9, 0, 0, 0, 0, 0}},
    {11, {9, 9, 9, 0, 0, 0, 0}},
    {12, {9, 9, 9, 9, 0, 0, 0}},
    {13, {9, 9, 9, 9, 9, 18, 18}},
};

static void check_draws(struct thread *thread)
{
    static const uint64_t lengths[MOST_LISTED] = {0, 3, [10] = 2, [12] = 1};
    for (size_t i = 0; i < COUNT(drawing); i++) {
        for (size_t j = 0; j < COUNT(draws); j++) {
            struct batch batch = right_batch(lengths, drawing[i].cards);
            batch.draws = draws[j];
            check_number(thread, &batch, drawing[i].numbers[j]);
        }
    }
}

/* ---- Key and data ---- */

static void check_keys(struct thread *thread)
{
    static const size_t wrong[] = {0, 1, 15, 17, 32, 128};
    static const uint64_t lengths[] = {5};
    struct batch batch = right_batch(lengths, 1);
    for (size_t i = 0; i < COUNT(wrong); i++) {
        batch.key_len = wrong[i];
        check_number(thread, &batch, 1);
    }
}

/* As long as is allowed, and a byte longer. No draw remains: to seal under so
   much takes long. */
static void check_data(struct thread *thread)
{
    static const uint64_t lengths[] = {5};
    struct batch batch = right_batch(lengths, 1);
    batch.draws = 0;
    batch.data_len = 65536;
    check_number(thread, &batch, 9);
    batch.data_len = 65537;
    check_number(thread, &batch, 3);
}

/* ---- All at once ---- */

static void wrong_key(struct batch *batch, uint64_t *lengths)
{
    (void)lengths;
    batch->key_len = 15;
}

static void long_data(struct batch *batch, uint64_t *lengths)
{
    (void)lengths;
    batch->data_len = 65537;
}

static void long_card(struct batch *batch, uint64_t *lengths)
{
    lengths[batch->cards - 1] = MIB + 1;
}

static void wrong_tags(struct batch *batch, uint64_t *lengths)
{
    (void)lengths;
    batch->tags_len--;
}

static void short_room(struct batch *batch, uint64_t *lengths)
{
    (void)lengths;
    batch->room_len--;
}

static void few_draws(struct batch *batch, uint64_t *lengths)
{
    (void)lengths;
    batch->draws--;
}

static void wrong_sum(struct batch *batch, uint64_t *lengths)
{
    (void)lengths;
    batch->text_len++;
    batch->room_len++;
}

/* "the smallest number is given", and "18, last in order", is the greatest. */
static const struct {
    uint32_t number;
    void (*make)(struct batch *batch, uint64_t *lengths);
} mistakes[] = {{1, wrong_key},  {3, long_data}, {4, long_card},
                {5, wrong_tags}, {6, short_room}, {9, few_draws},
                {18, wrong_sum}};

/* Makes those mistakes whose bit is set; the first of them tells the number. */
static void check_mistakes(struct thread *thread, const uint64_t *right,
                           size_t cards, unsigned bits)
{
    uint64_t lengths[MOST_LISTED];
    uint32_t number = 0;
    memcpy(lengths, right, cards * sizeof *lengths);
    struct batch batch = right_batch(lengths, cards);
    for (size_t m = COUNT(mistakes); m-- > 0;) {
        if (bits >> m & 1) {
            mistakes[m].make(&batch, lengths);
            number = mistakes[m].number;
        }
    }
    check_number(thread, &batch, number);
}

static void check_all_mistakes(struct thread *thread)
{
    static const uint64_t right[12] = {7, [3] = 16, [11] = 1};
    static const size_t cards[] = {1, 2, 12};
    for (size_t i = 0; i < COUNT(cards); i++) {
        for (unsigned bits = 0; bits < 1u << COUNT(mistakes); bits++) {
            check_mistakes(thread, right, cards[i], bits);
        }
    }
}

/* ---- Beyond twelve ---- */

/* 4 looks at every listed length, 5 and 9 count every one. */
static void check_many(struct thread *thread)
{
    static const uint64_t lengths[MANY] = {0};
    struct batch batch = {16, 0, 0, 0, 16 * MANY, lengths, MANY, MANY};
    check_number(thread, &batch, 18);
    batch.draws = MANY - 1;
    check_number(thread, &batch, 9);
    batch.draws = 12;
    check_number(thread, &batch, 9);
    batch.text_len = 1;
    check_number(thread, &batch, 6);
    batch.tags_len = 16 * MANY - 16;
    check_number(thread, &batch, 5);
    batch.tags_len = 16 * 12;
    check_number(thread, &batch, 5);

    static const uint64_t long_last[MANY] = {[MANY - 1] = MIB + 1};
    batch.lengths = long_last;
    check_number(thread, &batch, 4);
}

void check_worked_batches(struct thread *thread)
{
    check_table(thread);
    check_draws(thread);
    check_keys(thread);
    check_data(thread);
    check_all_mistakes(thread);
    check_many(thread);
}
