/* Lesson packs that were worked out by hand from document 02, so that functions
   that only agree with our own walk do not pass. */

#include <string.h>

#include "cases.h"
#include "packs.h"

/* Digits, behind them so many bytes, as of a long word or song, and then other
   digits. */
struct worked {
    const char *first;
    size_t more;
    const char *last;
    uint32_t number;
    size_t cards, bad;
};

/* The longest that is told and is there: a song whose length is all ones. */
#define LONGEST (16 + 65535)

#define CAT "01" "03636174"
#define THREE "03" "0161" "026263" "0164" "00"

static const struct worked table[] = {
    /* "The bytes 01 03 63 61 74 00 01 00 are a pack with one word, no song." */
    {CAT "00" "0100", 0, "", 0, 2, 0},
    /* "A byte counts the words, 1 to 12". */
    {"", 0, "", 12, 0, 0},
    {"00", 0, "", 13, 0, 0},
    {"01", 0, "", 12, 0, 0},
    {"0c", 0, "", 12, 0, 0},
    {"0d", 0, "", 13, 0, 0},
    {"ff", 300, "", 13, 0, 0},
    /* "each is a length byte, 1 to 40, and its bytes", 12 before 13. */
    {"0100", 0, "", 13, 0, 0},
    {"0101", 0, "", 12, 0, 0},
    {"0101", 1, "00" "0100", 0, 2, 0},
    {"0128", 39, "", 12, 0, 0},
    {"0128", 40, "", 12, 1, 0},
    {"0128", 40, "00" "0100", 0, 2, 0},
    {"0129", 1, "", 12, 0, 0},
    {"0129", 40, "", 12, 0, 0},
    {"0129", 41, "", 13, 0, 0},
    {"0129", 41, "00" "0100", 13, 0, 0},
    {"01ff", 254, "", 12, 0, 0},
    {"01ff", 255, "", 13, 0, 0},
    {"02" "0161" "00", 0, "", 13, 1, 0},
    {"02" "0161" "0262", 0, "", 12, 1, 0},
    /* "A byte counts the songs, 0 or 1", which is judged by itself. */
    {CAT, 0, "", 12, 1, 0},
    {CAT "01", 0, "", 12, 1, 0},
    {CAT "02", 0, "", 13, 1, 0},
    {CAT "ff", 0, "", 13, 1, 0},
    /* "a two-byte little-endian length, 1 to 16,384, and its bytes". */
    {CAT "01" "00", 0, "", 12, 1, 0},
    {CAT "01" "0000", 0, "", 13, 1, 0},
    {CAT "01" "0000", 0, "0100", 13, 1, 0},
    {CAT "01" "0100", 0, "", 12, 1, 0},
    {CAT "01" "0100", 1, "", 12, 2, 0},
    {CAT "01" "0100", 1, "0100", 0, 3, 0},
    {CAT "01" "0001", 255, "", 12, 1, 0},
    {CAT "01" "0001", 256, "0100", 0, 3, 0},
    {CAT "01" "0040", 16383, "", 12, 1, 0},
    {CAT "01" "0040", 16384, "0100", 0, 3, 0},
    {CAT "01" "0140", 16384, "", 12, 1, 0},
    {CAT "01" "0140", 16385, "", 13, 1, 0},
    {CAT "01" "ffff", 65534, "", 12, 1, 0},
    {CAT "01" "ffff", 65535, "", 13, 1, 0},
    /* "A byte counts the shuffle's entries, as many as words; they follow". */
    {CAT "00", 0, "", 12, 1, 0},
    {CAT "00" "00", 0, "", 13, 1, 0},
    {CAT "00" "01", 0, "", 12, 1, 0},
    {CAT "00" "02", 0, "", 12, 1, 0},
    {CAT "00" "0200", 0, "", 12, 1, 0},
    {CAT "00" "020001", 0, "", 13, 1, 0},
    {CAT "00" "ff", 254, "", 12, 1, 0},
    {CAT "00" "ff", 255, "", 13, 1, 0},
    {THREE "020001", 0, "", 13, 3, 0},
    {THREE "0200", 0, "", 12, 3, 0},
    {THREE "030001", 0, "", 12, 3, 0},
    {THREE "04000102", 0, "", 12, 3, 0},
    {THREE "0400010203", 0, "", 13, 3, 0},
    /* "every word's place from 0 once". */
    {THREE "03" "000102", 0, "", 0, 4, 0},
    {THREE "03" "000201", 0, "", 0, 4, 0},
    {THREE "03" "010002", 0, "", 0, 4, 0},
    {THREE "03" "010200", 0, "", 0, 4, 0},
    {THREE "03" "020001", 0, "", 0, 4, 0},
    {THREE "03" "020100", 0, "", 0, 4, 0},
    /* "the first entry that repeats an earlier one or is too large". */
    {CAT "00" "0101", 0, "", 14, 1, 0},
    {CAT "00" "01ff", 0, "", 14, 1, 0},
    {THREE "03" "000001", 0, "", 14, 3, 1},
    {THREE "03" "010101", 0, "", 14, 3, 1},
    {THREE "03" "020002", 0, "", 14, 3, 2},
    {THREE "03" "010200" "02", 0, "", 15, 4, 0},
    {THREE "03" "000103", 0, "", 14, 3, 2},
    {THREE "03" "030000", 0, "", 14, 3, 0},
    {THREE "03" "02ff02", 0, "", 14, 3, 1},
    /* "15 bytes left over", after the last card. */
    {CAT "00" "0100" "00", 0, "", 15, 2, 0},
    {CAT "00" "0100", 20000, "", 15, 2, 0},
    {CAT "01" "0100", 1, "0100" "00", 15, 3, 0},
    {CAT "00" "0101" "00", 0, "", 14, 1, 0},
};

static void check_row(struct thread *thread, const struct worked *row)
{
    static const uint8_t filling[65535] = {0};
    uint8_t bytes[LONGEST];
    struct call call = {.function = &functions[PACK_JUDGE]};
    size_t len = read_hex(row->first, bytes);
    memcpy(bytes + len, filling, row->more);
    len += row->more;
    len += read_hex(row->last, bytes + len);
    lend_copy(thread, &call, FIRST, PACK, bytes, len);
    make_call(thread, &call);
    if (call.judged.number != row->number || call.judged.cards != row->cards ||
        call.judged.bad != row->bad) {
        fail(thread, "%s, %zu bytes and %s: not as worked out", row->first,
             row->more, row->last);
    }
    check_read(thread, &call);
    thread->running = NULL;
}

static void check_answers(struct thread *thread, const uint8_t *pack,
                          size_t pack_len, const vespruldo_pack_card *right,
                          size_t count)
{
    const struct call running = {.function = &functions[PACK_NEXT]};
    thread->running = &running;
    for (size_t place = 0; place < count; place++) {
        require(thread,
                same_answer(vespruldo_pack_next(pack, pack_len, place),
                            right[place]),
                "not the card that was worked out");
    }
    thread->running = NULL;
}

/* In memory that is only read. */
static void check_cards(struct thread *thread)
{
    static const uint8_t cat[] = {1, 3, 'c', 'a', 't', 0, 1, 0};
    static const vespruldo_pack_card of_cat[] = {
        {0, VESPRULDO_WORD, 2, 3, 0, 1},
        {0, VESPRULDO_SHUFFLE, 7, 1, 0, 2},
        {0, VESPRULDO_NO_CARD, 0, 0, 0, 2},
    };
    static const uint8_t song[] = {3, 1,   'a', 2, 'b', 'c', 1, 'd', 1, 4,
                                   0, 's', 'o', 'n', 'g', 3, 2,  0,  1};
    static const vespruldo_pack_card of_song[] = {
        {0, VESPRULDO_WORD, 2, 1, 0, 1},
        {0, VESPRULDO_WORD, 4, 2, 0, 2},
        {0, VESPRULDO_WORD, 7, 1, 0, 3},
        {0, VESPRULDO_SONG, 11, 4, 0, 4},
        {0, VESPRULDO_SHUFFLE, 16, 3, 0, 5},
        {0, VESPRULDO_NO_CARD, 0, 0, 0, 5},
    };
    static const uint8_t bad[] = {2, 1, 'a', 1, 'b', 0, 2, 1, 1, 9};
    static const vespruldo_pack_card of_bad[] = {
        {0, VESPRULDO_WORD, 2, 1, 0, 1},
        {0, VESPRULDO_WORD, 4, 1, 0, 2},
        {14, VESPRULDO_NO_CARD, 0, 0, 1, 2},
    };
    check_answers(thread, cat, sizeof cat, of_cat, 3);
    check_answers(thread, song, sizeof song, of_song, 6);
    check_answers(thread, bad, sizeof bad, of_bad, 3);
}

void check_worked_packs(struct thread *thread)
{
    for (size_t i = 0; i < sizeof table / sizeof table[0]; i++) {
        check_row(thread, &table[i]);
    }
    check_cards(thread);
}
