/* Cases of lesson packs: right ones, damaged ones and any bytes. */

#include <string.h>

#include "cases.h"
#include "packs.h"

/* Three counts, lengths of one byte and of two, and what they count. */
#define LONGEST_PACK \
    (3 + MOST_WORDS * (1 + LONGEST_WORD) + 2 + LONGEST_SONG + MOST_WORDS)
/* For bytes that are left over. */
#define SPARE 16

/* A pack, and where its counts, lengths and entries lie: there a change
   matters. */
struct pack {
    uint8_t bytes[LONGEST_PACK + SPARE];
    size_t len;
    size_t matters[1 + MOST_WORDS + 1 + 2 + 1 + MOST_WORDS];
    size_t matter_count;
};

static void put(struct pack *pack, size_t number)
{
    pack->matters[pack->matter_count++] = pack->len;
    pack->bytes[pack->len++] = (uint8_t)number;
}

static void put_random(struct random *random, struct pack *pack, size_t len)
{
    random_fill(random, pack->bytes + pack->len, len);
    pack->len += len;
}

/* Entries in the order of the places, and then exchanged at random. */
static void put_shuffle(struct random *random, struct pack *pack, size_t words)
{
    put(pack, words);
    uint8_t *entries = pack->bytes + pack->len;
    for (size_t i = 0; i < words; i++) {
        size_t other = random_below(random, i + 1);
        put(pack, i);
        entries[i] = entries[other];
        entries[other] = (uint8_t)i;
    }
}

/* Mostly short, and often the longest. */
static size_t random_word_length(struct random *random)
{
    return one_in(random, 6) ? LONGEST_WORD - random_below(random, 2)
                             : 1 + random_below(random, 9);
}

static size_t random_song_length(struct random *random)
{
    static const size_t edges[] = {1, 255, 256, 257, 511, 512};
    if (one_in(random, 3)) {
        return edges[random_below(random, sizeof edges / sizeof edges[0])];
    }
    return one_in(random, 16) ? LONGEST_SONG - random_below(random, 2)
                              : 1 + random_below(random, 300);
}

/* A right pack. The words are of one length or, if that is 0, each of its own;
   no bytes of a song mean none. */
static void write_pack(struct random *random, struct pack *pack, size_t words,
                       size_t word_len, size_t song_len)
{
    pack->len = 0;
    pack->matter_count = 0;
    put(pack, words);
    for (size_t w = 0; w < words; w++) {
        size_t len = word_len > 0 ? word_len : random_word_length(random);
        put(pack, len);
        put_random(random, pack, len);
    }
    put(pack, song_len > 0);
    if (song_len > 0) {
        put(pack, song_len & 255);
        put(pack, song_len >> 8);
        put_random(random, pack, song_len);
    }
    put_shuffle(random, pack, words);
}

/* Another count, length or entry, often one beside a limit; or fewer bytes, or
   more. */
static void damage(struct random *random, struct pack *pack)
{
    static const uint8_t edges[] = {0,  1,  2,  11, 12, 13,  39,
                                    40, 41, 63, 64, 65, 128, 255};
    size_t which = random_below(random, pack->matter_count);
    uint8_t *byte = &pack->bytes[pack->matters[which]];
    switch (random_below(random, 5)) {
    case 0:
        pack->len = random_below(random, pack->len + 1);
        break;
    case 1:
        put_random(random, pack, 1 + random_below(random, SPARE / 2));
        break;
    case 2:
        *byte = edges[random_below(random, sizeof edges)];
        break;
    default:
        *byte = (uint8_t)(*byte + (one_in(random, 2) ? 1 : 255));
    }
}

/* Small numbers, since others are refused at the first of them. */
static void write_noise(struct random *random, struct pack *pack)
{
    pack->len = 0;
    put_random(random, pack, random_below(random, 100));
    uint8_t mask = one_in(random, 4) ? 255 : 3;
    for (size_t i = 0; i < pack->len; i++) {
        pack->bytes[i] &= mask;
    }
}

static void write_random(struct random *random, struct pack *pack)
{
    if (one_in(random, 8)) {
        write_noise(random, pack);
        return;
    }
    write_pack(random, pack, 1 + random_below(random, MOST_WORDS),
               one_in(random, 8) ? LONGEST_WORD : 0,
               one_in(random, 2) ? random_song_length(random) : 0);
    /* Two at most, for which there is room to spare. */
    for (int times = 0; times < 2 && one_in(random, 2); times++) {
        damage(random, pack);
    }
}

void pack_case(struct thread *thread)
{
    struct call call = {.function = &functions[PACK_NEXT]};
    struct pack pack;
    write_random(&thread->random, &pack);
    lend_copy(thread, &call, FIRST, PACK, pack.bytes, pack.len);
    check_read(thread, &call);
    thread->running = NULL;
}

/* The first bytes of a right pack, before an inaccessible page and behind one:
   cut short, unless these are all. */
static void check_beginning(struct thread *thread, const struct pack *pack,
                            size_t len,
                            void (*check)(struct thread *, struct call *))
{
    struct call call = {.function = &functions[PACK_JUDGE]};
    for (int side = 0; side < 2; side++) {
        call.loans[PACK] = lend(&thread->arenas[FIRST][PACK], len, side == 0);
        memcpy(call.loans[PACK].place, pack->bytes, len);
        check(thread, &call);
        require(thread, call.judged.number == (len < pack->len ? 12 : 0),
                "not cut short, or not right where it is whole");
    }
    thread->running = NULL;
}

void check_cut_packs(struct thread *thread)
{
    struct pack pack;
    write_pack(&thread->random, &pack, 3, 2, 5);
    for (size_t len = 0; len <= pack.len; len++) {
        check_beginning(thread, &pack, len, check_read);
    }
    write_pack(&thread->random, &pack, MOST_WORDS, LONGEST_WORD, 300);
    for (size_t len = 0; len <= pack.len; len++) {
        check_beginning(thread, &pack, len, check_judged);
    }
    write_pack(&thread->random, &pack, MOST_WORDS, LONGEST_WORD, LONGEST_SONG);
    require(thread, pack.len == 16893 && pack.len == VESPRULDO_PACK_MAX,
            "the longest pack has another length");
    for (size_t i = 0; i < pack.matter_count; i++) {
        check_beginning(thread, &pack, pack.matters[i], check_read);
        check_beginning(thread, &pack, pack.matters[i] + 1, check_read);
    }
    check_beginning(thread, &pack, pack.len, check_read);
}

/* With each place in each entry, and with each other number, up to one that is
   too large, in each. */
static void check_shuffles_of(struct thread *thread, size_t words)
{
    struct pack pack;
    struct call call = {.function = &functions[PACK_JUDGE]};
    write_pack(&thread->random, &pack, words, 1, 0);
    lend_copy(thread, &call, FIRST, PACK, pack.bytes, pack.len);
    uint8_t *entries = call.loans[PACK].place + pack.len - words;
    for (size_t turned = 0; turned < words; turned++) {
        for (size_t i = 0; i < words; i++) {
            entries[i] = (uint8_t)((i + turned) % words);
        }
        check_judged(thread, &call);
        require(thread, call.judged.number == 0, "a right shuffle is refused");
        for (size_t i = 0; i < words; i++) {
            uint8_t right = entries[i];
            for (size_t number = 0; number <= words; number++) {
                entries[i] = (uint8_t)number;
                check_judged(thread, &call);
            }
            entries[i] = right;
        }
    }
    thread->running = NULL;
}

void check_shuffles(struct thread *thread)
{
    for (size_t words = 1; words <= MOST_WORDS; words++) {
        check_shuffles_of(thread, words);
    }
}
