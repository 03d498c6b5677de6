/* Lesson packs as one would read them in C without further thought: from the
   left, up to the card that is asked for. */

#include "plain_packs.h"

#include <stdbool.h>

#define MOST_WORDS 12
#define LONGEST_WORD 40
#define LONGEST_SONG 16384
/* A place behind the cards of every pack. */
#define THE_END SIZE_MAX

struct walk {
    const uint8_t *pack;
    size_t len, at;
    /* How many cards to pass, and how many have been. */
    size_t place, cards;
    /* What the walk ends with. */
    vespruldo_pack_card last;
};

/* Each step answers whether the walk goes on. */
static bool refuse(struct walk *walk, uint32_t number)
{
    walk->last.number = number;
    return false;
}

static bool judge_shuffle(struct walk *walk, const uint8_t *entries,
                          size_t words)
{
    bool seen[MOST_WORDS] = {false};
    for (size_t i = 0; i < words; i++) {
        if (entries[i] >= words || seen[entries[i]]) {
            walk->last.bad = i;
            return refuse(walk, VESPRULDO_BAD_SHUFFLE);
        }
        seen[entries[i]] = true;
    }
    return true;
}

static bool give_or_pass(struct walk *walk, uint32_t kind, size_t start,
                         size_t length)
{
    if (walk->cards == walk->place) {
        walk->last.kind = kind;
        walk->last.start = start;
        walk->last.length = length;
        return false;
    }
    walk->cards++;
    walk->at = start + length;
    return true;
}

/* A length of one byte or two, and so many bytes. */
static bool card(struct walk *walk, uint32_t kind, size_t width, size_t least,
                 size_t most)
{
    const uint8_t *bytes = walk->pack + walk->at;
    size_t left = walk->len - walk->at;
    if (left < width) {
        return refuse(walk, VESPRULDO_CUT_SHORT);
    }
    size_t length = bytes[0] | (width == 2 ? (size_t)bytes[1] << 8 : 0);
    if (left - width < length) {
        return refuse(walk, VESPRULDO_CUT_SHORT);
    }
    if (length < least || length > most) {
        return refuse(walk, VESPRULDO_COUNT_OR_LENGTH);
    }
    return (kind != VESPRULDO_SHUFFLE ||
            judge_shuffle(walk, bytes + width, length)) &&
           give_or_pass(walk, kind, walk->at + width, length);
}

static bool count(struct walk *walk, size_t least, size_t most, size_t *number)
{
    if (walk->at == walk->len) {
        return refuse(walk, VESPRULDO_CUT_SHORT);
    }
    *number = walk->pack[walk->at++];
    return (*number >= least && *number <= most) ||
           refuse(walk, VESPRULDO_COUNT_OR_LENGTH);
}

static struct walk walk_to(const uint8_t *pack, size_t pack_len, size_t place)
{
    struct walk walk = {.pack = pack, .len = pack_len, .place = place};
    size_t words = 0;
    size_t songs = 0;
    bool on = count(&walk, 1, MOST_WORDS, &words);
    for (size_t w = 0; on && w < words; w++) {
        on = card(&walk, VESPRULDO_WORD, 1, 1, LONGEST_WORD);
    }
    on = on && count(&walk, 0, 1, &songs);
    if (on && songs == 1) {
        on = card(&walk, VESPRULDO_SONG, 2, 1, LONGEST_SONG);
    }
    on = on && card(&walk, VESPRULDO_SHUFFLE, 1, words, words);
    if (on && walk.at < walk.len) {
        refuse(&walk, VESPRULDO_LEFT_OVER);
    }
    return walk;
}

vespruldo_pack_card plain_pack_next(const uint8_t *pack, size_t pack_len,
                                    size_t place)
{
    vespruldo_pack_card last = walk_to(pack, pack_len, place).last;
    last.next = last.kind == VESPRULDO_NO_CARD ? place : place + 1;
    return last;
}

vespruldo_pack_judged plain_pack_judge(const uint8_t *pack, size_t pack_len)
{
    struct walk walk = walk_to(pack, pack_len, THE_END);
    vespruldo_pack_judged judged = {walk.last.number, walk.cards,
                                    walk.last.bad};
    return judged;
}
