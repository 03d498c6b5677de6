/* See packs.h. */

#include "packs.h"

#include <string.h>

/* Each word, the song and the shuffle; and one call more, which is done. */
#define MOST_CARDS (MOST_WORDS + 2)
#define MOST_CALLS (MOST_CARDS + 1)

/* ---- What must be answered ---- */

/* A pack that is read from its left in one go: its cards, and then the number.
   `number_read` is the last count or length, with what it counts at `start`. */
struct walk {
    const uint8_t *pack;
    size_t len, at;
    size_t number_read, start;
    struct {
        uint32_t kind;
        size_t start, length;
    } cards[MOST_CARDS];
    size_t card_count;
    uint32_t number;
    size_t bad;
};

/* Reads a count or a length and, if it counts bytes, those. "12 before 13 at
   one place": that all of it is there comes first. */
static bool read_item(struct walk *walk, size_t width, bool counts_bytes,
                      size_t least, size_t most)
{
    size_t left = walk->len - walk->at;
    size_t number = 0;
    for (size_t j = 0; j < width && j < left; j++) {
        number |= (size_t)walk->pack[walk->at + j] << 8 * j;
    }
    size_t whole = width + (counts_bytes ? number : 0);
    if (left < whole) {
        walk->number = 12;
    } else if (number < least || number > most) {
        walk->number = 13;
    }
    walk->number_read = number;
    walk->start = walk->at + width;
    walk->at += whole;
    return walk->number == 0;
}

static bool give_card(struct walk *walk, uint32_t kind)
{
    walk->cards[walk->card_count].kind = kind;
    walk->cards[walk->card_count].start = walk->start;
    walk->cards[walk->card_count].length = walk->number_read;
    walk->card_count++;
    return true;
}

/* "the place, from 0, of the first entry that repeats an earlier one or is too
   large". */
static bool every_place_once(struct walk *walk)
{
    const uint8_t *entries = walk->pack + walk->start;
    size_t words = walk->number_read;
    for (size_t i = 0; i < words; i++) {
        if (entries[i] >= words || memchr(entries, entries[i], i) != NULL) {
            walk->number = 14;
            walk->bad = i;
            return false;
        }
    }
    return true;
}

/* "Cards are each word, the song if any, then the shuffle as one". */
static struct walk plain_walk(const struct loan *pack)
{
    struct walk walk = {.pack = pack->place, .len = pack->len};
    bool good = read_item(&walk, 1, false, 1, MOST_WORDS);
    size_t words = walk.number_read;
    for (size_t w = 0; good && w < words; w++) {
        good = read_item(&walk, 1, true, 1, LONGEST_WORD) &&
               give_card(&walk, VESPRULDO_WORD);
    }
    good = good && read_item(&walk, 1, false, 0, 1);
    if (good && walk.number_read == 1) {
        good = read_item(&walk, 2, true, 1, LONGEST_SONG) &&
               give_card(&walk, VESPRULDO_SONG);
    }
    good = good && read_item(&walk, 1, true, words, words) &&
           every_place_once(&walk) && give_card(&walk, VESPRULDO_SHUFFLE);
    if (good && walk.at < walk.len) {
        walk.number = 15;
    }
    return walk;
}

uint32_t plain_pack_number(const struct call *call)
{
    struct walk walk = plain_walk(&call->loans[PACK]);
    bool judges = call->function == &functions[PACK_JUDGE];
    return judges || call->place >= walk.card_count ? walk.number : 0;
}

/* "A refusal keeps the reader's place and is given again", and so is done. */
static vespruldo_pack_card right_answer(const struct walk *walk, size_t place)
{
    vespruldo_pack_card answer = {.next = place};
    if (place < walk->card_count) {
        answer.kind = walk->cards[place].kind;
        answer.start = walk->cards[place].start;
        answer.length = walk->cards[place].length;
        answer.next = place + 1;
    } else {
        answer.number = walk->number;
        answer.bad = walk->bad;
    }
    return answer;
}

/* ---- What is answered ---- */

bool same_answer(vespruldo_pack_card a, vespruldo_pack_card b)
{
    return a.number == b.number && a.kind == b.kind && a.start == b.start &&
           a.length == b.length && a.bad == b.bad && a.next == b.next;
}

static vespruldo_pack_card check_next(struct thread *thread, struct call *call,
                                      const struct walk *walk, size_t place)
{
    call->function = &functions[PACK_NEXT];
    call->place = place;
    make_call(thread, call);
    if (!same_answer(call->card, right_answer(walk, place))) {
        fail(thread, "another answer at place %zu", place);
    }
    return call->card;
}

static void check_judge(struct thread *thread, struct call *call,
                        const struct walk *walk)
{
    call->function = &functions[PACK_JUDGE];
    make_call(thread, call);
    require(thread,
            call->judged.cards == walk->card_count &&
                call->judged.bad == walk->bad,
            "another count of cards, or another bad entry");
}

/* By the answers alone: cards lie in the pack, each behind the last and what
   tells its length, and what ends the walk is what the pack is judged by. */
static void check_walk(struct thread *thread, struct call *call,
                       const struct walk *walk)
{
    size_t calls = 1;
    size_t end = 0;
    vespruldo_pack_card card = check_next(thread, call, walk, 0);
    for (; card.kind != VESPRULDO_NO_CARD; calls++) {
        require(thread, calls < MOST_CALLS, "the walk does not end");
        require(thread, card.start > end && card.length > 0,
                "a card before the end of the last, or an empty one");
        end = card.start + card.length;
        require(thread, end > card.start && end <= call->loans[PACK].len,
                "a card that is not within the pack");
        card = check_next(thread, call, walk, card.next);
    }
    check_judge(thread, call, walk);
    require(thread,
            call->judged.number == card.number &&
                call->judged.cards == calls - 1 && call->judged.bad == card.bad,
            "judged otherwise than it is walked");
}

/* Places that no walk hands back have their answers too. */
static void check_places(struct thread *thread, struct call *call,
                         const struct walk *walk)
{
    static const size_t far[] = {255, 256, (size_t)1 << 31, UINT32_MAX,
                                 (size_t)1 << 32, ((size_t)1 << 32) + 1,
                                 (size_t)1 << 63, SIZE_MAX - 1, SIZE_MAX};
    for (size_t place = 0; place <= 20; place++) {
        check_next(thread, call, walk, place);
    }
    for (size_t i = 0; i < sizeof far / sizeof far[0]; i++) {
        check_next(thread, call, walk, far[i]);
    }
}

void check_judged(struct thread *thread, struct call *call)
{
    struct walk walk = plain_walk(&call->loans[PACK]);
    check_judge(thread, call, &walk);
}

void check_read(struct thread *thread, struct call *call)
{
    struct walk walk = plain_walk(&call->loans[PACK]);
    check_walk(thread, call, &walk);
    check_places(thread, call, &walk);
}
