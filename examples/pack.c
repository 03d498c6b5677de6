/* Plays lesson packs as a reader does: a pack is judged whole before anything
   of it is heard, and then walked card by card. Nothing is copied: what is
   played lies in the pack. */

#include <stdio.h>
#include <string.h>
#include <vespruldo.h>

/* Three words, a song, and the shuffle: the third word, the first, the second.
   (A real pack is read from a memory card, and may hold any bytes.) */
static const uint8_t ducks[] = "\3" "\4duck" "\3egg" "\4pond"
                               "\1" "\34\0Three ducks went out one day"
                               "\3" "\2\0\1";
#define DUCKS (sizeof ducks - 1) /* no zero ends a pack */

/* A card may hold any bytes too. A real reader plays them as sound. */
static void play(const char *what, const uint8_t *pack,
                 vespruldo_pack_card card)
{
    printf("  %s: %.*s\n", what, (int)card.length,
           (const char *)pack + card.start);
}

/* An entry of a shuffle is the place of a word: where the card at place 2 is
   asked for, the third word comes. */
static void play_words(const uint8_t *pack, size_t pack_len,
                       vespruldo_pack_card shuffle)
{
    for (size_t i = 0; i < shuffle.length; i++)
        play("word", pack,
             vespruldo_pack_next(pack, pack_len, pack[shuffle.start + i]));
}

/* The words wait for the shuffle, which is the last card. */
static uint32_t play_pack(const uint8_t *pack, size_t pack_len)
{
    vespruldo_pack_card card = vespruldo_pack_next(pack, pack_len, 0);
    while (card.kind != VESPRULDO_NO_CARD) {
        if (card.kind == VESPRULDO_SONG)
            play("song", pack, card);
        if (card.kind == VESPRULDO_SHUFFLE)
            play_words(pack, pack_len, card);
        card = vespruldo_pack_next(pack, pack_len, card.next);
    }
    return card.number;
}

/* The refusal with what helps whoever made the pack: behind which card it is,
   and which entry of the shuffle is the bad one. */
static void tell(vespruldo_pack_judged judged)
{
    printf("  refused %u %s, after %u cards", (unsigned)judged.number,
           vespruldo_words(judged.number), (unsigned)judged.cards);
    if (judged.number == VESPRULDO_BAD_SHUFFLE)
        printf(", entry %u", (unsigned)judged.bad);
    printf("\n");
}

/* Plays the whole pack or, if it is refused, nothing of it. */
static uint32_t try_pack(const char *name, const uint8_t *pack, size_t pack_len)
{
    printf("%s\n", name);
    vespruldo_pack_judged judged = vespruldo_pack_judge(pack, pack_len);
    if (judged.number == VESPRULDO_DONE)
        return play_pack(pack, pack_len);
    tell(judged);
    return judged.number;
}

int main(void)
{
    uint8_t chewed[sizeof ducks];
    memcpy(chewed, ducks, sizeof ducks);
    chewed[DUCKS - 1] = 2; /* the third word a second time */

    uint32_t whole = try_pack("ducks", ducks, DUCKS);
    uint32_t shorter = try_pack("without the last byte", ducks, DUCKS - 1);
    uint32_t longer = try_pack("with a byte more", ducks, DUCKS + 1);
    uint32_t twice = try_pack("with a word twice", chewed, DUCKS);
    return whole == VESPRULDO_DONE && shorter == VESPRULDO_CUT_SHORT &&
                   longer == VESPRULDO_LEFT_OVER &&
                   twice == VESPRULDO_BAD_SHUFFLE
               ? 0
               : 1;
}
