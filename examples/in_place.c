/* Makes a card in the one buffer that holds its text, and opens it there, as a
   reader with little memory does. */

#include <stdio.h>
#include <string.h>
#include <vespruldo.h>

/* A real key comes from a key book, a real drawer from where it is stored. */
static const uint8_t key[] = {3, 1, 4, 1, 5, 9, 2, 6, 5, 3, 5, 8, 9, 7, 9, 3};
static const char song[] = "Three ducks went out one day";

/* Where the parts of a card begin; its tag comes behind the text. */
enum { LENGTH_AT = VESPRULDO_NONCE_BYTES, TEXT_AT = LENGTH_AT + 2 };

/* Makes a card of the text that lies in it. */
static uint32_t seal_card(uint8_t *card, size_t text_len, const uint8_t *nonce)
{
    if (text_len > VESPRULDO_CARD_TEXT_MAX)
        return VESPRULDO_TEXT_LENGTH;
    memcpy(card, nonce, VESPRULDO_NONCE_BYTES);
    card[LENGTH_AT] = (uint8_t)(text_len % 256);
    card[LENGTH_AT + 1] = (uint8_t)(text_len / 256);
    return vespruldo_seal_in_place(key, sizeof key, card, VESPRULDO_NONCE_BYTES,
                                   NULL, 0, card + TEXT_AT, text_len,
                                   card + TEXT_AT + text_len,
                                   VESPRULDO_TAG_BYTES);
}

/* Opens a card, so that its text lies in it again. Whoever wrote the card may
   have lied about its length, so that is compared before anything is read by
   it. */
static uint32_t open_card(uint8_t *card, size_t card_len)
{
    if (card_len < VESPRULDO_CARD_EXTRA)
        return VESPRULDO_CUT_SHORT;
    size_t text_len = card[LENGTH_AT] + 256u * card[LENGTH_AT + 1];
    if (card_len - VESPRULDO_CARD_EXTRA != text_len)
        return card_len - VESPRULDO_CARD_EXTRA < text_len ? VESPRULDO_CUT_SHORT
                                                          : VESPRULDO_LEFT_OVER;
    return vespruldo_open_in_place(key, sizeof key, card, VESPRULDO_NONCE_BYTES,
                                   NULL, 0, card + TEXT_AT, text_len,
                                   card + TEXT_AT + text_len,
                                   VESPRULDO_TAG_BYTES);
}

/* There is a text only where all was done. */
static void tell(const char *what, uint32_t number, const uint8_t *text)
{
    printf("%s: %s\n", what,
           number == VESPRULDO_DONE ? (const char *)text
                                    : vespruldo_words(number));
}

int main(void)
{
    uint8_t card[sizeof song + VESPRULDO_CARD_EXTRA], chewed[sizeof card];
    uint8_t text[sizeof song];
    vespruldo_drawer drawer = vespruldo_drawer_start(42, 0);
    vespruldo_drawn nonce = vespruldo_drawer_draw(drawer);
    if (nonce.number != VESPRULDO_DONE)
        return (int)nonce.number;

    memcpy(card + TEXT_AT, song, sizeof song);
    uint32_t number = seal_card(card, sizeof song, nonce.bytes);
    if (number != VESPRULDO_DONE)
        return (int)number;
    memcpy(chewed, card, sizeof card);
    chewed[TEXT_AT] ^= 1;

    /* It is a card like any other. */
    number = vespruldo_card_open(key, sizeof key, NULL, 0, card, sizeof card,
                                 text, sizeof text);
    tell("opened elsewhere", number, text);
    number = open_card(card, sizeof card);
    tell("opened in place", number, card + TEXT_AT);

    /* What is opened in vain is gone: keep a copy of what is tried again. */
    number = open_card(chewed, sizeof chewed);
    tell("one bit flipped", number, chewed + TEXT_AT);
    return open_card(chewed, sizeof chewed - 1) == VESPRULDO_CUT_SHORT ? 0 : 1;
}
