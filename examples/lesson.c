/* Seals a lesson in one go, as a teacher does: up to twelve words become cards
   by one call, and the drawer is stored once.

       cc lesson.c $(pkg-config --cflags --libs vespruldo) -o lesson
       lesson [WORD..]

   It prints in hexadecimal digits what the office's tool `cards` has in files:
   the drawer as it is stored, and then the cards, each with what it is opened
   to. The exit status is the number of the refusal: 18 for a thirteenth
   word. */

#include <stdio.h>
#include <string.h>
#include <vespruldo.h>

enum {
    MOST = VESPRULDO_BATCH_MAX,
    LONGEST = VESPRULDO_CARD_TEXT_MAX,
    TAG = VESPRULDO_TAG_BYTES,
    /* Where the parts of a card begin; its tag comes behind the ciphertext. */
    LENGTH_AT = VESPRULDO_NONCE_BYTES,
    TEXT_AT = LENGTH_AT + 2
};

/* A real key comes from a key book. */
static const uint8_t key[] = {3, 1, 4, 1, 5, 9, 2, 6, 5, 3, 5, 8, 9, 7, 9, 3};

/* The words end to end, and what becomes of them. There is room for one more
   than is allowed: too many are read so far, and then refused. */
static uint64_t lengths[MOST + 1];
static size_t count, texts_len;
static uint8_t texts[(MOST + 1) * LONGEST], room[(MOST + 1) * LONGEST];
static uint8_t tags[(MOST + 1) * TAG];

/* A batch takes longer words too, but a card says its length in two bytes. */
static uint32_t add(const char *word)
{
    size_t len = strlen(word);
    if (len > LONGEST)
        return VESPRULDO_TEXT_LENGTH;
    memcpy(texts + texts_len, word, len);
    lengths[count++] = len;
    texts_len += len;
    return VESPRULDO_DONE;
}

static void print_hex(const uint8_t *bytes, size_t len)
{
    for (size_t i = 0; i < len; i++)
        printf("%02x", bytes[i]);
}

/* Where a real one keeps its drawer: flash.c and reader.c show how. */
static void store(vespruldo_drawer drawer)
{
    vespruldo_stored stored = vespruldo_drawer_store(drawer);
    print_hex(stored.bytes, sizeof stored.bytes);
    printf(" stored\n");
}

/* Seals the words with the next draws of this drawer. The drawer behind them is
   stored before any card is handed on. */
static uint32_t seal(vespruldo_drawer drawer)
{
    vespruldo_batch batch = vespruldo_seal_batch(
        key, sizeof key, NULL, 0, texts, texts_len, lengths, count, drawer,
        room, texts_len, tags, count * TAG);
    if (batch.number == VESPRULDO_DONE)
        store(batch.next);
    return batch.number;
}

/* Makes a card of one ciphertext. It is a card like any other, and is opened by
   itself. */
static uint32_t hand_on(const uint8_t *nonce, const uint8_t *ciphertext,
                        size_t len, const uint8_t *tag)
{
    static uint8_t card[LONGEST + VESPRULDO_CARD_EXTRA], text[LONGEST];
    size_t card_len = len + VESPRULDO_CARD_EXTRA;
    memcpy(card, nonce, VESPRULDO_NONCE_BYTES);
    card[LENGTH_AT] = (uint8_t)(len % 256);
    card[LENGTH_AT + 1] = (uint8_t)(len / 256);
    memcpy(card + TEXT_AT, ciphertext, len);
    memcpy(card + TEXT_AT + len, tag, TAG);
    print_hex(card, card_len);
    uint32_t number = vespruldo_card_open(key, sizeof key, NULL, 0, card,
                                          card_len, text, sizeof text);
    if (number == VESPRULDO_DONE)
        printf(" %.*s\n", (int)len, (const char *)text);
    return number;
}

/* A batch does not answer its nonces. From the drawer that it was given they
   are drawn again, one for each card in order. They are used up by then:
   nothing else may be sealed under them. */
static uint32_t hand_all_on(vespruldo_drawer drawer)
{
    uint32_t number = VESPRULDO_DONE;
    size_t at = 0;
    for (size_t i = 0; i < count && number == VESPRULDO_DONE; i++) {
        vespruldo_drawn nonce = vespruldo_drawer_draw(drawer);
        if (nonce.number != VESPRULDO_DONE)
            return nonce.number;
        number = hand_on(nonce.bytes, room + at, (size_t)lengths[i],
                         tags + i * TAG);
        at += (size_t)lengths[i];
        drawer = nonce.next;
    }
    return number;
}

int main(int argument_count, char **arguments)
{
    static const char *const farm[MOST] = {"duck", "egg",   "pond", "goose",
                                           "hen",  "cow",   "barn", "horse",
                                           "goat", "sheep", "lamb", "hay"};
    size_t given = (size_t)argument_count - 1;
    size_t words = given > 0 ? given : sizeof farm / sizeof *farm;
    /* A real one is loaded: started anew, as here, it draws its old nonces. */
    vespruldo_drawer drawer = vespruldo_drawer_start(42, 0);
    uint32_t number = VESPRULDO_DONE;
    for (size_t i = 0; i < words && i <= MOST && number == VESPRULDO_DONE; i++)
        number = add(given > 0 ? arguments[i + 1] : farm[i]);
    if (number == VESPRULDO_DONE)
        number = seal(drawer);
    if (number == VESPRULDO_DONE)
        number = hand_all_on(drawer);
    if (number != VESPRULDO_DONE)
        fprintf(stderr, "lesson: refused %u %s\n", (unsigned)number,
                vespruldo_words(number));
    return (int)number;
}
