/* Where a length is 0, NULL is an ordinary pointer: no compiler warns, and each
   answer is the one that the header names. */

#include <stdio.h>
#include <vespruldo.h>

static const uint8_t key[VESPRULDO_KEY_BYTES] = {1};
static const uint8_t nonce[VESPRULDO_NONCE_BYTES] = {2};
static const uint8_t stream_key[VESPRULDO_CHACHA20_KEY_BYTES] = {3};
static int bad;

static void is(const char *what, uint32_t expected, uint32_t came)
{
    if (came != expected) {
        printf("%s answers %u (%s) and not %u\n", what, (unsigned)came,
               vespruldo_words(came), (unsigned)expected);
        bad = 1;
    }
}

/* An empty text is sealed and opened, with and without a buffer for it. */
static void sealing(void)
{
    uint8_t tag[VESPRULDO_TAG_BYTES], again[VESPRULDO_TAG_BYTES];
    uint8_t card[VESPRULDO_CARD_EXTRA];
    is("seal", VESPRULDO_DONE,
       vespruldo_seal(key, sizeof key, nonce, sizeof nonce, NULL, 0, NULL, 0,
                      NULL, 0, tag, sizeof tag));
    is("open", VESPRULDO_DONE,
       vespruldo_open(key, sizeof key, nonce, sizeof nonce, NULL, 0, NULL, 0,
                      tag, sizeof tag, NULL, 0));
    is("seal_short", VESPRULDO_DONE,
       vespruldo_seal_short(key, sizeof key, nonce, sizeof nonce, NULL, 0, NULL,
                            0, again, sizeof again));
    is("same", 1, vespruldo_same(tag, sizeof tag, again, sizeof again));
    is("open_short", VESPRULDO_DONE,
       vespruldo_open_short(key, sizeof key, nonce, sizeof nonce, NULL, 0, tag,
                            sizeof tag, NULL, 0));
    is("seal_in_place", VESPRULDO_DONE,
       vespruldo_seal_in_place(key, sizeof key, nonce, sizeof nonce, NULL, 0,
                               NULL, 0, again, sizeof again));
    is("open_in_place", VESPRULDO_DONE,
       vespruldo_open_in_place(key, sizeof key, nonce, sizeof nonce, NULL, 0,
                               NULL, 0, again, sizeof again));
    is("card_seal", VESPRULDO_DONE,
       vespruldo_card_seal(key, sizeof key, nonce, sizeof nonce, NULL, 0, NULL,
                           0, card, sizeof card));
    is("card_open", VESPRULDO_DONE,
       vespruldo_card_open(key, sizeof key, NULL, 0, card, sizeof card, NULL,
                           0));
    is("card_open of nothing", VESPRULDO_CUT_SHORT,
       vespruldo_card_open(key, sizeof key, NULL, 0, NULL, 0, NULL, 0));
}

/* An empty text can be a card of a batch, and all of them can; but no cards at
   all are no batch. */
static void batches(void)
{
    const uint64_t lengths[] = {0, 0};
    const vespruldo_drawer last_two = {4, UINT64_MAX - 2};
    uint8_t tags[2 * VESPRULDO_TAG_BYTES];
    vespruldo_batch batch =
        vespruldo_seal_batch(key, sizeof key, NULL, 0, NULL, 0, lengths, 2,
                             last_two, NULL, 0, tags, sizeof tags);
    is("seal_batch", VESPRULDO_DONE, batch.number);
    is("seal_batch, next", 1, batch.next.count == UINT64_MAX);
    batch = vespruldo_seal_batch(key, sizeof key, NULL, 0, NULL, 0, NULL, 0,
                                 batch.next, NULL, 0, NULL, 0);
    is("seal_batch of nothing", VESPRULDO_BATCH_FORM, batch.number);
    is("seal_batch of nothing, next", 1, batch.next.count == UINT64_MAX);
    batch = vespruldo_seal_batch(NULL, 0, NULL, 0, NULL, 0, NULL, 0, last_two,
                                 NULL, 0, NULL, 0);
    is("seal_batch without a key", VESPRULDO_KEY_LENGTH, batch.number);
}

/* An empty text uses no counter: it can come where all are used up, but not
   beyond that. */
static void streaming(void)
{
    const uint64_t used_up = (uint64_t)1 << 32;
    is("chacha20", VESPRULDO_KEY_LENGTH,
       vespruldo_chacha20(NULL, 0, NULL, 0, 0, NULL, 0).number);
    vespruldo_streamed streamed =
        vespruldo_chacha20(stream_key, sizeof stream_key, nonce, sizeof nonce,
                           used_up, NULL, 0);
    is("chacha20 at 2^32", VESPRULDO_DONE, streamed.number);
    is("chacha20 at 2^32, next", 1, streamed.next == used_up);
    streamed = vespruldo_chacha20(stream_key, sizeof stream_key, nonce,
                                  sizeof nonce, used_up + 1, NULL, 0);
    is("chacha20 above 2^32", VESPRULDO_STREAM_TOO_LONG, streamed.number);
    is("chacha20 above 2^32, next", 1, streamed.next == used_up + 1);
}

static void others(void)
{
    uint8_t digest[VESPRULDO_BLAKE2B_DIGEST_MAX];
    is("gift_encipher", VESPRULDO_KEY_LENGTH,
       vespruldo_gift_encipher(NULL, 0, NULL, 0));
    is("gift_decipher", VESPRULDO_TEXT_LENGTH,
       vespruldo_gift_decipher(key, sizeof key, NULL, 0));
    is("blake2b", VESPRULDO_DONE,
       vespruldo_blake2b(NULL, 0, NULL, 0, digest, sizeof digest));
    is("lioness_encipher", VESPRULDO_KEY_LENGTH,
       vespruldo_lioness_encipher(NULL, 0, NULL, 0, NULL, 0));
    is("lioness_decipher", VESPRULDO_KEY_LENGTH,
       vespruldo_lioness_decipher(NULL, 0, NULL, 0, NULL, 0));
    is("same", 1, vespruldo_same(NULL, 0, NULL, 0));
    is("drawer_load", VESPRULDO_DRAWER_DAMAGED,
       vespruldo_drawer_load(NULL, 0).number);
    is("key_find", VESPRULDO_BOOK_FORM,
       vespruldo_key_find(NULL, 0, NULL, 0, 7).number);
    is("key_find", VESPRULDO_BOOK_FORM,
       vespruldo_key_find(vespruldo_no_book, sizeof vespruldo_no_book, NULL, 0,
                          7)
           .number);
    is("key_find", VESPRULDO_CLASS_MISSING,
       vespruldo_key_find(vespruldo_no_book, sizeof vespruldo_no_book,
                          vespruldo_no_book, sizeof vespruldo_no_book, 7)
           .number);
    is("pack_next", VESPRULDO_CUT_SHORT,
       vespruldo_pack_next(NULL, 0, 0).number);
    is("pack_next", VESPRULDO_CUT_SHORT,
       vespruldo_pack_next(NULL, 0, SIZE_MAX).number);
    is("pack_judge", VESPRULDO_CUT_SHORT, vespruldo_pack_judge(NULL, 0).number);
}

int main(void)
{
    sealing();
    batches();
    streaming();
    others();
    return bad;
}
