/* HyENA as one would write it in C after document 01, HyENA, without further
   thought: the state is sixteen bytes, and feedback goes byte by byte. What
   GIFT-128's rounds add is worked out once in each call. */

#include "plain_hyena.h"

#include <string.h>

#include "plain_gift.h"

#define BLOCK 16
#define HALF 8

struct state {
    struct plain_gift_key key;
    /* The document's Y after each enciphering, its X after each feedback. */
    uint8_t block[BLOCK];
    uint64_t delta;
};

static void encipher(struct state *s)
{
    plain_gift_encipher_under(&s->key, s->block);
}

/* "Shift left by one, and add 0x1B if the top bit was set." */
static void double_delta(struct state *s, int times)
{
    for (int n = 0; n < times; n++) {
        s->delta = s->delta << 1 ^ (s->delta >> 63) * 0x1b;
    }
}

static void add_delta(struct state *s)
{
    for (int j = 0; j < HALF; j++) {
        s->block[j] ^= (uint8_t)(s->delta >> (8 * j));
    }
}

/* Feedback. The upper half takes the text side, the lower one the cipher side
   and delta; both sides have their padding bit at the same place. */
static inline void feed(struct state *s, const uint8_t *in, size_t len,
                        uint8_t *out, bool opening)
{
    for (size_t j = 0; j < len; j++) {
        uint8_t given = in[j];
        uint8_t sum = given ^ s->block[j];
        bool take_sum = (j < HALF) != opening;
        s->block[j] ^= take_sum ? sum : given;
        out[j] = sum;
    }
    if (len < BLOCK) {
        s->block[len] ^= 1;
    }
    add_delta(s);
}

/* "Each is fed as in sealing, in opening too. Outputs here are dropped." */
static void feed_data(struct state *s, const uint8_t *in, size_t len)
{
    uint8_t dropped[BLOCK];
    feed(s, in, len, dropped, false);
}

/* "Start". */
static void start(struct state *s, const uint8_t key[16],
                  const uint8_t nonce[12], size_t data_len, size_t len)
{
    plain_gift_prepare(key, &s->key);
    memset(s->block, 0, BLOCK - 12);
    memcpy(s->block + BLOCK - 12, nonce, 12);
    if (data_len == 0) {
        s->block[0] = len == 0 ? 3 : 1;
    }
    encipher(s);
}

/* "Associated data". */
static void process_data(struct state *s, const uint8_t *data, size_t len)
{
    static const uint8_t one[BLOCK] = {1};
    s->delta = 0;
    for (int j = HALF - 1; j >= 0; j--) {
        s->delta = s->delta << 8 | s->block[j];
    }
    double_delta(s, 1);
    if (len == 0) {
        double_delta(s, 2);
        feed_data(s, one, BLOCK);
        return;
    }
    for (; len > BLOCK; data += BLOCK, len -= BLOCK) {
        feed_data(s, data, BLOCK);
        encipher(s);
        double_delta(s, 1);
    }
    double_delta(s, len == BLOCK ? 1 : 2);
    feed_data(s, data, len);
}

/* "Text, if not empty". */
static void process_text(struct state *s, const uint8_t *in, size_t len,
                         uint8_t *out, bool opening)
{
    if (len == 0) {
        return;
    }
    for (; len > BLOCK; in += BLOCK, out += BLOCK, len -= BLOCK) {
        double_delta(s, 1);
        encipher(s);
        feed(s, in, BLOCK, out, opening);
    }
    double_delta(s, len == BLOCK ? 2 : 3);
    encipher(s);
    feed(s, in, len, out, opening);
}

/* "E of X with its halves swapped." */
static void make_tag(struct state *s, uint8_t tag[16])
{
    memcpy(tag, s->block + HALF, HALF);
    memcpy(tag + HALF, s->block, HALF);
    plain_gift_encipher_under(&s->key, tag);
}

static void process(const uint8_t key[16], const uint8_t nonce[12],
                    const uint8_t *data, size_t data_len, const uint8_t *in,
                    size_t len, uint8_t *out, uint8_t tag[16], bool opening)
{
    struct state s;
    start(&s, key, nonce, data_len, len);
    process_data(&s, data, data_len);
    process_text(&s, in, len, out, opening);
    make_tag(&s, tag);
}

void plain_hyena_seal(const uint8_t key[16], const uint8_t nonce[12],
                      const uint8_t *data, size_t data_len,
                      const uint8_t *text, size_t len, uint8_t *room,
                      uint8_t tag[16])
{
    process(key, nonce, data, data_len, text, len, room, tag, false);
}

bool plain_hyena_open(const uint8_t key[16], const uint8_t nonce[12],
                      const uint8_t *data, size_t data_len,
                      const uint8_t *ciphertext, size_t len,
                      const uint8_t tag[16], uint8_t *room)
{
    uint8_t recomputed[16];
    uint8_t difference = 0;
    process(key, nonce, data, data_len, ciphertext, len, room, recomputed,
            true);
    for (int j = 0; j < 16; j++) {
        difference |= tag[j] ^ recomputed[j];
    }
    if (difference != 0) {
        memset(room, 0, len);
    }
    return difference == 0;
}
