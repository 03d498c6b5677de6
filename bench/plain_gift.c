/* GIFT-128 as one would write it in C without further thought: two halves of
   64 bits, the S-box nibble by nibble, every bit moved singly. Steps are those
   of document 01, GIFT-128. */

#include "plain_gift.h"

/* Step 1: the S-box. */
static const uint8_t sbox[16] = {
    0x1, 0xa, 0x4, 0xc, 0x6, 0xf, 0x3, 0x9,
    0x2, 0xd, 0xb, 0x7, 0x5, 0x0, 0x8, 0xe,
};

/* What the S-box turns into each of the sixteen. */
static const uint8_t sbox_back[16] = {
    0xd, 0x0, 0x8, 0x6, 0x2, 0xc, 0x4, 0xb,
    0xe, 0x7, 0x1, 0xa, 0x3, 0x9, 0xf, 0x5,
};

/* Step 2: the place to which bit i moves. */
#define PLACE(i) \
    (4 * ((i) / 16) + 32 * ((3 * (((i) % 16) / 4) + (i) % 4) % 4) + (i) % 4)
#define PLACES_4(i) PLACE(i), PLACE((i) + 1), PLACE((i) + 2), PLACE((i) + 3)
#define PLACES_16(i) \
    PLACES_4(i), PLACES_4((i) + 4), PLACES_4((i) + 8), PLACES_4((i) + 12)

static const uint8_t places[128] = {
    PLACES_16(0),  PLACES_16(16), PLACES_16(32), PLACES_16(48),
    PLACES_16(64), PLACES_16(80), PLACES_16(96), PLACES_16(112),
};

static uint64_t load(const uint8_t bytes[8])
{
    uint64_t number = 0;
    for (int j = 7; j >= 0; j--) {
        number = number << 8 | bytes[j];
    }
    return number;
}

static void store(uint8_t bytes[8], uint64_t number)
{
    for (int j = 0; j < 8; j++) {
        bytes[j] = (uint8_t)(number >> (8 * j));
    }
}

static uint64_t substitute(const uint8_t box[16], uint64_t half)
{
    uint64_t result = 0;
    for (int n = 0; n < 16; n++) {
        result |= (uint64_t)box[(half >> (4 * n)) & 15] << (4 * n);
    }
    return result;
}

static void set_bit(struct halves *state, unsigned place, uint64_t bit)
{
    if (place < 64) {
        state->low |= bit << place;
    } else {
        state->high |= bit << (place - 64);
    }
}

static struct halves move_bits(struct halves state)
{
    struct halves moved = {0, 0};
    for (int i = 0; i < 64; i++) {
        set_bit(&moved, places[i], (state.low >> i) & 1);
        set_bit(&moved, places[64 + i], (state.high >> i) & 1);
    }
    return moved;
}

static uint64_t get_bit(struct halves state, unsigned place)
{
    return (place < 64 ? state.low >> place : state.high >> (place - 64)) & 1;
}

static struct halves move_bits_back(struct halves moved)
{
    struct halves state = {0, 0};
    for (int i = 0; i < 64; i++) {
        state.low |= get_bit(moved, places[i]) << i;
        state.high |= get_bit(moved, places[64 + i]) << i;
    }
    return state;
}

/* Step 3 for one half: sixteen bits of U go to bits 4i+2, sixteen bits of V
   to bits 4i+1. */
static uint64_t spread(uint32_t u, uint32_t v)
{
    uint64_t result = 0;
    for (int i = 0; i < 16; i++) {
        result |= (uint64_t)((u >> i) & 1) << (4 * i + 2);
        result |= (uint64_t)((v >> i) & 1) << (4 * i + 1);
    }
    return result;
}

/* Step 4: the round constant's bits c5..c0 belong to bits 23, 19, .. 3. */
static uint64_t spread_constant(unsigned constant)
{
    uint64_t result = 0;
    for (int n = 0; n < 6; n++) {
        result |= (uint64_t)((constant >> n) & 1) << (4 * n + 3);
    }
    return result;
}

static uint64_t rotate_right_16(uint64_t word, int places_right)
{
    return (word >> places_right | word << (16 - places_right)) & 0xffff;
}

/* Step 5: k7..k4 lie in the high half, k3..k0 in the low one. */
static struct halves step_key(struct halves key)
{
    uint64_t k0 = key.low & 0xffff;
    uint64_t k1 = (key.low >> 16) & 0xffff;
    struct halves next;
    next.low = key.low >> 32 | key.high << 32;
    next.high = rotate_right_16(k1, 2) << 48 | rotate_right_16(k0, 12) << 32 |
                key.high >> 32;
    return next;
}

/* Steps 3 and 4 of all rounds. */
void plain_gift_prepare(const uint8_t key[16], struct plain_gift_key *prepared)
{
    struct halves k = {load(key), load(key + 8)};
    unsigned constant = 0;
    for (int round = 0; round < PLAIN_GIFT_ROUNDS; round++) {
        unsigned low_bit = ((constant >> 5) ^ (constant >> 4) ^ 1) & 1;
        constant = (constant << 1 & 0x3f) | low_bit;
        uint32_t u = (uint32_t)k.high;
        uint32_t v = (uint32_t)k.low;
        prepared->round_keys[round].low = spread(u, v) ^ spread_constant(constant);
        prepared->round_keys[round].high =
            spread(u >> 16, v >> 16) ^ (uint64_t)1 << 63;
        k = step_key(k);
    }
}

void plain_gift_encipher_under(const struct plain_gift_key *prepared,
                               uint8_t block[16])
{
    struct halves state = {load(block), load(block + 8)};
    for (int round = 0; round < PLAIN_GIFT_ROUNDS; round++) {
        state.low = substitute(sbox, state.low);
        state.high = substitute(sbox, state.high);
        state = move_bits(state);
        state.low ^= prepared->round_keys[round].low;
        state.high ^= prepared->round_keys[round].high;
    }
    store(block, state.low);
    store(block + 8, state.high);
}

void plain_gift_encipher(const uint8_t key[16], uint8_t block[16])
{
    struct plain_gift_key prepared;
    plain_gift_prepare(key, &prepared);
    plain_gift_encipher_under(&prepared, block);
}

void plain_gift_decipher(const uint8_t key[16], uint8_t block[16])
{
    struct plain_gift_key prepared;
    plain_gift_prepare(key, &prepared);
    struct halves state = {load(block), load(block + 8)};
    for (int round = PLAIN_GIFT_ROUNDS - 1; round >= 0; round--) {
        state.low ^= prepared.round_keys[round].low;
        state.high ^= prepared.round_keys[round].high;
        state = move_bits_back(state);
        state.low = substitute(sbox_back, state.low);
        state.high = substitute(sbox_back, state.high);
    }
    store(block, state.low);
    store(block + 8, state.high);
}
