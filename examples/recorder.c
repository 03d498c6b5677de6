/* Enciphers a recording in the bursts that it arrives in, and gives it back in
   one call or in other bursts. Each burst but the last has whole blocks of 64
   bytes, and each goes on where the one before it stopped: so all are one text.
   A key stream has no tag: a recording that somebody has changed comes back
   changed, and nothing tells. */

#include <stdbool.h>
#include <stdio.h>
#include <string.h>
#include <vespruldo.h>

enum { BLOCK = VESPRULDO_CHACHA20_BLOCK_BYTES, LONGEST = 4 * BLOCK };

/* A real key is read from the recorder's memory: never compile one in. */
static const uint8_t key[VESPRULDO_CHACHA20_KEY_BYTES] = {3, 1, 4, 1, 5, 9, 2};

/* What is kept of a recording. The counter needs 64 bits: cut to 32, the one
   behind the last would be 0, and the stream would begin again. */
struct recording {
    uint8_t nonce[VESPRULDO_CHACHA20_NONCE_BYTES];
    uint64_t next;
    size_t len;
    uint8_t bytes[LONGEST];
};

/* Each recording has a nonce of its own. If the power goes, the recording ends
   there and another is begun: a burst that was lost may have used counters that
   nobody kept. */
static uint32_t begin(struct recording *r, vespruldo_drawer *drawer)
{
    vespruldo_drawn drawn = vespruldo_drawer_draw(*drawer);
    if (drawn.number != VESPRULDO_DONE)
        return drawn.number;
    *drawer = drawn.next; /* a real one is stored here, as in flash.c */
    memcpy(r->nonce, drawn.bytes, sizeof r->nonce);
    r->next = 0;
    r->len = 0;
    return VESPRULDO_DONE;
}

/* A short burst is the last: it has used up a block that it did not fill. */
static bool takes(const struct recording *r, size_t len)
{
    return r->len == r->next * BLOCK && len <= sizeof r->bytes - r->len;
}

/* Enciphers a burst where it lies, and appends it. If that is refused, both are
   as they were. */
static uint32_t add(struct recording *r, uint8_t *burst, size_t len)
{
    vespruldo_streamed streamed = vespruldo_chacha20(
        key, sizeof key, r->nonce, sizeof r->nonce, r->next, burst, len);
    if (streamed.number != VESPRULDO_DONE)
        return streamed.number;
    memcpy(r->bytes + r->len, burst, len);
    r->len += len;
    r->next = streamed.next;
    return VESPRULDO_DONE;
}

/* Gives a recording back, so many bytes at a time: whole blocks, and at most
   VESPRULDO_TEXT_MAX. */
static uint32_t play(const struct recording *r, size_t most, uint8_t *sound)
{
    vespruldo_streamed streamed = {VESPRULDO_DONE, 0};
    memcpy(sound, r->bytes, r->len);
    for (size_t at = 0; at < r->len; at += most) {
        size_t len = r->len - at < most ? r->len - at : most;
        streamed = vespruldo_chacha20(key, sizeof key, r->nonce,
                                      sizeof r->nonce, streamed.next,
                                      sound + at, len);
        if (streamed.number != VESPRULDO_DONE)
            break;
    }
    return streamed.number;
}

int main(void)
{
    static const size_t bursts[] = {BLOCK, 2 * BLOCK, 20};
    vespruldo_drawer drawer = vespruldo_drawer_start(42, 0);
    struct recording r;
    uint8_t sound[LONGEST], copy[LONGEST];
    uint32_t number = begin(&r, &drawer);
    if (number != VESPRULDO_DONE)
        return (int)number;
    for (size_t i = 0; i < LONGEST; i++)
        sound[i] = copy[i] = (uint8_t)(i * i / 7);
    for (size_t i = 0; i < 3 && takes(&r, bursts[i]); i++) {
        number = add(&r, copy + r.len, bursts[i]);
        printf("burst of %u: %s, next %llu\n", (unsigned)bursts[i],
               vespruldo_words(number), (unsigned long long)r.next);
    }
    printf("one more: %s\n", takes(&r, BLOCK) ? "taken" : "not taken");
    for (size_t most = LONGEST; most >= BLOCK; most /= 2) {
        number = play(&r, most, copy);
        if (number != VESPRULDO_DONE || memcmp(copy, sound, r.len) != 0)
            return 1;
        printf("%u at a time: the same\n", (unsigned)most);
    }
    return 0;
}
