/* Times the drawer and the key lookup of the archive beside plain C, in one
   run. */

#include <string.h>

#include "plain_books.h"
#include "timing.h"
#include "vespruldo.h"

#define FEW 40
#define MANY 65535
#define BOOK(entries) (2 + 18 * (entries))

/* Each version draws from its own, so that all draw the same. */
#define FIRST {0x04030201, 0x0c0b0a0908070605}
static vespruldo_drawer drawers[VERSIONS] = {[ARCHIVE] = FIRST, [PLAIN] = FIRST};

static void keep_draw(enum version who, vespruldo_drawn drawn, uint8_t *nonce)
{
    expect(who, VESPRULDO_DONE, drawn.number);
    memcpy(nonce, drawn.bytes, sizeof drawn.bytes);
    drawers[who] = drawn.next;
}

static void archive_draw(uint8_t *nonce, size_t len)
{
    (void)len;
    keep_draw(ARCHIVE, vespruldo_drawer_draw(drawers[ARCHIVE]), nonce);
}

static void plain_draw(uint8_t *nonce, size_t len)
{
    (void)len;
    keep_draw(PLAIN, plain_drawer_draw(drawers[PLAIN]), nonce);
}

static const struct subject drawing = {
    .title = "drawing a nonce",
    .versions = {[ARCHIVE] = archive_draw, [PLAIN] = plain_draw},
    .lengths = {VESPRULDO_NONCE_BYTES},
};

/* Two books with as many entries each. Classes count from 0 in this term's and
   from 1 in last term's, so that the last entry of the latter is the only one
   for its class, which is looked up: nothing takes longer to find. */
static struct books {
    uint16_t entries;
    uint8_t this_term[BOOK(MANY)];
    uint8_t last_term[BOOK(MANY)];
} few = {.entries = FEW}, many = {.entries = MANY};

static void store(uint8_t bytes[2], unsigned number)
{
    bytes[0] = (uint8_t)number;
    bytes[1] = (uint8_t)(number >> 8);
}

static void write_books(struct books *books)
{
    store(books->this_term, books->entries);
    store(books->last_term, books->entries);
    for (unsigned e = 0; e < books->entries; e++) {
        store(books->this_term + BOOK(e), e);
        store(books->last_term + BOOK(e), e + 1);
    }
}

typedef vespruldo_found finder(const uint8_t *this_term, size_t this_term_len,
                               const uint8_t *last_term, size_t last_term_len,
                               uint16_t class_number);

/* Of the bytes, as many as both books have, only the first are written: what
   was found. */
static void look_up(enum version who, finder *find, uint8_t *bytes, size_t len)
{
    const struct books *books = len == 2 * BOOK(FEW) ? &few : &many;
    vespruldo_found found = find(books->this_term, len / 2, books->last_term,
                                 len / 2, books->entries);
    expect(who, VESPRULDO_DONE, found.number);
    memcpy(bytes, &found, sizeof found);
}

static void archive_look_up(uint8_t *bytes, size_t len)
{
    look_up(ARCHIVE, vespruldo_key_find, bytes, len);
}

static void plain_look_up(uint8_t *bytes, size_t len)
{
    look_up(PLAIN, plain_key_find, bytes, len);
}

static const struct subject lookup = {
    .title = "key lookup",
    .versions = {[ARCHIVE] = archive_look_up, [PLAIN] = plain_look_up},
    .lengths = {2 * BOOK(FEW), 2 * BOOK(MANY)},
};

int main(void)
{
    write_books(&few);
    write_books(&many);
    compare_versions(&drawing);
    compare_versions(&lookup);
    time_versions(&drawing);
    time_versions(&lookup);
    return 0;
}
