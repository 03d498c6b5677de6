/* Keeps a drawer in two pages of flash memory: no nonce comes twice, whenever
   the power goes and whichever page is damaged, and no power cut loses the
   drawer. go_on and next_nonces are a reader's; main tries them, cutting the
   power again and again. */

#include <stdbool.h>
#include <stdio.h>
#include <string.h>
#include <vespruldo.h>

/* ---- The flash memory: a write can be cut off after any byte, and is read
   back, since a worn page keeps its old bytes */

#define PAGES 2

static uint8_t pages[PAGES][VESPRULDO_DRAWER_BYTES];
static size_t until_cut; /* the bytes that are written before the power goes */
static int worn;         /* the page that is, or PAGES for none */

static bool write_page(int page, const uint8_t *bytes)
{
    for (size_t i = 0; i < sizeof pages[page]; i++) {
        if (until_cut == 0)
            return false;
        until_cut--;
        if (page != worn)
            pages[page][i] = bytes[i];
    }
    return memcmp(pages[page], bytes, sizeof pages[page]) == 0;
}

/* ---- The reader */

#define NOT_WRITTEN 255

/* What it has in memory: the drawer, and the page that is written next. */
struct reader {
    vespruldo_drawer drawer;
    int page;
};

#define AT_ONCE VESPRULDO_BATCH_MAX /* the most that are drawn in one go */
typedef uint8_t nonce_bytes[VESPRULDO_NONCE_BYTES];

/* Draws one nonce, or as many as a batch has cards, which is then sealed from
   the drawer that was there before. The drawer's next state is in flash memory
   before they are used, and until it is, the other page has the one before. */
static uint32_t next_nonces(struct reader *reader, nonce_bytes *nonces,
                            size_t count)
{
    vespruldo_drawer next = reader->drawer;
    for (size_t i = 0; i < count; i++) {
        vespruldo_drawn drawn = vespruldo_drawer_draw(next);
        if (drawn.number != VESPRULDO_DONE)
            return drawn.number;
        memcpy(nonces[i], drawn.bytes, sizeof drawn.bytes);
        next = drawn.next;
    }
    vespruldo_stored stored = vespruldo_drawer_store(next);
    if (!write_page(reader->page, stored.bytes))
        return NOT_WRITTEN;
    reader->drawer = next;
    reader->page = 1 - reader->page;
    return VESPRULDO_DONE;
}

/* After each start: goes on from the page with the greater count, and writes to
   the other one first. If only one can be loaded, the other may have had the
   greater count, and the numbers before that, as many as are drawn in one go,
   may be in use: so many are drawn once more and thrown away. */
static uint32_t go_on(struct reader *reader)
{
    nonce_bytes thrown_away[AT_ONCE];
    vespruldo_loaded loaded[PAGES];
    for (int page = 0; page < PAGES; page++)
        loaded[page] = vespruldo_drawer_load(pages[page], sizeof pages[page]);
    bool first = loaded[0].number == VESPRULDO_DONE;
    bool second = loaded[1].number == VESPRULDO_DONE;
    if (!first && !second)
        return VESPRULDO_DRAWER_DAMAGED; /* set it up with another number */
    int newer = second && (!first || loaded[1].drawer.count >
                                         loaded[0].drawer.count);
    reader->drawer = loaded[newer].drawer;
    reader->page = 1 - newer;
    return first && second ? VESPRULDO_DONE
                           : next_nonces(reader, thrown_away, AT_ONCE);
}

/* Once in the life of a reader number. Both pages are erased first, so that
   nobody goes on from an old drawer. */
static void set_up(uint32_t number)
{
    vespruldo_stored stored =
        vespruldo_drawer_store(vespruldo_drawer_start(number, 0));
    memset(pages, 0xff, sizeof pages);
    memcpy(pages[0], stored.bytes, sizeof stored.bytes);
}

/* ---- The trial */

#define WRITES 3
#define MOST (WRITES * VESPRULDO_DRAWER_BYTES)

static bool used[UINT8_MAX + 1];
static int bad;

/* A nonce's byte 4 is the low one of its count, and all that a trial needs. */
static void use(const nonce_bytes nonce)
{
    bad |= used[nonce[4]];
    used[nonce[4]] = true;
}

/* From a start until the power goes: batches, and single nonces between. */
static uint32_t live(size_t written)
{
    struct reader reader;
    nonce_bytes nonces[AT_ONCE];
    size_t count = AT_ONCE;
    until_cut = written;
    uint32_t number = go_on(&reader);
    while (number == VESPRULDO_DONE) {
        number = next_nonces(&reader, nonces, count);
        for (size_t i = 0; number == VESPRULDO_DONE && i < count; i++)
            use(nonces[i]);
        count = AT_ONCE + 1 - count;
    }
    return number;
}

/* Three lives. After each of the first two a bit is flipped in a page, or (with
   PAGES for a page) in none; after the first a page is worn, or none. A drawer
   may be lost, but not by cuts alone. */
static void try_it(const size_t cuts[2], const int flipped[2], int worn_then)
{
    set_up(42);
    memset(used, 0, sizeof used);
    worn = PAGES;
    for (int i = 0; i < 2; i++) {
        live(cuts[i]);
        worn = worn_then;
        if (flipped[i] < PAGES)
            pages[flipped[i]][20] ^= 1;
    }
    if (live(MOST) != NOT_WRITTEN && flipped[0] == PAGES && flipped[1] == PAGES)
        bad = 1;
}

int main(void)
{
    for (size_t cut = 0; cut <= MOST; cut++)
        for (size_t later = cut % 11; later <= MOST; later += 11)
            for (int kind = 0; kind < 27; kind++) {
                const size_t cuts[] = {cut, later};
                const int flipped[] = {kind / 3 % 3, kind % 3};
                try_it(cuts, flipped, kind / 9);
            }
    puts(bad ? "a nonce came twice, or a drawer was lost"
             : "no nonce came twice");
    return bad;
}
