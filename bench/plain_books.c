/* The drawer and the key lookup as one would write them in C without further
   thought: each book is judged in one loop and searched in another. */

#include "plain_books.h"

#include <stdbool.h>

#define COUNT 2
#define CLASS 2
#define ENTRY 18

static void store(uint8_t *bytes, int len, uint64_t number)
{
    for (int j = 0; j < len; j++) {
        bytes[j] = (uint8_t)(number >> (8 * j));
    }
}

vespruldo_drawn plain_drawer_draw(vespruldo_drawer drawer)
{
    bool spent = drawer.count == UINT64_MAX;
    vespruldo_drawn drawn;
    drawn.number = spent ? VESPRULDO_DRAWER_SPENT : VESPRULDO_DONE;
    store(drawn.bytes, 4, spent ? 0 : drawer.reader);
    store(drawn.bytes + 4, 8, spent ? 0 : drawer.count);
    drawn.next.reader = drawer.reader;
    drawn.next.count = drawer.count + !spent;
    return drawn;
}

static unsigned number_at(const uint8_t *bytes)
{
    return bytes[0] | (unsigned)bytes[1] << 8;
}

static bool well_formed(const uint8_t *book, size_t len)
{
    if (len < COUNT || len != COUNT + ENTRY * (size_t)number_at(book)) {
        return false;
    }
    for (size_t at = COUNT + ENTRY; at < len; at += ENTRY) {
        if (number_at(book + at - ENTRY) >= number_at(book + at)) {
            return false;
        }
    }
    return true;
}

/* Where the class's key begins, or 0, where none can. */
static size_t key_offset(const uint8_t *book, size_t len, unsigned class_number)
{
    for (size_t at = COUNT; at < len; at += ENTRY) {
        if (number_at(book + at) == class_number) {
            return at + CLASS;
        }
    }
    return 0;
}

vespruldo_found plain_key_find(const uint8_t *this_term, size_t this_term_len,
                               const uint8_t *last_term, size_t last_term_len,
                               uint16_t class_number)
{
    vespruldo_found found = {VESPRULDO_BOOK_FORM, VESPRULDO_THIS_TERM, 0};
    if (!well_formed(this_term, this_term_len) ||
        !well_formed(last_term, last_term_len)) {
        return found;
    }
    found.number = VESPRULDO_DONE;
    found.offset = key_offset(this_term, this_term_len, class_number);
    if (found.offset == 0) {
        found.book = VESPRULDO_LAST_TERM;
        found.offset = key_offset(last_term, last_term_len, class_number);
    }
    if (found.offset == 0) {
        found.number = VESPRULDO_CLASS_MISSING;
        found.book = VESPRULDO_THIS_TERM;
    }
    return found;
}
