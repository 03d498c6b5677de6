/* The drawer and the key lookup in plain C, to measure the archive against.
   They take, answer and refuse what the archive's do: see vespruldo.h. */

#ifndef PLAIN_BOOKS_H
#define PLAIN_BOOKS_H

#include "vespruldo.h"

vespruldo_drawn plain_drawer_draw(vespruldo_drawer drawer);

vespruldo_found plain_key_find(const uint8_t *this_term, size_t this_term_len,
                               const uint8_t *last_term, size_t last_term_len,
                               uint16_t class_number);

#endif
