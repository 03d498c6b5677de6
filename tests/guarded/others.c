/* Cases of the comparison, and of what the header itself has. */

#include <stdio.h>
#include <string.h>

#include "cases.h"

/* Flips a bit, or the highest bit of two bytes: a sum of differences would lose
   them. */
static void spoil(struct random *random, uint8_t *bytes, size_t len)
{
    if (len < 2 || one_in(random, 2)) {
        random_flip(random, bytes, len);
        return;
    }
    size_t first = random_below(random, len - 1);
    bytes[first] ^= 0x80;
    bytes[first + 1 + random_below(random, len - 1 - first)] ^= 0x80;
}

/* The same bytes, all but one or two of them, fewer or more of them, or
   others. */
void same_case(struct thread *thread)
{
    struct random *random = &thread->random;
    struct call call = {.function = &functions[SAME]};
    size_t len = short_length(random);
    lend_random(thread, &call, FIRST, ONE, len);
    const struct loan *one = &call.loans[ONE];
    size_t other_len = one_in(random, 4) ? short_length(random) : len;
    lend_random(thread, &call, FIRST, OTHER, other_len);
    if (!one_in(random, 8)) {
        memcpy(call.loans[OTHER].place, one->place,
               len < other_len ? len : other_len);
    }
    if (other_len > 0 && one_in(random, 3)) {
        spoil(random, call.loans[OTHER].place, other_len);
    }
    if (one_in(random, 16)) {
        /* "The buffers are only read, and may overlap." */
        call.loans[OTHER] = *one;
    }
    make_call(thread, &call);
    thread->running = NULL;
}

static bool is_a_number(uint32_t number)
{
    bool found = false;
    for (int f = 0; f < FUNCTIONS; f++) {
        found = found || promised(&functions[f], number);
    }
    return found;
}

/* Every number has words of its own; what is none has others. */
static void check_words(struct thread *thread)
{
    uint32_t number = (uint32_t)random_below(&thread->random, NUMBERS + 4);
    uint32_t other = (uint32_t)random_below(&thread->random, NUMBERS + 4);
    const char *words = vespruldo_words(number);
    require(thread, words != NULL && words[0] != '\0', "no words");
    bool told_apart = strcmp(words, vespruldo_words(other)) != 0;
    bool differ = number != other && (is_a_number(number) || is_a_number(other));
    require(thread, told_apart == differ, "two numbers and their words");
}

static void check_no_book(struct thread *thread)
{
    vespruldo_found found = vespruldo_key_find(
        vespruldo_no_book, sizeof vespruldo_no_book, vespruldo_no_book,
        sizeof vespruldo_no_book, (uint16_t)random_word(&thread->random));
    require(thread, found.number == 11, "vespruldo_no_book has no good form");
}

void header_case(struct thread *thread)
{
    const struct call version = {.function = &functions[VERSION]};
    char digits[16];
    thread->running = &version;
    uint32_t number = vespruldo_version();
    snprintf(digits, sizeof digits, "%u.%u.%u", (unsigned)(number / 10000),
             (unsigned)(number / 100 % 100), (unsigned)(number % 100));
    require(thread, number == VESPRULDO_VERSION, "not the header's number");
    require(thread, strcmp(digits, VESPRULDO_VERSION_TEXT) == 0,
            "not the header's text");
    count(thread, VERSION, 0);

    const struct call interface = {.function = &functions[INTERFACE]};
    thread->running = &interface;
    require(thread, vespruldo_interface_2() == VESPRULDO_INTERFACE,
            "not the header's number");
    count(thread, INTERFACE, 0);
    check_words(thread);
    check_no_book(thread);
    thread->running = NULL;
}
