/* Random numbers that are the same in every run with one seed. */

#ifndef GUARDED_RANDOM_H
#define GUARDED_RANDOM_H

#include <stdbool.h>
#include <stddef.h>
#include <stdint.h>

struct random {
    uint64_t state;
};

/* Every case has numbers of its own, so that a case is the same however many
   threads there are. */
struct random random_of_case(uint64_t seed, uint64_t case_number);

uint64_t random_word(struct random *random);

/* A number below `bound`, which is not 0. */
size_t random_below(struct random *random, size_t bound);

/* True once in so many times. */
bool one_in(struct random *random, size_t times);

void random_fill(struct random *random, uint8_t *bytes, size_t len);

/* Flips one bit of these bytes, of which there is at least one. */
void random_flip(struct random *random, uint8_t *bytes, size_t len);

#endif
