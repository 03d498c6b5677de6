/* See random.h. The generator is SplitMix64. */

#include "random.h"

#include <string.h>

struct random random_of_case(uint64_t seed, uint64_t case_number)
{
    struct random random = {seed};
    random.state = random_word(&random) + case_number;
    random.state = random_word(&random);
    return random;
}

uint64_t random_word(struct random *random)
{
    random->state += 0x9e3779b97f4a7c15;
    uint64_t word = random->state;
    word = (word ^ word >> 30) * 0xbf58476d1ce4e5b9;
    word = (word ^ word >> 27) * 0x94d049bb133111eb;
    return word ^ word >> 31;
}

size_t random_below(struct random *random, size_t bound)
{
    return (size_t)(random_word(random) % bound);
}

bool one_in(struct random *random, size_t times)
{
    return random_below(random, times) == 0;
}

void random_fill(struct random *random, uint8_t *bytes, size_t len)
{
    for (size_t i = 0; i < len; i += sizeof(uint64_t)) {
        uint64_t word = random_word(random);
        size_t left = len - i;
        memcpy(bytes + i, &word, left < sizeof word ? left : sizeof word);
    }
}

void random_flip(struct random *random, uint8_t *bytes, size_t len)
{
    size_t bit = random_below(random, 8 * len);
    bytes[bit / 8] ^= (uint8_t)(1u << bit % 8);
}
