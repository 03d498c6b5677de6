/* What sealing a batch must show. */

#ifndef GUARDED_BATCHES_H
#define GUARDED_BATCHES_H

#include "calls.h"

/* Document 02's limits. */
#define MOST_CARDS 12
#define LONGEST_TEXT 1048576

/* What a batch is given: how long each buffer is, the lengths that are listed,
   and how many draws remain. */
struct batch {
    size_t key_len, data_len, text_len, room_len, tags_len;
    const uint64_t *lengths;
    size_t cards;
    uint64_t draws;
};

/* A batch of these lengths whose buffers are as long as they must be, with as
   many draws as cards, and without associated data. */
struct batch right_batch(const uint64_t *lengths, size_t cards);

/* Seals a batch like this, of random bytes, and checks all that follows if that
   is accepted. Answers the number. */
uint32_t check_batch(struct thread *thread, const struct batch *batch);

#endif
