/* Memory that notices when it is touched outside of what was lent. */

#ifndef GUARDED_MEMORY_H
#define GUARDED_MEMORY_H

#include <stdbool.h>
#include <stddef.h>
#include <stdint.h>

/* Pages for one buffer at a time, with pages before and behind them that
   nobody may touch. */
struct arena {
    uint8_t *pages;
    size_t len;
    /* What the buffer held before a call. */
    uint8_t *before;
};

/* A buffer in an arena. It lies flush against the untouchable pages on one
   side, so that a single byte read or written beyond it faults at once; on the
   other side lie bytes of a known pattern. */
struct loan {
    /* What is handed over: `place`, or NULL at times where nothing is lent. */
    uint8_t *bytes;
    size_t len;
    uint8_t *place;
    uint8_t *guard;
    const struct arena *arena;
};

/* Room for buffers of up to `most` bytes. */
void make_arena(struct arena *arena, size_t most);
void free_arena(struct arena *arena);

/* The bytes are those that happen to lie there. */
struct loan lend(const struct arena *arena, size_t len, bool at_end);

/* Keeps what the buffer holds now in the arena's `before`. */
void remember(const struct loan *loan);

/* Are the bytes from this one on those that were remembered? */
bool kept_from(const struct loan *loan, size_t from);

bool guard_whole(const struct loan *loan);

/* Until it is unlocked, a write to the buffer faults, even one that writes the
   byte that is there already. */
void lock(const struct loan *loan);
void unlock(const struct loan *loan);

/* Is the address one of the arena's or of the pages around it? Then `*place`
   counts from the buffer's first byte. */
bool is_near(const struct loan *loan, const void *address, ptrdiff_t *place);

#endif
