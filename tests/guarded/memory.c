/* See memory.h. */

#define _DEFAULT_SOURCE

#include "memory.h"

#include <stdio.h>
#include <stdlib.h>
#include <string.h>
#include <sys/mman.h>
#include <unistd.h>

#define GUARD_BYTES 128
/* On either side, and more than the longest buffer has: a place that was
   worked out from the length of another buffer does not jump over. All usual
   page sizes divide it. */
#define FENCE_BYTES ((size_t)2 << 20)

static void give_up(const char *what)
{
    perror(what);
    exit(1);
}

static void protect(uint8_t *pages, size_t len, int how)
{
    if (mprotect(pages, len, how) != 0) {
        give_up("mprotect");
    }
}

void make_arena(struct arena *arena, size_t most)
{
    size_t page = (size_t)sysconf(_SC_PAGESIZE);
    size_t len = (most + GUARD_BYTES + page - 1) / page * page;
    uint8_t *all = mmap(NULL, FENCE_BYTES + len + FENCE_BYTES, PROT_NONE,
                        MAP_PRIVATE | MAP_ANONYMOUS, -1, 0);
    if (all == MAP_FAILED) {
        give_up("mmap");
    }
    arena->pages = all + FENCE_BYTES;
    arena->len = len;
    arena->before = malloc(most);
    if (arena->before == NULL) {
        give_up("malloc");
    }
    protect(arena->pages, len, PROT_READ | PROT_WRITE);
}

void free_arena(struct arena *arena)
{
    if (munmap(arena->pages - FENCE_BYTES,
               FENCE_BYTES + arena->len + FENCE_BYTES) != 0) {
        give_up("munmap");
    }
    free(arena->before);
}

static uint8_t guard_byte(size_t i)
{
    return (uint8_t)(0x5a + 29 * i);
}

struct loan lend(const struct arena *arena, size_t len, bool at_end)
{
    struct loan loan = {.len = len, .arena = arena};
    if (at_end) {
        loan.place = arena->pages + arena->len - len;
        loan.guard = loan.place - GUARD_BYTES;
    } else {
        loan.place = arena->pages;
        loan.guard = loan.place + len;
    }
    loan.bytes = loan.place;
    for (size_t i = 0; i < GUARD_BYTES; i++) {
        loan.guard[i] = guard_byte(i);
    }
    return loan;
}

void remember(const struct loan *loan)
{
    memcpy(loan->arena->before, loan->place, loan->len);
}

bool kept_from(const struct loan *loan, size_t from)
{
    return memcmp(loan->place + from, loan->arena->before + from,
                  loan->len - from) == 0;
}

bool guard_whole(const struct loan *loan)
{
    bool whole = true;
    for (size_t i = 0; i < GUARD_BYTES; i++) {
        whole = whole && loan->guard[i] == guard_byte(i);
    }
    return whole;
}

void lock(const struct loan *loan)
{
    protect(loan->arena->pages, loan->arena->len, PROT_READ);
}

void unlock(const struct loan *loan)
{
    protect(loan->arena->pages, loan->arena->len, PROT_READ | PROT_WRITE);
}

bool is_near(const struct loan *loan, const void *address, ptrdiff_t *place)
{
    /* As numbers: pointers to different things can't be subtracted. */
    uintptr_t at = (uintptr_t)address;
    uintptr_t pages = (uintptr_t)loan->arena->pages;
    *place = (ptrdiff_t)(at - (uintptr_t)loan->place);
    return at >= pages - FENCE_BYTES &&
           at < pages + loan->arena->len + FENCE_BYTES;
}
