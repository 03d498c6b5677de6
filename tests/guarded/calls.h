/* The functions of the archive as a table, and one way to call any of them
   that checks what documents 01 and 02 say of every call. */

#ifndef GUARDED_CALLS_H
#define GUARDED_CALLS_H

#include <vespruldo.h>

#include "memory.h"
#include "random.h"

/* What a buffer is for. */
enum role { KEY, NONCE, DATA, TEXT, LENGTHS, TAG, ROOM, ROLES };

/* Books, and two buffers to be compared, are lent in the arenas of text and
   room: no call has all of these. So are a pack, a card that is opened and a
   drawer that is loaded, in that of the text. */
#define THIS_TERM TEXT
#define LAST_TERM ROOM
#define PACK TEXT
#define CARD TEXT
#define STORED TEXT
#define ONE TEXT
#define OTHER ROOM

enum use { READ, WRITTEN, CHANGED };

/* One buffer of a function: its lengths, and the numbers for all others. */
struct part {
    enum role role;
    enum use use;
    size_t least, most;
    uint32_t too_short, too_long;
    /* The lengths are what there is beyond the text, and of a room so many bytes
       are written as it must have at least. */
    bool with_text;
};

enum function_name {
    CARD_SEAL, CARD_OPEN, SEAL, OPEN, SEAL_SHORT, OPEN_SHORT,
    SEAL_IN_PLACE, OPEN_IN_PLACE,
    DRAWER_START, DRAWER_DRAW, DRAWER_IV, DRAWER_STORE, DRAWER_LOAD,
    SEAL_BATCH, KEY_FIND, PACK_NEXT, PACK_JUDGE,
    LIONESS_ENCIPHER, LIONESS_DECIPHER,
    GIFT_ENCIPHER, GIFT_DECIPHER, CHACHA20, BLAKE2B,
    SAME, VERSION, INTERFACE,
    FUNCTIONS
};

struct call;
struct thread;

struct function {
    const char *name;
    /* Not where nothing is lent. */
    uint32_t (*run)(struct call *call);
    /* The number where all lengths are allowed, unless that is always 0. */
    uint32_t (*number)(const struct call *call);
    /* Fails unless the rest of the answer is right too, where there is one that
       every call must have. */
    void (*check_rest)(const struct thread *thread, const struct call *call);
    size_t part_count;
    /* In the order of their refusals. */
    struct part parts[6];
    /* Refusals that are not ones of a length, and 0 in places that are left.
       What is not a refusal is counted as one: that two buffers are the
       same. */
    uint32_t refusals[5];
    /* Works in one buffer, and this function gives back what was there. */
    const struct function *undone_by;
    /* Seals, and this function opens. */
    const struct function *opened_by;
    /* The same without associated data, or with it. */
    const struct function *other_form;
    /* Writes what SEAL writes, to other places. */
    bool as_seal;
};

extern const struct function functions[FUNCTIONS];

/* All numbers are smaller. */
#define NUMBERS 107

/* How many bytes each of the lengths has that a batch is given. */
#define LENGTH sizeof(uint64_t)

/* How many counters a key stream has: they go from 0 to 2^32 - 1. */
#define COUNTERS ((uint64_t)1 << 32)

struct call {
    const struct function *function;
    struct loan loans[ROLES];
    uint64_t start;
    uint16_t class_number;
    size_t place;
    vespruldo_drawer drawer;
    /* What is to be opened was sealed so; what is to be loaded, stored so. */
    bool opens;
    vespruldo_found found;
    vespruldo_loaded loaded;
    vespruldo_streamed streamed;
    vespruldo_batch batch;
    vespruldo_pack_card card;
    vespruldo_pack_judged judged;
};

/* Loans of a call lie in one of two sets of arenas, so that a second call can
   be compared with the first. */
enum set { FIRST, SECOND, SETS };

struct thread {
    unsigned number;
    uint64_t seed, case_number;
    struct random random;
    struct arena arenas[SETS][ROLES];
    /* How often each function answered each number. */
    uint64_t tally[FUNCTIONS][NUMBERS];
    /* What is going on, for the report of a failure. */
    const struct call *running;
};

void make_arenas(struct thread *thread);
void free_arenas(struct thread *thread);

/* Says what was wrong in which case, and ends the program. */
void fail(const struct thread *thread, const char *format, ...)
    __attribute__((format(printf, 2, 3), noreturn));

/* The same for a signal that came in the middle of a call. */
void fail_at(const struct thread *thread, int signal_number,
             const void *address) __attribute__((noreturn));

void require(const struct thread *thread, bool holds, const char *otherwise);

/* How long the text of a call is; of a card that is opened, the length that it
   says, where bytes that are not there count as 0. */
size_t text_length(const struct call *call);

/* How many bytes of the buffer are written when all is done. */
size_t written(const struct call *call, const struct part *part);

/* Does the function promise this number? */
bool promised(const struct function *function, uint32_t number);

/* Lends a buffer of random bytes for the role, on one side or the other. */
void lend_random(struct thread *thread, struct call *call, enum set set,
                 enum role role, size_t len);

/* Lends a buffer that holds these bytes. */
void lend_copy(struct thread *thread, struct call *call, enum set set,
               enum role role, const uint8_t *bytes, size_t len);

/* Makes the call and counts its answer, which is also returned. Fails unless
   the answer is the one asked for, everything outside of the buffers is as it
   was, and so is everything in them that the answer says nothing of. */
uint32_t make_call(struct thread *thread, struct call *call);

/* Counts an answer that did not come by make_call. */
void count(struct thread *thread, enum function_name name, uint32_t number);

/* What looking the class up must answer, by a plain search; it stands in
   books.c. */
vespruldo_found plain_find(const struct call *call);

/* The number that reading the pack must answer, by a plain walk; it stands in
   packs.c. */
uint32_t plain_pack_number(const struct call *call);

/* The number that sealing the batch must answer where key and data have right
   lengths, and whether its next drawer is the right one; they stand in
   batches.c. */
uint32_t plain_batch_number(const struct call *call);
void check_drawer(const struct thread *thread, const struct call *call);

#endif
