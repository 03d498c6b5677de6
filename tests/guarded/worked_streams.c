/* Key streams that were worked out by hand from document 02, K2, so that a
   function that only agrees with our own arithmetic does not pass. */

#include <inttypes.h>

#include "cases.h"

/* From this counter on, for a text of so many bytes: the number that is
   answered, and where the stream stops. */
struct worked {
    uint64_t start;
    size_t len;
    uint32_t number;
    uint64_t next;
};

static const struct worked table[] = {
    /* "beside 0, start plus blocks used". */
    {0, 0, 0, 0},
    {0, 1, 0, 1},
    {0, 63, 0, 1},
    {0, 64, 0, 1},
    {0, 65, 0, 2},
    {0, 128, 0, 2},
    {0, 129, 0, 3},
    {1, 0, 0, 1},
    {1, 1, 0, 2},
    {1, 63, 0, 2},
    {1, 64, 0, 2},
    {1, 65, 0, 3},
    {1, 128, 0, 3},
    {1, 129, 0, 4},
    /* "which may be 2^32". "A refusal answers the start." */
    {0xfffffffe, 0, 0, 0xfffffffe},
    {0xfffffffe, 1, 0, 0xffffffff},
    {0xfffffffe, 63, 0, 0xffffffff},
    {0xfffffffe, 64, 0, 0xffffffff},
    {0xfffffffe, 65, 0, 0x100000000},
    {0xfffffffe, 128, 0, 0x100000000},
    {0xfffffffe, 129, 8, 0xfffffffe},
    {0xffffffff, 0, 0, 0xffffffff},
    {0xffffffff, 1, 0, 0x100000000},
    {0xffffffff, 63, 0, 0x100000000},
    {0xffffffff, 64, 0, 0x100000000},
    {0xffffffff, 65, 8, 0xffffffff},
    {0xffffffff, 128, 8, 0xffffffff},
    {0xffffffff, 129, 8, 0xffffffff},
    /* "at 2^32 an empty text is done and any other is refused with 8". */
    {0x100000000, 0, 0, 0x100000000},
    {0x100000000, 1, 8, 0x100000000},
    {0x100000000, 63, 8, 0x100000000},
    {0x100000000, 64, 8, 0x100000000},
    {0x100000000, 65, 8, 0x100000000},
    {0x100000000, 128, 8, 0x100000000},
    {0x100000000, 129, 8, 0x100000000},
    /* "above 2^32 every text is, the empty one too." */
    {0x100000001, 0, 8, 0x100000001},
    {0x100000001, 1, 8, 0x100000001},
    {0x100000001, 63, 8, 0x100000001},
    {0x100000001, 64, 8, 0x100000001},
    {0x100000001, 65, 8, 0x100000001},
    {0x100000001, 128, 8, 0x100000001},
    {0x100000001, 129, 8, 0x100000001},
    {0x100000002, 0, 8, 0x100000002},
    {0x100000002, 1, 8, 0x100000002},
    {0x100000002, 63, 8, 0x100000002},
    {0x100000002, 64, 8, 0x100000002},
    {0x100000002, 65, 8, 0x100000002},
    {0x100000002, 128, 8, 0x100000002},
    {0x100000002, 129, 8, 0x100000002},
    {0x8000000000000000, 0, 8, 0x8000000000000000},
    {0x8000000000000000, 1, 8, 0x8000000000000000},
    {0x8000000000000000, 63, 8, 0x8000000000000000},
    {0x8000000000000000, 64, 8, 0x8000000000000000},
    {0x8000000000000000, 65, 8, 0x8000000000000000},
    {0x8000000000000000, 128, 8, 0x8000000000000000},
    {0x8000000000000000, 129, 8, 0x8000000000000000},
    {0xffffffffffffffff, 0, 8, 0xffffffffffffffff},
    {0xffffffffffffffff, 1, 8, 0xffffffffffffffff},
    {0xffffffffffffffff, 63, 8, 0xffffffffffffffff},
    {0xffffffffffffffff, 64, 8, 0xffffffffffffffff},
    {0xffffffffffffffff, 65, 8, 0xffffffffffffffff},
    {0xffffffffffffffff, 128, 8, 0xffffffffffffffff},
    {0xffffffffffffffff, 129, 8, 0xffffffffffffffff},
};

/* Makes the call with a key and a nonce of these lengths. */
static void check_stream(struct thread *thread, const struct worked *row,
                         size_t key_len, size_t nonce_len)
{
    struct call call = {.function = &functions[CHACHA20], .start = row->start};
    lend_random(thread, &call, FIRST, KEY, key_len);
    lend_random(thread, &call, FIRST, NONCE, nonce_len);
    lend_random(thread, &call, FIRST, TEXT, row->len);
    make_call(thread, &call);
    if (call.streamed.number != row->number ||
        call.streamed.next != row->next) {
        fail(thread,
             "from %" PRIu64 " on, %zu bytes: answered %" PRIu32
             " and %" PRIu64 ", not as worked out",
             row->start, row->len, call.streamed.number, call.streamed.next);
    }
    thread->running = NULL;
}

void check_worked_streams(struct thread *thread)
{
    for (size_t i = 0; i < sizeof table / sizeof table[0]; i++) {
        const struct worked *row = &table[i];
        const struct worked wrong_key = {row->start, row->len, 1, row->start};
        const struct worked wrong_nonce = {row->start, row->len, 2, row->start};
        check_stream(thread, row, 32, 12);
        /* 1 comes before 2, and both before 8; each answers the start. */
        check_stream(thread, &wrong_key, 31, 13);
        check_stream(thread, &wrong_nonce, 32, 11);
    }
}
