/* Vespruldo: sealing for talking card readers.

   Link with libvespruldo.a. It is x86-64 code with System V calls, in ELF, for
   Linux and the like, not for Windows, macOS or x32; any x86-64 processor will
   do. It is position-independent and takes nothing but memcpy and memset, from
   any C library (tried with glibc and musl). It uses SSE2's registers, as all
   x86-64 code may: where there is no operating system, the program turns them
   on, and interrupts that call it save them.

   Buffers. A buffer is a pointer and a length: how many bytes there are at that
   place, or numbers where it is a list of those. A length that a function does
   not allow is refused, whatever it is. If the length is 0, the pointer is not
   followed and may be NULL. Two buffers of one call must not overlap if either
   is written (the pointers without `const`): the answer could be DONE, and the
   bytes wrong. Where text and ciphertext are to be one buffer, the functions
   that end in _in_place seal and open it.

   Threads. No function keeps a pointer, holds memory of its own between calls
   or takes any from a heap. Calls may run at the same time as long as none
   writes to a buffer that another was lent. To draw from a drawer and to store
   its next state is one step: threads and interrupts that share a drawer need a
   lock around it.

   Numbers. The answer is VESPRULDO_DONE or the number of the refusal; if
   several apply, the first that the function's comment names (lesson packs say
   it otherwise). A refusal changes no buffer, with one exception: WRONG_TAG
   (see the functions that open). Comments leave out the prefix VESPRULDO_.

   What each function of the archive answers and what its buffers then hold is
   proved for all inputs. docs/READING.md says what is believed and what is only
   tested, docs/SECURITY.md what is known about timing and about secrets left
   behind. Installed, pages and examples are in share/doc/vespruldo. */

#ifndef VESPRULDO_H
#define VESPRULDO_H

#if !defined(__x86_64__) || defined(__ILP32__)
#error "libvespruldo.a is x86-64 code, and this compiler makes other code"
#endif
#if defined(_WIN32) || defined(__CYGWIN__)
#error "libvespruldo.a has System V calls, and Windows has others"
#endif
#if defined(__APPLE__)
#error "libvespruldo.a is in ELF, which macOS does not link"
#endif

#include <stdbool.h>
#include <stddef.h>
#include <stdint.h>

#ifdef __cplusplus
extern "C" {
#endif

/* The version of this header: 10000 * major + 100 * minor + patch, and as a
   text. vespruldo_version answers the archive's. */
#define VESPRULDO_VERSION 500
#define VESPRULDO_VERSION_TEXT "0.5.0"

/* Lengths in bytes: _BYTES is the only one allowed, _MIN and _MAX are the least
   and the greatest, _EXTRA is what a card has besides its ciphertext. A text of
   ChaCha20 need not have whole blocks. */
#define VESPRULDO_KEY_BYTES 16 /* for sealing, opening and GIFT-128 */
#define VESPRULDO_NONCE_BYTES 12
#define VESPRULDO_TAG_BYTES 16
#define VESPRULDO_CARD_EXTRA 30
#define VESPRULDO_CARD_TEXT_MAX 65535
#define VESPRULDO_DRAWER_BYTES 44    /* a drawer that is stored */
#define VESPRULDO_PACK_MAX 16893     /* a lesson pack that is not refused */
#define VESPRULDO_DATA_MAX 65536     /* associated data */
#define VESPRULDO_TEXT_MAX 1048576   /* HyENA, ChaCha20, BLAKE2b; ciphertext */
#define VESPRULDO_GIFT_BLOCK_BYTES 16
#define VESPRULDO_CHACHA20_KEY_BYTES 32
#define VESPRULDO_CHACHA20_NONCE_BYTES 12
#define VESPRULDO_CHACHA20_BLOCK_BYTES 64
#define VESPRULDO_BLAKE2B_KEY_MAX 64
#define VESPRULDO_BLAKE2B_DIGEST_MIN 1
#define VESPRULDO_BLAKE2B_DIGEST_MAX 64
#define VESPRULDO_LIONESS_KEY_BYTES 128
#define VESPRULDO_LIONESS_IV_BYTES 48
#define VESPRULDO_LIONESS_BLOCK_MIN 33
#define VESPRULDO_LIONESS_BLOCK_MAX 1048608

/* Answers. */
#define VESPRULDO_DONE 0
#define VESPRULDO_KEY_LENGTH 1
#define VESPRULDO_NONCE_LENGTH 2
#define VESPRULDO_DATA_LENGTH 3
#define VESPRULDO_TEXT_LENGTH 4
#define VESPRULDO_TAG_LENGTH 5
#define VESPRULDO_ROOM_LENGTH 6
#define VESPRULDO_WRONG_TAG 7
#define VESPRULDO_STREAM_TOO_LONG 8
#define VESPRULDO_DRAWER_SPENT 9
#define VESPRULDO_BOOK_FORM 10
#define VESPRULDO_CLASS_MISSING 11
#define VESPRULDO_CUT_SHORT 12
#define VESPRULDO_COUNT_OR_LENGTH 13
#define VESPRULDO_BAD_SHUFFLE 14
#define VESPRULDO_LEFT_OVER 15
#define VESPRULDO_BATCH_FORM 18
#define VESPRULDO_DRAWER_DAMAGED 106

/* What an answer means, in words; never NULL. */
static inline const char *vespruldo_words(uint32_t number)
{
    switch (number) {
    case VESPRULDO_DONE:
        return "done";
    case VESPRULDO_KEY_LENGTH:
        return "key has a wrong length";
    case VESPRULDO_NONCE_LENGTH:
        return "nonce or iv has a wrong length";
    case VESPRULDO_DATA_LENGTH:
        return "associated data too long";
    case VESPRULDO_TEXT_LENGTH:
        return "text or block length not allowed";
    case VESPRULDO_TAG_LENGTH:
        return "tag, or room for it, not 16 bytes";
    case VESPRULDO_ROOM_LENGTH:
        return "room too short (digest: not 1 to 64)";
    case VESPRULDO_WRONG_TAG:
        return "opening: tag is not the recomputed one";
    case VESPRULDO_STREAM_TOO_LONG:
        return "key stream: start counter plus blocks needed exceeds 2^32";
    case VESPRULDO_DRAWER_SPENT:
        return "drawer spent";
    case VESPRULDO_BOOK_FORM:
        return "either key book badly formed";
    case VESPRULDO_CLASS_MISSING:
        return "neither book has an entry for the class";
    case VESPRULDO_CUT_SHORT:
        return "cut short";
    case VESPRULDO_COUNT_OR_LENGTH:
        return "count or length not allowed";
    case VESPRULDO_BAD_SHUFFLE:
        return "bad shuffle";
    case VESPRULDO_LEFT_OVER:
        return "bytes left over";
    case VESPRULDO_BATCH_FORM:
        return "no cards, more than 12, or lengths that don't add up to the text";
    case VESPRULDO_DRAWER_DAMAGED:
        return "drawer file damaged";
    default:
        return "not a number of this library";
    }
}

/* What compilers that can warn are told of a function. LOOK_AT_ANSWER: the
   answer says whether anything was done, and must not be ignored. RESTRICT: no
   other buffer of the call may overlap this one, which is written. READS,
   WRITES and CHANGES: parameter p points to as many bytes as parameter n says,
   which are read, written, or both. KEPT: not left out, though nobody uses
   it. */
#if defined(__GNUC__)
#define VESPRULDO_LOOK_AT_ANSWER __attribute__((warn_unused_result))
#else
#define VESPRULDO_LOOK_AT_ANSWER
#endif

#if defined(__GNUC__)
#define VESPRULDO_RESTRICT __restrict
#elif defined(__STDC_VERSION__) && __STDC_VERSION__ >= 199901L
#define VESPRULDO_RESTRICT restrict
#else
#define VESPRULDO_RESTRICT
#endif

#if defined(__has_attribute)
#if __has_attribute(access)
#define VESPRULDO_READS(p, n) __attribute__((access(read_only, p, n)))
#define VESPRULDO_WRITES(p, n) __attribute__((access(write_only, p, n)))
#define VESPRULDO_CHANGES(p, n) __attribute__((access(read_write, p, n)))
#endif
#if __has_attribute(retain)
#define VESPRULDO_KEPT __attribute__((used, retain))
#endif
#endif
#if !defined(VESPRULDO_READS)
#define VESPRULDO_READS(p, n)
#define VESPRULDO_WRITES(p, n)
#define VESPRULDO_CHANGES(p, n)
#endif
#if !defined(VESPRULDO_KEPT)
#define VESPRULDO_KEPT __attribute__((used))
#endif

/* ---- Version ---- */

/* The archive's version, as VESPRULDO_VERSION is this header's. */
uint32_t vespruldo_version(void);

/* Whatever includes this header refers to this function (with GCC and Clang),
   and so links the archive even if it calls nothing. In an archive with other
   calls or structs the name has another number: if a linker says that it is
   undefined, the archive is missing or not of this header's interface, and both
   must be taken from one version. Without this the two would link, and fail
   when run. A compiler that knows no attribute `retain` (GCC before 11, Clang
   before 13) loses it under --gc-sections. A test that has functions of its own
   in the archive's place defines this one too. Into a shared library the
   archive is linked with -Wl,--exclude-libs,libvespruldo.a, or its functions
   could be taken for those of another library's archive. */
#define VESPRULDO_INTERFACE 2
uint32_t vespruldo_interface_2(void);

#if defined(__GNUC__)
VESPRULDO_KEPT
static uint32_t (*const vespruldo_asks_for)(void) = vespruldo_interface_2;
#endif

/* ---- Cards: HyENA over GIFT-128 ---- */

/* A card is what is handed on: the nonce in 12 bytes, the length of the text in
   2 (little-endian), the ciphertext, which is as long as the text, and the tag
   in 16. So the text of a card has at most 65,535 bytes, and the card 30 more.
   The office's tool `cards` makes and opens the same cards. */

/* Seals `text` as a card, which it writes to `room`. The rest of longer room
   keeps its bytes. `data` is the associated data: it is neither hidden nor in
   the card, and opening must be given the same.

   Never seal two texts under one key and nonce: take each nonce from a drawer.

   Refusals: KEY_LENGTH (key not 16 bytes), NONCE_LENGTH (nonce not 12),
   DATA_LENGTH (over 65,536), TEXT_LENGTH (over 65,535), ROOM_LENGTH (room
   shorter than the text and 30 bytes). */
VESPRULDO_LOOK_AT_ANSWER
VESPRULDO_READS(1, 2) VESPRULDO_READS(3, 4) VESPRULDO_READS(5, 6)
VESPRULDO_READS(7, 8) VESPRULDO_WRITES(9, 10)
uint32_t vespruldo_card_seal(const uint8_t *key, size_t key_len,
                             const uint8_t *nonce, size_t nonce_len,
                             const uint8_t *data, size_t data_len,
                             const uint8_t *text, size_t text_len,
                             uint8_t *VESPRULDO_RESTRICT room, size_t room_len);

/* Opens a card: writes the text to `room`. It has `card_len` - 30 bytes, and
   room for so many is always enough; if `card_len` is less than 30, which is no
   card, no room is needed. The rest of longer room keeps its bytes.

   Refusals: KEY_LENGTH (key not 16 bytes), DATA_LENGTH (over 65,536), CUT_SHORT
   (the card has fewer bytes than the length in it and 30), LEFT_OVER (it has
   more), ROOM_LENGTH (room shorter than the text), WRONG_TAG (key, data or card
   is not what it was at sealing). After WRONG_TAG the first bytes of the room,
   as many as the text has, are each 0; the rest is unchanged. */
VESPRULDO_LOOK_AT_ANSWER
VESPRULDO_READS(1, 2) VESPRULDO_READS(3, 4) VESPRULDO_READS(5, 6)
VESPRULDO_WRITES(7, 8)
uint32_t vespruldo_card_open(const uint8_t *key, size_t key_len,
                             const uint8_t *data, size_t data_len,
                             const uint8_t *card, size_t card_len,
                             uint8_t *VESPRULDO_RESTRICT room, size_t room_len);

/* Seals `text` without making a card of it, for another layout or a longer
   text: writes the ciphertext, as many bytes as the text has, to `room` and the
   tag to `tag`. The rest of longer room keeps its bytes. Data and nonce are as
   for vespruldo_card_seal.

   Refusals: KEY_LENGTH (key not 16 bytes), NONCE_LENGTH (nonce not 12),
   DATA_LENGTH (over 65,536), TEXT_LENGTH (over 1,048,576), TAG_LENGTH (tag not
   16), ROOM_LENGTH (room shorter than the text). */
VESPRULDO_LOOK_AT_ANSWER
VESPRULDO_READS(1, 2) VESPRULDO_READS(3, 4) VESPRULDO_READS(5, 6)
VESPRULDO_READS(7, 8) VESPRULDO_WRITES(9, 10) VESPRULDO_WRITES(11, 12)
uint32_t vespruldo_seal(const uint8_t *key, size_t key_len,
                        const uint8_t *nonce, size_t nonce_len,
                        const uint8_t *data, size_t data_len,
                        const uint8_t *text, size_t text_len,
                        uint8_t *VESPRULDO_RESTRICT room, size_t room_len,
                        uint8_t *VESPRULDO_RESTRICT tag, size_t tag_len);

/* Opens what was sealed: writes the text, as many bytes as `ciphertext` has, to
   `room`. The rest of longer room keeps its bytes.

   Refusals: as for vespruldo_seal, and last WRONG_TAG (the tag is not the
   recomputed one: key, nonce, data, ciphertext or tag is not what it was at
   sealing). After WRONG_TAG the first bytes of the room, as many as the
   ciphertext has, are each 0; the rest is unchanged. */
VESPRULDO_LOOK_AT_ANSWER
VESPRULDO_READS(1, 2) VESPRULDO_READS(3, 4) VESPRULDO_READS(5, 6)
VESPRULDO_READS(7, 8) VESPRULDO_READS(9, 10) VESPRULDO_WRITES(11, 12)
uint32_t vespruldo_open(const uint8_t *key, size_t key_len,
                        const uint8_t *nonce, size_t nonce_len,
                        const uint8_t *data, size_t data_len,
                        const uint8_t *ciphertext, size_t ciphertext_len,
                        const uint8_t *tag, size_t tag_len,
                        uint8_t *VESPRULDO_RESTRICT room, size_t room_len);

/* Seals without associated data: vespruldo_seal with `data` empty. Short is the
   form of the call, not the text.

   Refusals: as for vespruldo_seal, but never DATA_LENGTH. */
VESPRULDO_LOOK_AT_ANSWER
VESPRULDO_READS(1, 2) VESPRULDO_READS(3, 4) VESPRULDO_READS(5, 6)
VESPRULDO_WRITES(7, 8) VESPRULDO_WRITES(9, 10)
uint32_t vespruldo_seal_short(const uint8_t *key, size_t key_len,
                              const uint8_t *nonce, size_t nonce_len,
                              const uint8_t *text, size_t text_len,
                              uint8_t *VESPRULDO_RESTRICT room, size_t room_len,
                              uint8_t *VESPRULDO_RESTRICT tag, size_t tag_len);

/* Opens what was sealed without associated data: vespruldo_open with `data`
   empty.

   Refusals: as for vespruldo_open, but never DATA_LENGTH. */
VESPRULDO_LOOK_AT_ANSWER
VESPRULDO_READS(1, 2) VESPRULDO_READS(3, 4) VESPRULDO_READS(5, 6)
VESPRULDO_READS(7, 8) VESPRULDO_WRITES(9, 10)
uint32_t vespruldo_open_short(const uint8_t *key, size_t key_len,
                              const uint8_t *nonce, size_t nonce_len,
                              const uint8_t *ciphertext, size_t ciphertext_len,
                              const uint8_t *tag, size_t tag_len,
                              uint8_t *VESPRULDO_RESTRICT room,
                              size_t room_len);

/* Seals in place: vespruldo_seal where text and room are one buffer, which then
   holds the ciphertext. examples/in_place.c makes a card so.

   Refusals: as for vespruldo_seal, but never ROOM_LENGTH. */
VESPRULDO_LOOK_AT_ANSWER
VESPRULDO_READS(1, 2) VESPRULDO_READS(3, 4) VESPRULDO_READS(5, 6)
VESPRULDO_CHANGES(7, 8) VESPRULDO_WRITES(9, 10)
uint32_t vespruldo_seal_in_place(const uint8_t *key, size_t key_len,
                                 const uint8_t *nonce, size_t nonce_len,
                                 const uint8_t *data, size_t data_len,
                                 uint8_t *VESPRULDO_RESTRICT buffer,
                                 size_t buffer_len,
                                 uint8_t *VESPRULDO_RESTRICT tag,
                                 size_t tag_len);

/* Opens in place: vespruldo_open where ciphertext and room are one buffer,
   which then holds the text.

   Refusals: as for vespruldo_open, but never ROOM_LENGTH. After WRONG_TAG the
   whole buffer is 0: the ciphertext is gone, and cannot be tried again. */
VESPRULDO_LOOK_AT_ANSWER
VESPRULDO_READS(1, 2) VESPRULDO_READS(3, 4) VESPRULDO_READS(5, 6)
VESPRULDO_CHANGES(7, 8) VESPRULDO_READS(9, 10)
uint32_t vespruldo_open_in_place(const uint8_t *key, size_t key_len,
                                 const uint8_t *nonce, size_t nonce_len,
                                 const uint8_t *data, size_t data_len,
                                 uint8_t *VESPRULDO_RESTRICT buffer,
                                 size_t buffer_len,
                                 const uint8_t *tag, size_t tag_len);

/* ---- Nonces and ivs ---- */

/* A drawer: a reader number and a count. Its draws never repeat as long as each
   is taken from the drawer that the last one handed back. So keep the drawer
   where a restart finds it: after each draw store `next`, and use what was
   drawn only when that is done (of a batch, see vespruldo_seal_batch). A drawer
   started again from an older count hands out the same numbers again. Two
   readers that share a key need different reader numbers.

   What is stored is what vespruldo_drawer_store answers, never the bytes of
   this struct: it has padding, which holds whatever was in memory. */
typedef struct vespruldo_drawer {
    uint32_t reader;
    uint64_t count;
} vespruldo_drawer;

/* A drawn nonce, and the drawer to draw from next. */
typedef struct vespruldo_drawn {
    uint32_t number; /* DONE or DRAWER_SPENT */
    uint8_t bytes[VESPRULDO_NONCE_BYTES];
    vespruldo_drawer next;
} vespruldo_drawn;

/* A drawn iv for LIONESS, and the drawer to draw from next. */
typedef struct vespruldo_drawn_iv {
    uint32_t number; /* DONE or DRAWER_SPENT */
    uint8_t bytes[VESPRULDO_LIONESS_IV_BYTES];
    vespruldo_drawer next;
} vespruldo_drawn_iv;

/* A drawer as it is stored. */
typedef struct vespruldo_stored {
    uint8_t bytes[VESPRULDO_DRAWER_BYTES];
} vespruldo_stored;

/* A drawer that was stored. */
typedef struct vespruldo_loaded {
    uint32_t number; /* DONE or DRAWER_DAMAGED */
    vespruldo_drawer drawer;
} vespruldo_loaded;

/* The drawer with this reader number and this count. */
vespruldo_drawer vespruldo_drawer_start(uint32_t reader, uint64_t count);

/* Draws a nonce: the reader number in 4 bytes, then the count in 8, both
   little-endian. In `next` the count is one greater.

   Refusal: DRAWER_SPENT (the count is 2^64 - 1). `next` is then the same drawer
   and the bytes are all 0, which is no nonce: look at `number` first. */
VESPRULDO_LOOK_AT_ANSWER
vespruldo_drawn vespruldo_drawer_draw(vespruldo_drawer drawer);

/* Draws an iv: one draw written four times.

   Refusal: as for vespruldo_drawer_draw. */
VESPRULDO_LOOK_AT_ANSWER
vespruldo_drawn_iv vespruldo_drawer_iv(vespruldo_drawer drawer);

/* The bytes to store a drawer by: the reader number in 4, the count in 8, both
   little-endian, and the BLAKE2b digest of these 12 in 32, without a key.

   Where writing can be cut off, a drawer needs two places, as in
   examples/flash.c: write to the two in turn, and read back what was written;
   after a restart go on from the one with the greater count, and write to the
   other first; if only one can be loaded, the other may have been ahead by all
   that is drawn in one go, for a batch twelve numbers: draw so many, store the
   drawer, and throw them away. Erase both before a new drawer is written.

   The bytes are the drawer file of the office's tool `cards`. Programs that
   draw from one file must take turns, or both draw the same number: while it
   draws, each keeps a folder FILE.next, as examples/reader.c does. */
vespruldo_stored vespruldo_drawer_store(vespruldo_drawer drawer);

/* The drawer that was stored in these bytes.

   Refusal: DRAWER_DAMAGED (not, to the last byte, what vespruldo_drawer_store
   answers for a drawer). The drawer is then reader 0 with the count 2^64 - 1,
   which is spent. If no other place has the drawer, its count is lost: start
   another, with a reader number that was never used under the key. */
VESPRULDO_LOOK_AT_ANSWER
VESPRULDO_READS(1, 2)
vespruldo_loaded vespruldo_drawer_load(const uint8_t *bytes, size_t bytes_len);

/* ---- Batches: up to twelve cards in one call ---- */

#define VESPRULDO_BATCH_MAX 12 /* cards of a batch */

/* A batch that was sealed, and the drawer to draw from next. */
typedef struct vespruldo_batch {
    uint32_t number; /* DONE or the refusal */
    vespruldo_drawer next;
} vespruldo_batch;

/* Seals 1 to 12 texts, each as vespruldo_seal does, in order and with the next
   draws of `drawer`. `texts` has the texts end to end and `lengths` the length
   of each in bytes; `lengths_len` says how many lengths these are, not how many
   bytes. Any text may be empty, and together they may be longer than TEXT_MAX.
   Writes the ciphertexts end to end to `room`, whose rest keeps its bytes, and
   the tags in the same order, 16 bytes each, to `tags`. All cards have the same
   associated data.

   Each card is opened by itself, under its nonce. That is not answered, but can
   be drawn again: the first from `drawer`, each other from the `next` of the
   one before (examples/lesson.c). Nothing else may be sealed under them, and
   none of the drawers that these draws hand back is stored.

   Store `next` before anything of the batch is handed on. Until then `room` and
   `tags` must be memory that nobody else reads and that a restart loses. Where
   they are not, store first: draw once for each card, store the last `next`,
   and then seal the batch from the drawer before. A refused batch has drawn
   nothing: `next` is then the same drawer.

   Refusals: KEY_LENGTH (key not 16 bytes), DATA_LENGTH (over 65,536),
   TEXT_LENGTH (any one of the lengths over 1,048,576), TAG_LENGTH (tags not 16
   bytes for each length), ROOM_LENGTH (room shorter than all of `texts`),
   DRAWER_SPENT (fewer draws are left than there are lengths), BATCH_FORM (not 1
   to 12 lengths, or they do not add up to `texts_len`). */
VESPRULDO_LOOK_AT_ANSWER
VESPRULDO_READS(1, 2) VESPRULDO_READS(3, 4) VESPRULDO_READS(5, 6)
VESPRULDO_READS(7, 8) VESPRULDO_WRITES(10, 11) VESPRULDO_WRITES(12, 13)
vespruldo_batch vespruldo_seal_batch(const uint8_t *key, size_t key_len,
                                     const uint8_t *data, size_t data_len,
                                     const uint8_t *texts, size_t texts_len,
                                     const uint64_t *lengths,
                                     size_t lengths_len,
                                     vespruldo_drawer drawer,
                                     uint8_t *VESPRULDO_RESTRICT room,
                                     size_t room_len,
                                     uint8_t *VESPRULDO_RESTRICT tags,
                                     size_t tags_len);

/* ---- Key books ---- */

/* Where the 16 bytes of a key begin: at `offset` in the book that is named. */
typedef struct vespruldo_found {
    uint32_t number; /* DONE, BOOK_FORM or CLASS_MISSING */
    uint32_t book;   /* VESPRULDO_THIS_TERM or VESPRULDO_LAST_TERM */
    size_t offset;
} vespruldo_found;

#define VESPRULDO_THIS_TERM 0
#define VESPRULDO_LAST_TERM 1

/* Looks up the key of a class in this term's book and, if that has none, in
   last term's. A key book is a count of two bytes, then for each entry a class
   number of two bytes and a key of 16; numbers are little-endian. Where there
   is no book, lend vespruldo_no_book: a book of length 0 is BOOK_FORM. The
   books are only read, and may overlap or be the same.

   Refusals: BOOK_FORM (either book is not 2 + 18 * count bytes long, or its
   class numbers do not strictly rise; both are judged whole before either is
   searched), CLASS_MISSING (neither has an entry for the class). `book` and
   `offset` are then 0, and there is no key. */
VESPRULDO_LOOK_AT_ANSWER
VESPRULDO_READS(1, 2) VESPRULDO_READS(3, 4)
vespruldo_found vespruldo_key_find(const uint8_t *this_term, size_t this_term_len,
                                   const uint8_t *last_term, size_t last_term_len,
                                   uint16_t class_number);

/* A book without entries. */
static const uint8_t vespruldo_no_book[2] = {0, 0};

/* The 16 bytes of the key that was found in these books, or NULL where the
   lookup was refused. */
static inline const uint8_t *vespruldo_found_key(vespruldo_found found,
                                                 const uint8_t *this_term,
                                                 const uint8_t *last_term)
{
    if (found.number != VESPRULDO_DONE) {
        return NULL;
    }
    return (found.book == VESPRULDO_THIS_TERM ? this_term : last_term) +
           found.offset;
}

/* ---- Lesson packs ---- */

/* A lesson pack has words, perhaps a song, and a shuffle. A byte counts the
   words, 1 to 12; each is a length byte, 1 to 40, and its bytes. A byte counts
   the songs, 0 or 1; a song is a length of two bytes (little-endian), 1 to
   16,384, and its bytes. A byte counts the shuffle's entries, as many as words;
   each is a byte, and every word's place, from 0, is there once. The cards of a
   pack are parts of it, and have nothing to do with sealed cards.
   examples/pack.c judges a pack and plays it. */

/* What a reader of a lesson pack answers: a card, done, or a refusal. */
typedef struct vespruldo_pack_card {
    uint32_t number; /* DONE, with each card and behind the last; or refused */
    uint32_t kind;   /* NO_CARD if there is no card any more */
    size_t start;    /* of a card: where in the pack its bytes start */
    size_t length;   /* and how many they are, at least 1 */
    size_t bad;      /* of BAD_SHUFFLE: which entry, from 0, is the first bad */
    size_t next;     /* the place to ask for next */
} vespruldo_pack_card;

#define VESPRULDO_NO_CARD 0
#define VESPRULDO_WORD 1
#define VESPRULDO_SONG 2
#define VESPRULDO_SHUFFLE 3

/* What a lesson pack is as a whole. */
typedef struct vespruldo_pack_judged {
    uint32_t number; /* DONE or the refusal */
    size_t cards;    /* how many cards the walk gives before it ends */
    size_t bad;      /* of BAD_SHUFFLE: which entry, from 0, is the first bad */
} vespruldo_pack_judged;

/* The next card. A reader holds a pack and its place, how many cards have been
   given: it starts at 0 and goes on at `next`.

       vespruldo_pack_card card = vespruldo_pack_next(pack, pack_len, 0);
       while (card.kind != VESPRULDO_NO_CARD) {
           play(card.kind, pack + card.start, card.length);
           card = vespruldo_pack_next(pack, pack_len, card.next);
       }
       if (card.number != VESPRULDO_DONE) { ... }

   Go by `kind`, not by `number`, which is DONE with every card and stays DONE
   behind the last one: a loop on it would not end.

   The cards are each word, the song if there is one, and the shuffle as one, in
   this order; then comes NO_CARD with DONE, or with a refusal. Both leave the
   place where it is and are given again, so a walk ends within fifteen calls,
   whatever the bytes are. A place behind the last card is answered as the end
   of the walk is. The bytes of a card lie within the pack. A card is given
   before what stands behind it has been looked at: whoever wants to play a
   whole pack or nothing judges it first.

   Refusals: CUT_SHORT (a count, a length with its bytes, or the shuffle's count
   with its entries is not wholly there), COUNT_OR_LENGTH (it is there, and the
   count or length is not allowed), BAD_SHUFFLE (an entry repeats an earlier one
   or is too large), LEFT_OVER (bytes behind the shuffle). The first that is met
   from the left is given. What does not apply to an answer is 0. */
VESPRULDO_LOOK_AT_ANSWER
VESPRULDO_READS(1, 2)
vespruldo_pack_card vespruldo_pack_next(const uint8_t *pack, size_t pack_len,
                                        size_t place);

/* Walks a whole pack: the number that the walk ends with, and how many cards
   come before that. Refusals: as for vespruldo_pack_next. */
VESPRULDO_LOOK_AT_ANSWER
VESPRULDO_READS(1, 2)
vespruldo_pack_judged vespruldo_pack_judge(const uint8_t *pack,
                                           size_t pack_len);

/* ---- Wide blocks: LIONESS over BLAKE2b and ChaCha20 ---- */

/* Enciphers a block in place. Never encipher two blocks under one key and iv:
   take each iv from a drawer.

   Refusals: KEY_LENGTH (key not 128 bytes), NONCE_LENGTH (iv not 48),
   TEXT_LENGTH (block not 33 to 1,048,608). */
VESPRULDO_LOOK_AT_ANSWER
VESPRULDO_READS(1, 2) VESPRULDO_READS(3, 4) VESPRULDO_CHANGES(5, 6)
uint32_t vespruldo_lioness_encipher(const uint8_t *key, size_t key_len,
                                    const uint8_t *iv, size_t iv_len,
                                    uint8_t *VESPRULDO_RESTRICT block,
                                    size_t block_len);

/* Deciphers a block in place. It has no tag: under a wrong key or iv, or if it
   was changed, the whole block comes out as noise, and the answer is DONE.

   Refusals: as for vespruldo_lioness_encipher. */
VESPRULDO_LOOK_AT_ANSWER
VESPRULDO_READS(1, 2) VESPRULDO_READS(3, 4) VESPRULDO_CHANGES(5, 6)
uint32_t vespruldo_lioness_decipher(const uint8_t *key, size_t key_len,
                                    const uint8_t *iv, size_t iv_len,
                                    uint8_t *VESPRULDO_RESTRICT block,
                                    size_t block_len);

/* ---- What these are made of ---- */

/* Enciphers one block in place with GIFT-128. Byte 0 of key and block holds the
   lowest bits; the designers print the highest byte first.

   Refusals: KEY_LENGTH (key not 16 bytes), TEXT_LENGTH (block not 16). */
VESPRULDO_LOOK_AT_ANSWER
VESPRULDO_READS(1, 2) VESPRULDO_CHANGES(3, 4)
uint32_t vespruldo_gift_encipher(const uint8_t *key, size_t key_len,
                                 uint8_t *VESPRULDO_RESTRICT block,
                                 size_t block_len);

/* Undoes vespruldo_gift_encipher. Refusals: as for vespruldo_gift_encipher. */
VESPRULDO_LOOK_AT_ANSWER
VESPRULDO_READS(1, 2) VESPRULDO_CHANGES(3, 4)
uint32_t vespruldo_gift_decipher(const uint8_t *key, size_t key_len,
                                 uint8_t *VESPRULDO_RESTRICT block,
                                 size_t block_len);

/* What a key stream answers. Where it is kept, keep all 64 bits of `next`, and
   not the bytes of the struct, whose padding holds what was in memory. */
typedef struct vespruldo_streamed {
    uint32_t number; /* DONE or the refusal */
    uint64_t next;   /* where it stopped: start plus blocks used, at most 2^32;
                        of a refusal, the start */
} vespruldo_streamed;

/* Adds ChaCha20's key stream to a text in place, by exclusive or; done twice,
   from the same start, it gives the text back. `start` is the counter of the
   stream's first block of 64 bytes. Never use one key, nonce and counter for
   two texts, even if the first was lost. There is no tag: a bit that is flipped
   afterwards is flipped in the text that comes back.

   A text may come in bursts, and may then be longer than one call takes. Each
   burst but the last has whole blocks, and each starts at the `next` of the one
   before: so they are one text, which is given back in these bursts or in
   others (examples/recorder.c). A burst that ends inside a block is the last:
   what came behind it would come back only if it were cut there again, and
   otherwise as noise.

   Refusals: KEY_LENGTH (key not 32 bytes), NONCE_LENGTH (nonce not 12),
   TEXT_LENGTH (over 1,048,576), STREAM_TOO_LONG (start plus the blocks needed
   exceeds 2^32). At a start of 2^32 an empty text is done and any other is
   refused; above that every text is, an empty one too. */
VESPRULDO_LOOK_AT_ANSWER
VESPRULDO_READS(1, 2) VESPRULDO_READS(3, 4) VESPRULDO_CHANGES(6, 7)
vespruldo_streamed vespruldo_chacha20(const uint8_t *key, size_t key_len,
                                      const uint8_t *nonce, size_t nonce_len,
                                      uint64_t start,
                                      uint8_t *VESPRULDO_RESTRICT text,
                                      size_t text_len);

/* Writes the BLAKE2b digest of `text` under `key` to `digest` and fills it: the
   digest has the length of its room, and a shorter one is not the beginning of
   a longer one. An empty key is no key.

   Refusals: KEY_LENGTH (key over 64 bytes), TEXT_LENGTH (over 1,048,576),
   ROOM_LENGTH (digest not 1 to 64). */
VESPRULDO_LOOK_AT_ANSWER
VESPRULDO_READS(1, 2) VESPRULDO_READS(3, 4) VESPRULDO_WRITES(5, 6)
uint32_t vespruldo_blake2b(const uint8_t *key, size_t key_len,
                           const uint8_t *text, size_t text_len,
                           uint8_t *VESPRULDO_RESTRICT digest,
                           size_t digest_len);

/* Whether both buffers have the same length and the same bytes: true is the
   same, unlike memcmp's 0. The time tells the lengths and at most the answer,
   never where the buffers differ: digests under a key are compared by this, not
   by memcmp. The buffers are only read, and may overlap. */
VESPRULDO_LOOK_AT_ANSWER
VESPRULDO_READS(1, 2) VESPRULDO_READS(3, 4)
bool vespruldo_same(const uint8_t *a, size_t a_len,
                    const uint8_t *b, size_t b_len);

/* Does not compile where a `#pragma pack` that was left open, or an option, has
   packed the structs, which would then lie elsewhere than in the archive. */
typedef char vespruldo_structs_are_not_packed
    [sizeof(vespruldo_drawer) == 16 && sizeof(vespruldo_drawn) == 32 &&
             sizeof(vespruldo_drawn_iv) == 72 &&
             sizeof(vespruldo_stored) == 44 && sizeof(vespruldo_loaded) == 24 &&
             sizeof(vespruldo_batch) == 24 && sizeof(vespruldo_found) == 16 &&
             sizeof(vespruldo_pack_card) == 40 &&
             sizeof(vespruldo_pack_judged) == 24 &&
             sizeof(vespruldo_streamed) == 16
         ? 1
         : -1];

#ifdef __cplusplus
}
#endif

#endif
