/* Cases: one call with random lengths and bytes, and what must follow from it
   by further calls. */

#ifndef GUARDED_CASES_H
#define GUARDED_CASES_H

#include "calls.h"

/* Fails unless the functions answer what others have published, or computed. */
void check_published(struct thread *thread);

/* Fails unless these lesson packs are read as they should be: those worked out
   by hand, those cut at every byte, and those with every number in every entry
   of their shuffle. */
void check_worked_packs(struct thread *thread);
void check_cut_packs(struct thread *thread);
void check_shuffles(struct thread *thread);

/* The same for key streams: where they stop, and which are refused, as worked
   out by hand. */
void check_worked_streams(struct thread *thread);

/* The same for batches: which are refused with which number, as worked out by
   hand. */
void check_worked_batches(struct thread *thread);

/* Makes the case that the thread's seed and this number give. */
void make_case(struct thread *thread, uint64_t case_number);

/* The same for one group of functions. Some turns are for the longest lengths:
   those are counted from 1, and others are 0. */
void buffer_case(struct thread *thread, enum function_name name,
                 size_t long_turn);
void drawer_case(struct thread *thread);
void batch_case(struct thread *thread, size_t long_turn);
void book_case(struct thread *thread, size_t long_turn);
void pack_case(struct thread *thread);
void same_case(struct thread *thread);
void header_case(struct thread *thread);

/* Reads hexadecimal digits, and answers how many bytes they are. */
size_t read_hex(const char *digits, uint8_t *bytes);

/* A length, mostly of a few blocks, and often at the edge of one. */
size_t short_length(struct random *random);

/* Lends a card to be opened, often of another length than it says. */
void lend_card(struct thread *thread, struct call *call);

/* Lends bytes to write to, at times more than the text needs. */
void lend_room(struct thread *thread, struct call *call, enum set set,
               const struct part *part, size_t text_len);

/* What a call was given for the role. */
const uint8_t *given(const struct call *call, enum role role);

/* A second call, not made yet, with what the first was given. */
struct call second_call(struct thread *thread, const struct call *first,
                        const struct function *function);

/* Flips a bit of one of the buffers that are read; each is as likely, however
   long. False if all are empty. */
bool flip_bit(struct random *random, const struct call *call);

/* What sealing must also show: that it is opened, but not with a flipped bit,
   and that all forms of it write the same. */
void check_opened(struct thread *thread, const struct call *sealed);
void check_as_seal(struct thread *thread, const struct call *sealed);

#endif
