/* What reading a lesson pack must show. */

#ifndef GUARDED_PACKS_H
#define GUARDED_PACKS_H

#include "calls.h"

/* Document 02's limits. */
#define MOST_WORDS 12
#define LONGEST_WORD 40
#define LONGEST_SONG 16384

/* Judges the pack that is lent. */
void check_judged(struct thread *thread, struct call *call);

/* Walks the pack that is lent, judges it, and asks for other places of it. */
void check_read(struct thread *thread, struct call *call);

bool same_answer(vespruldo_pack_card a, vespruldo_pack_card b);

#endif
