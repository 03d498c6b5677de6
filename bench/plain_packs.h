/* The reading of lesson packs in plain C, to measure the archive against. It
   takes, answers and refuses what the archive's does: see vespruldo.h. */

#ifndef PLAIN_PACKS_H
#define PLAIN_PACKS_H

#include "vespruldo.h"

vespruldo_pack_card plain_pack_next(const uint8_t *pack, size_t pack_len,
                                    size_t place);

vespruldo_pack_judged plain_pack_judge(const uint8_t *pack, size_t pack_len);

#endif
