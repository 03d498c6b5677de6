/* Mistakes that a compiler can see: MISTAKE says which one is compiled, and the
   comment beside it which warning of GCC's it draws. 0 is none. */

#include <vespruldo.h>

extern const uint8_t key[16], nonce[12], stream_key[32];
extern uint8_t tag[16], small[20], *text;
extern const uint64_t lengths[2];
extern vespruldo_drawer drawer;
extern size_t len;

uint32_t called(void);

uint32_t called(void)
{
#if MISTAKE == 0
    return vespruldo_seal(key, 16, nonce, 12, NULL, 0, text, len, small, 20,
                          tag, 16);
#elif MISTAKE == 1 /* restrict */
    /* Text and room are one buffer. */
    return vespruldo_seal(key, 16, nonce, 12, NULL, 0, text, len, text, len,
                          tag, 16);
#elif MISTAKE == 2 /* restrict */
    /* So are a card and its room. */
    return vespruldo_card_open(key, 16, NULL, 0, text, len, text, len);
#elif MISTAKE == 3 /* stringop-overflow= */
    /* The room is smaller than it is said to be. */
    return vespruldo_card_seal(key, 16, nonce, 12, NULL, 0, text, 20, small,
                               50);
#elif MISTAKE == 4 /* stringop-overflow= */
    /* So is the buffer that is worked in. */
    return vespruldo_seal_in_place(key, 16, nonce, 12, NULL, 0, small, 21, tag,
                                   16);
#elif MISTAKE == 5 /* stringop-overread */
    /* So is the data. */
    return vespruldo_seal_in_place(key, 16, nonce, 12, small, 21, text, len,
                                   tag, 16);
#elif MISTAKE == 6 /* nonnull */
    /* There is no room at all. */
    return vespruldo_card_open(key, 16, NULL, 0, text, len, NULL, 20);
#elif MISTAKE == 7 /* unused-result */
    /* Nobody looks at the answer. */
    vespruldo_seal_in_place(key, 16, nonce, 12, NULL, 0, text, len, tag, 16);
    return 0;
#elif MISTAKE == 8 /* unused-result */
    vespruldo_same(text, len, tag, 16);
    return 0;
#elif MISTAKE == 9 /* unused-result */
    /* Nor at a struct: nobody asks whether there is a card. */
    vespruldo_pack_next(text, len, 0);
    return 0;
#elif MISTAKE == 10 /* unused-result */
    vespruldo_pack_judge(text, len);
    return 0;
#elif MISTAKE == 11 /* stringop-overread */
    /* The pack has fewer bytes than are said. */
    return vespruldo_pack_next(small, 21, 0).number;
#elif MISTAKE == 12 /* stringop-overread */
    return vespruldo_pack_judge(small, 21).number;
#elif MISTAKE == 13 /* nonnull */
    /* There is no pack at all. */
    return vespruldo_pack_judge(NULL, 20).number;
#elif MISTAKE == 14 /* unused-result */
    /* Nobody asks where the key stream stopped, or whether it began. */
    vespruldo_chacha20(stream_key, 32, nonce, 12, 0, text, len);
    return 0;
#elif MISTAKE == 15 /* stringop-overflow= */
    /* The text has fewer bytes than are said. */
    return vespruldo_chacha20(stream_key, 32, nonce, 12, 0, small, 21).number;
#elif MISTAKE == 16 /* stringop-overread */
    /* So has the key. */
    return vespruldo_chacha20(key, 32, nonce, 12, 0, text, len).number;
#elif MISTAKE == 17 /* unused-result */
    /* Nobody keeps the drawer that a batch hands back. */
    vespruldo_seal_batch(key, 16, NULL, 0, text, len, lengths, 1, drawer, small,
                         20, tag, 16);
    return 0;
#elif MISTAKE == 18 /* restrict */
    /* Its texts and its room are one buffer. */
    return vespruldo_seal_batch(key, 16, NULL, 0, text, len, lengths, 1, drawer,
                                text, len, tag, 16)
        .number;
#elif MISTAKE == 19 /* stringop-overflow= */
    /* There is room for one tag, and there are two lengths. */
    return vespruldo_seal_batch(key, 16, NULL, 0, text, len, lengths, 2, drawer,
                                small, 20, tag, 32)
        .number;
#elif MISTAKE == 20 /* stringop-overread */
    /* There are two lengths, and not as many as they have bytes. */
    return vespruldo_seal_batch(key, 16, NULL, 0, text, len, lengths,
                                sizeof lengths, drawer, small, 20, tag, 16)
        .number;
#elif MISTAKE == 21 /* nonnull */
    /* There are none. */
    return vespruldo_seal_batch(key, 16, NULL, 0, text, len, NULL, 1, drawer,
                                small, 20, tag, 16)
        .number;
#endif
}
