/* Values that others have published or computed, so that functions that only
   agree with each other do not pass. */

#include <string.h>

#include "cases.h"

struct published {
    enum function_name name;
    const char *source;
    /* In hexadecimal digits; NULL where the function has no such buffer. */
    const char *given[ROLES];
    uint64_t start;
    enum role result_role;
    const char *result;
};

#define ZEROS_16 "00000000000000000000000000000000"

static const struct published table[] = {
    /* Text and result have the designers' bytes in reverse: they print the
       highest one first. */
    {.name = GIFT_ENCIPHER, .source = "GIFT-128, the designers' first value",
     .given = {[KEY] = ZEROS_16, [TEXT] = ZEROS_16},
     .result_role = TEXT, .result = "92ffb6ce365ab168f6d38a3838d70bcd"},
    {.name = BLAKE2B, .source = "RFC 7693, appendix A",
     .given = {[KEY] = "", [TEXT] = "616263",
               [ROOM] = ZEROS_16 ZEROS_16 ZEROS_16 ZEROS_16},
     .result_role = ROOM,
     .result = "ba80a53f981c4d0d6a2797b69f12f6e9"
               "4c212f14685ac4b74b12bb6fdbffa2d1"
               "7d87c5392aab792dc252d5de4533cc95"
               "18d38aa8dbf1925ab92386edd4009923"},
    {.name = CHACHA20, .source = "RFC 7539, section 2.4.2",
     .given = {[KEY] = "000102030405060708090a0b0c0d0e0f"
                       "101112131415161718191a1b1c1d1e1f",
               [NONCE] = "000000000000004a00000000",
               [TEXT] = "4c616469657320616e642047656e746c"
                        "656d656e206f662074686520636c6173"
                        "73206f66202739393a20496620492063"
                        "6f756c64206f6666657220796f75206f"
                        "6e6c79206f6e652074697020666f7220"
                        "746865206675747572652c2073756e73"
                        "637265656e20776f756c642062652069"
                        "742e"},
     .start = 1,
     .result_role = TEXT,
     .result = "6e2e359a2568f98041ba0728dd0d6981"
               "e97e7aec1d4360c20a27afccfd9fae0b"
               "f91b65c5524733ab8f593dabcd62b357"
               "1639d624e65152ab8f530c359f0861d8"
               "07ca0dbf500d6a6156a38e088a22b65e"
               "52bc514d16ccf806818ce91ab7793736"
               "5af90bbf74a35be6b40b8eedf2785e42"
               "874d"},
    {.name = CHACHA20, .source = "the last counter, by libsodium and OpenSSL",
     .given = {[KEY] = "000102030405060708090a0b0c0d0e0f"
                       "101112131415161718191a1b1c1d1e1f",
               [NONCE] = "000000000000004a00000000",
               [TEXT] = ZEROS_16 ZEROS_16 ZEROS_16 ZEROS_16},
     .start = 0xffffffff,
     .result_role = TEXT,
     .result = "6d29da5bd16a472910e8c0bdb47edfc8"
               "499c3222cc168d3721747fc2b21266d9"
               "f15c8339f10f354d16cc9b8e118eb182"
               "bf858ce5718fa4e76389ea4eb50a9475"},
};

/* Reader 4275878552 at count 81985529216486895, stored; the digest is by
   Python's hashlib. */
static const vespruldo_drawer stored_drawer = {0xfedcba98, 0x0123456789abcdef};
static const char stored_bytes[] =
    "98badcfe" "efcdab8967452301"
    "addbc1c3f945b6647a43681e691551bd240189c9439b3d393b4ce3a0e3c79176";

static uint8_t digit(char letter)
{
    return (uint8_t)(letter <= '9' ? letter - '0' : letter - 'a' + 10);
}

size_t read_hex(const char *digits, uint8_t *bytes)
{
    size_t len = strlen(digits) / 2;
    for (size_t j = 0; j < len; j++) {
        const char *pair = digits + 2 * j;
        bytes[j] = (uint8_t)(digit(pair[0]) << 4 | digit(pair[1]));
    }
    return len;
}

static void check_stored(struct thread *thread)
{
    const struct call running = {.function = &functions[DRAWER_STORE]};
    uint8_t bytes[sizeof(vespruldo_stored)];
    thread->running = &running;
    read_hex(stored_bytes, bytes);
    vespruldo_stored stored = vespruldo_drawer_store(stored_drawer);
    require(thread, memcmp(stored.bytes, bytes, sizeof bytes) == 0,
            "not the bytes that another library computes");
    thread->running = NULL;
}

void check_published(struct thread *thread)
{
    check_stored(thread);
    uint8_t bytes[128];
    for (size_t i = 0; i < sizeof table / sizeof table[0]; i++) {
        const struct published *row = &table[i];
        struct call call = {.function = &functions[row->name],
                            .start = row->start};
        for (int role = 0; role < ROLES; role++) {
            if (row->given[role] != NULL) {
                size_t len = read_hex(row->given[role], bytes);
                lend_copy(thread, &call, FIRST, (enum role)role, bytes, len);
            }
        }
        make_call(thread, &call);
        size_t len = read_hex(row->result, bytes);
        if (memcmp(call.loans[row->result_role].place, bytes, len) != 0) {
            fail(thread, "not the value of %s", row->source);
        }
        thread->running = NULL;
    }
}
