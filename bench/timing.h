/* What the timing programs share: several versions of one piece of work are
   compared, then timed beside each other in one run. */

#ifndef TIMING_H
#define TIMING_H

#include <stddef.h>
#include <stdint.h>

/* The archive's version and those of its peers, in the table's order. The last
   is the archive itself, by more than one call. */
enum version { ARCHIVE, PLAIN, SODIUM, OPENSSL, B2, SINGLY, VERSIONS };

#define MOST_LENGTHS 4
#define LONGEST 1048576
#define TEXT_LENGTHS {16, 1024, 65536, LONGEST}

/* Does the work once on so many bytes and leaves the result in them. Done over
   and over, each call so waits for the last. */
typedef void work(uint8_t *bytes, size_t len);

struct subject {
    const char *title;
    /* NULL where a peer has no such work. */
    work *versions[VERSIONS];
    /* Of the text, rising; a 0 is behind the last. Each is a row. */
    size_t lengths[MOST_LENGTHS + 1];
    /* Bytes that the work is done on in addition to the text. */
    size_t more;
};

/* Fills the bytes with a pattern of the seed's own, the same in every run. */
void fill(uint8_t *bytes, size_t len, uint64_t seed);

/* Ends the program unless the answer is the one that means done. */
void expect(enum version who, long done, long answer);

/* Ends the program unless all versions give the same result at all lengths. */
void compare_versions(const struct subject *subject);

/* Times all versions at all lengths and prints the table's rows. */
void time_versions(const struct subject *subject);

#endif
