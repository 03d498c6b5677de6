/* Clock, calibration, turns, median and rows: see timing.h. */

#define _POSIX_C_SOURCE 199309L

#include "timing.h"

#include <stdbool.h>
#include <stdio.h>
#include <stdlib.h>
#include <string.h>
#include <time.h>

/* Each of the repeats is made of so many turns of each version at most. The
   pace of a machine drifts within a second, so one long turn apiece would let
   the drift pass for a difference between versions. */
#define REPEATS 7
#define TURNS 8
#define TURN_SECONDS 0.01
#define COMPARED_BYTES 65536
#define PAGE 4096

/* Goes through the versions that there are. */
#define FOR_VERSIONS_FROM(first, v, subject) \
    for (int v = (first); v < VERSIONS; v++) \
        if ((subject)->versions[v] != NULL)

/* One version at one length. */
struct timing {
    uint64_t calls_in_turn;
    /* Of all calls in one repeat. */
    double seconds;
    uint64_t calls;
    /* Of one call, for each repeat. */
    double one_call[REPEATS];
};

static const char *const names[VERSIONS] = {
    [ARCHIVE] = "the archive", [PLAIN] = "plain C", [SODIUM] = "libsodium",
    [OPENSSL] = "OpenSSL",     [B2] = "libb2",      [SINGLY] = "single calls",
};

void fill(uint8_t *bytes, size_t len, uint64_t seed)
{
    uint64_t state = seed;
    for (size_t i = 0; i < len; i++) {
        state = state * 6364136223846793005u + 1442695040888963407u;
        bytes[i] = (uint8_t)(state >> 56);
    }
}

void expect(enum version who, long done, long answer)
{
    if (answer != done) {
        fprintf(stderr, "%s refused with %ld\n", names[who], answer);
        exit(1);
    }
}

/* All versions work in one buffer, so that none has the luckier place in
   memory. Lengths rise, so the last is the largest. */
static uint8_t *buffer_for(const struct subject *subject)
{
    size_t largest = 0;
    for (const size_t *len = subject->lengths; *len != 0; len++) {
        largest = *len + subject->more;
    }
    uint8_t *bytes = aligned_alloc(PAGE, (largest + PAGE - 1) / PAGE * PAGE);
    if (bytes == NULL) {
        perror("aligned_alloc");
        exit(1);
    }
    fill(bytes, largest, largest);
    return bytes;
}

static void repeat_calls(work *run, uint8_t *bytes, size_t len, uint64_t calls)
{
    for (uint64_t n = 0; n < calls; n++) {
        run(bytes, len);
    }
}

/* Many calls on few bytes, one on many; always an odd number, since a key
   stream added twice leaves no trace. */
static void result_of(work *run, uint8_t *bytes, size_t len)
{
    fill(bytes, len, len);
    repeat_calls(run, bytes, len, COMPARED_BYTES / len | 1);
}

static void compare_length(const struct subject *subject, size_t len,
                           uint8_t *bytes, uint8_t *archive_bytes)
{
    result_of(subject->versions[ARCHIVE], archive_bytes, len);
    FOR_VERSIONS_FROM (PLAIN, v, subject) {
        result_of(subject->versions[v], bytes, len);
        if (memcmp(bytes, archive_bytes, len) != 0) {
            fprintf(stderr, "%s, %zu bytes: results of %s and %s differ\n",
                    subject->title, len, names[ARCHIVE], names[v]);
            exit(1);
        }
    }
}

/* Under an emulator bench/run --compare leaves out the longest. */
static bool is_compared(size_t len)
{
    const char *only = getenv("COMPARE_ONLY");
    return len < LONGEST || only == NULL || strcmp(only, "short") != 0;
}

void compare_versions(const struct subject *subject)
{
    uint8_t *bytes = buffer_for(subject);
    uint8_t *archive_bytes = buffer_for(subject);
    for (const size_t *len = subject->lengths; *len != 0; len++) {
        if (is_compared(*len)) {
            compare_length(subject, *len + subject->more, bytes, archive_bytes);
        }
    }
    free(archive_bytes);
    free(bytes);
}

/* The processor time of this process, not the time of day: when other programs
   are at work it stands still while they have the processor. With other work on
   both cores, versions that were one and the same mostly came out within
   two hundredths of each other and at worst four; by the time of day they
   differed by more than a tenth. */
static double now(void)
{
    struct timespec t;
    if (clock_gettime(CLOCK_PROCESS_CPUTIME_ID, &t) != 0) {
        perror("clock_gettime");
        exit(1);
    }
    return (double)t.tv_sec + (double)t.tv_nsec * 1e-9;
}

static double timed(work *run, uint8_t *bytes, size_t len, uint64_t calls)
{
    double start = now();
    repeat_calls(run, bytes, len, calls);
    return now() - start;
}

/* How many calls this version makes in one turn. Each version has its own
   number, so that all turns take about the same time. */
static uint64_t calibrated(work *run, uint8_t *bytes, size_t len)
{
    uint64_t calls = 1;
    double seconds = timed(run, bytes, len, calls);
    while (seconds < TURN_SECONDS) {
        calls *= 2;
        seconds = timed(run, bytes, len, calls);
    }
    return (uint64_t)((double)calls * (TURN_SECONDS / seconds)) + 1;
}

static void calibrate(const struct subject *subject, uint8_t *bytes,
                      struct timing timings[MOST_LENGTHS][VERSIONS])
{
    for (int l = 0; subject->lengths[l] != 0; l++) {
        FOR_VERSIONS_FROM (ARCHIVE, v, subject) {
            timings[l][v].calls_in_turn =
                calibrated(subject->versions[v], bytes,
                           subject->lengths[l] + subject->more);
        }
    }
}

/* One turn of each version, unless one of them has by now, with long calls,
   taken far longer than all turns of a repeat should. */
static void take_turn(const struct subject *subject, size_t len, uint8_t *bytes,
                      struct timing timings[VERSIONS])
{
    FOR_VERSIONS_FROM (ARCHIVE, v, subject) {
        if (timings[v].seconds > 2 * TURNS * TURN_SECONDS) {
            return;
        }
    }
    FOR_VERSIONS_FROM (ARCHIVE, v, subject) {
        struct timing *timing = &timings[v];
        timing->seconds += timed(subject->versions[v], bytes, len,
                                 timing->calls_in_turn);
        timing->calls += timing->calls_in_turn;
    }
}

/* Versions and lengths all take turns, so that a change of the machine's pace
   meets all of them: otherwise it would pass for a ratio or for growth. */
static void take_repeat(const struct subject *subject, uint8_t *bytes,
                        struct timing timings[MOST_LENGTHS][VERSIONS],
                        int repeat)
{
    const size_t *lengths = subject->lengths;
    for (int turn = 0; turn < TURNS; turn++) {
        for (int l = 0; lengths[l] != 0; l++) {
            take_turn(subject, lengths[l] + subject->more, bytes, timings[l]);
        }
    }
    for (int l = 0; lengths[l] != 0; l++) {
        FOR_VERSIONS_FROM (ARCHIVE, v, subject) {
            struct timing *timing = &timings[l][v];
            timing->one_call[repeat] = timing->seconds / (double)timing->calls;
            timing->seconds = 0;
            timing->calls = 0;
        }
    }
}

static int by_size(const void *a, const void *b)
{
    double x = *(const double *)a;
    double y = *(const double *)b;
    return (x > y) - (x < y);
}

static double median(const double numbers[REPEATS])
{
    double sorted[REPEATS];
    memcpy(sorted, numbers, sizeof sorted);
    qsort(sorted, REPEATS, sizeof(double), by_size);
    return sorted[REPEATS / 2];
}

/* What was measured in the same repeat was measured at the same pace, so this
   is steadier than the ratio of two medians. */
static double median_ratio(const struct timing *upper,
                           const struct timing *lower)
{
    double ratios[REPEATS];
    for (int r = 0; r < REPEATS; r++) {
        ratios[r] = upper->one_call[r] / lower->one_call[r];
    }
    return median(ratios);
}

/* In the unit that leaves one to three digits before the point. */
static void print_time(double seconds)
{
    static const char *const units[] = {"ns", "µs", "ms", "s "};
    size_t unit = 0;
    double time = seconds * 1e9;
    while (time >= 999.995 && unit + 1 < sizeof units / sizeof units[0]) {
        time /= 1000;
        unit++;
    }
    printf(" %6.2f %s |", time, units[unit]);
}

static void print_ratio(int width, double ratio)
{
    printf(" %*.2f |", width, ratio);
}

static void print_dash(int width)
{
    printf(" %*s |", width, "-");
}

/* Columns are those of the heading in bench/run, which says what they mean. */
static void print_row(const struct subject *subject, int l,
                      struct timing timings[MOST_LENGTHS][VERSIONS])
{
    static const int widths[VERSIONS] = {
        [PLAIN] = 7, [SODIUM] = 9, [OPENSSL] = 7, [B2] = 5, [SINGLY] = 6};
    const struct timing *archive = &timings[l][ARCHIVE];
    double seconds = median(archive->one_call);
    double len = (double)subject->lengths[l];
    printf("| %-21s | %7.0f |", subject->title, len);
    print_time(seconds);
    printf(" %11.2f |", seconds * 1e9 / len);
    if (l > 0) {
        double times_longer = len / (double)subject->lengths[l - 1];
        print_ratio(6, median_ratio(archive, &timings[l - 1][ARCHIVE]) /
                           times_longer);
    } else {
        print_dash(6);
    }
    for (int v = PLAIN; v < VERSIONS; v++) {
        if (subject->versions[v] != NULL) {
            print_ratio(widths[v], median_ratio(&timings[l][v], archive));
        } else {
            print_dash(widths[v]);
        }
    }
    printf("\n");
}

void time_versions(const struct subject *subject)
{
    if (getenv("COMPARE_ONLY") != NULL) { /* bench/run --compare */
        return;
    }
    struct timing timings[MOST_LENGTHS][VERSIONS] = {0};
    uint8_t *bytes = buffer_for(subject);
    calibrate(subject, bytes, timings);
    for (int repeat = 0; repeat < REPEATS; repeat++) {
        take_repeat(subject, bytes, timings, repeat);
    }
    for (int l = 0; subject->lengths[l] != 0; l++) {
        print_row(subject, l, timings);
    }
    fflush(stdout);
    free(bytes);
}
