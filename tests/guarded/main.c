/* Calls every function of the archive with right and wrong lengths, from many
   threads at once, on buffers that lie between guards (memory.h), and
   checks what documents 01 and 02 say of each call without a second
   implementation.

       guarded [cases [threads [seed]]]

   A case depends on the seed and its number alone. */

#define _POSIX_C_SOURCE 200112L

#include <errno.h>
#include <inttypes.h>
#include <pthread.h>
#include <signal.h>
#include <stdio.h>
#include <stdlib.h>

#include "cases.h"

#define DEFAULT_CASES 200000
#define DEFAULT_THREADS 8
#define DEFAULT_SEED 20260101
#define MOST_THREADS 1024
/* From so many on, every number that a function promises must have come. The
   rarest is the refusal of a text that is too long. */
#define CASES_FOR_ALL_NUMBERS 30000

static uint64_t cases;
static unsigned thread_count;
static pthread_barrier_t all_ready;

static _Thread_local const struct thread *this_thread;

/* A fault comes from a call into the archive, which has none of the library's
   locks, so the failure can be printed from here. */
static void on_fault(int signal_number, siginfo_t *info, void *context)
{
    (void)context;
    if (this_thread == NULL) {
        _Exit(1);
    }
    fail_at(this_thread, signal_number, info->si_addr);
}

static void watch_faults(void)
{
    static const int signals[] = {SIGSEGV, SIGBUS, SIGILL, SIGFPE};
    struct sigaction action = {.sa_flags = SA_SIGINFO};
    action.sa_sigaction = on_fault;
    for (size_t i = 0; i < sizeof signals / sizeof signals[0]; i++) {
        if (sigaction(signals[i], &action, NULL) != 0) {
            perror("sigaction");
            exit(1);
        }
    }
}

static void *run_thread(void *argument)
{
    struct thread *thread = argument;
    this_thread = thread;
    make_arenas(thread);
    thread->random = random_of_case(thread->seed, 0);
    pthread_barrier_wait(&all_ready);
    check_published(thread);
    check_worked_packs(thread);
    check_cut_packs(thread);
    check_shuffles(thread);
    check_worked_streams(thread);
    check_worked_batches(thread);
    for (uint64_t n = thread->number; n < cases; n += thread_count) {
        make_case(thread, n);
    }
    free_arenas(thread);
    return NULL;
}

static void expect_0(const char *what, int error)
{
    if (error != 0) {
        errno = error;
        perror(what);
        exit(1);
    }
}

static struct thread *run_threads(uint64_t seed)
{
    struct thread *threads = calloc(thread_count, sizeof *threads);
    pthread_t *ids = calloc(thread_count, sizeof *ids);
    expect_0("calloc", threads == NULL || ids == NULL ? ENOMEM : 0);
    expect_0("pthread_barrier_init",
             pthread_barrier_init(&all_ready, NULL, thread_count));
    for (unsigned i = 0; i < thread_count; i++) {
        threads[i].number = i;
        threads[i].seed = seed;
        expect_0("pthread_create",
                 pthread_create(&ids[i], NULL, run_thread, &threads[i]));
    }
    for (unsigned i = 0; i < thread_count; i++) {
        expect_0("pthread_join", pthread_join(ids[i], NULL));
    }
    free(ids);
    return threads;
}

static uint64_t times_answered(const struct thread *threads, size_t function,
                               uint32_t number)
{
    uint64_t sum = 0;
    for (unsigned i = 0; i < thread_count; i++) {
        sum += threads[i].tally[function][number];
    }
    return sum;
}

/* How often each number came; false if one that should have come did not. */
static bool print_tally(const struct thread *threads)
{
    bool all = true;
    for (size_t f = 0; f < FUNCTIONS; f++) {
        printf("%-27s", functions[f].name);
        for (uint32_t number = 0; number < NUMBERS; number++) {
            if (promised(&functions[f], number)) {
                uint64_t times = times_answered(threads, f, number);
                printf(" %" PRIu32 ":%" PRIu64, number, times);
                all = all && times > 0;
            }
        }
        printf("\n");
    }
    return all;
}

static bool read_number(const char *digits, uint64_t *number)
{
    char *end;
    errno = 0;
    *number = strtoull(digits, &end, 10);
    return errno == 0 && end != digits && *end == '\0';
}

int main(int argument_count, char **arguments)
{
    uint64_t numbers[] = {DEFAULT_CASES, DEFAULT_THREADS, DEFAULT_SEED};
    for (int i = 1; i < argument_count; i++) {
        if (i > 3 || !read_number(arguments[i], &numbers[i - 1])) {
            fprintf(stderr, "usage: guarded [cases [threads [seed]]]\n");
            return 2;
        }
    }
    if (numbers[1] < 1 || numbers[1] > MOST_THREADS) {
        fprintf(stderr, "1 to %d threads\n", MOST_THREADS);
        return 2;
    }
    cases = numbers[0];
    thread_count = (unsigned)numbers[1];
    uint64_t seed = numbers[2];
    printf("seed %" PRIu64 ", cases %" PRIu64 ", threads %u\n", seed, cases,
           thread_count);
    fflush(stdout);
    watch_faults();
    struct thread *threads = run_threads(seed);
    bool all = print_tally(threads);
    free(threads);
    if (!all && cases >= CASES_FOR_ALL_NUMBERS) {
        fprintf(stderr, "a promised number never came\n");
        return 1;
    }
    printf("done\n");
    return 0;
}
