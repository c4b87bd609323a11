#include "measure.h"

#include <float.h>
#include <stdio.h>
#include <stdlib.h>
#include <string.h>
#include <time.h>
#include <x86intrin.h>

enum { MOST_BATCHES = 4096 };

/* The memory lent, and what was answered. */
struct trial {
    struct tupehiwo_monitor memory;
    struct tupehiwo_answer answers[2];
    struct tupehiwo_checked checked;
    struct tupehiwo_report report;
};

/* Both sides work on the same memory, one after the other, each on fresh copies. */
static _Alignas(64) struct trial trials[VARIANTS];

static void restore(const struct item items[VARIANTS])
{
    for (unsigned v = 0; v < VARIANTS; v++)
        trials[v].memory = items[v].world.m;
}

static inline void run_item(const struct side *side, const struct item *item,
                            struct trial *trial)
{
    switch (item->asked) {
    case REQUESTS:
        for (unsigned i = 0; i < item->count; i++)
            trial->answers[i] = ask(side, &trial->memory, item->requests[i]);
        break;
    case LOAD:
        trial->answers[0] = ask_load(side, &trial->memory, item->text, item->ntext);
        break;
    case CHECK: trial->checked = side->layout(item->text, item->ntext); break;
    case REPORT: trial->report = ask_report(side, &trial->memory); break;
    }
}

/* Not inlined: the counter of instructions finds it by its name. */
__attribute__((noinline)) void run_batch(const struct side *side,
                                         const struct item items[VARIANTS])
{
    for (unsigned v = 0; v < VARIANTS; v++)
        run_item(side, &items[v], &trials[v]);
}

/* ------------------------------------------------------------------ checks */

/*
 * Set by bench/run where one side is an earlier library. That may answer with two bytes: what
 * stands in the place of the word is then what happened to be in the register.
 */
#ifndef BEFORE
#define BEFORE 0
#endif

static int same_answer(const struct tupehiwo_answer *a, const struct tupehiwo_answer *b)
{
    return a->verdict == b->verdict && a->rounds == b->rounds && (BEFORE || a->told == b->told);
}

static int same_report(const struct tupehiwo_report *a, const struct tupehiwo_report *b)
{
    return memcmp(a->words, b->words, sizeof a->words) == 0 && a->ones == b->ones &&
           a->verdict == b->verdict;
}

/* Part by part: the bytes that fill up the structure may hold anything. */
static int same_memory(const struct tupehiwo_monitor *a, const struct tupehiwo_monitor *b)
{
    return memcmp(a->bytes, b->bytes, sizeof a->bytes) == 0 &&
           memcmp(a->words, b->words, sizeof a->words) == 0 &&
           memcmp(a->tallies, b->tallies, sizeof a->tallies) == 0;
}

static int same_trial(const struct trial *a, const struct trial *b)
{
    return same_memory(&a->memory, &b->memory) &&
           same_answer(&a->answers[0], &b->answers[0]) &&
           same_answer(&a->answers[1], &b->answers[1]) &&
           a->checked.offset == b->checked.offset &&
           a->checked.verdict == b->checked.verdict && same_report(&a->report, &b->report);
}

static int expected(const struct item *item, const struct trial *trial)
{
    for (unsigned i = 0; i < item->count; i++)
        if (trial->answers[i].verdict != item->verdict)
            return 0;
    if (item->asked == CHECK && trial->checked.verdict != item->verdict)
        return 0;
    return (item->rounds == ANY_ROUNDS || trial->answers[0].rounds == item->rounds) &&
           trial->report.verdict == TUPEHIWO_GRANTED;
}

unsigned rounds_of_first(void)
{
    return trials[0].answers[0].rounds;
}

int same_on_both(const struct item items[VARIANTS], const char *name)
{
    static struct trial of_plain[VARIANTS];
    memset(trials, 0, sizeof trials);
    restore(items);
    run_batch(&sides[PLAIN], items);
    memcpy(of_plain, trials, sizeof trials);
    memset(trials, 0, sizeof trials);
    restore(items);
    run_batch(&sides[PROVED], items);
    for (unsigned v = 0; v < VARIANTS; v++)
        if (!same_trial(&of_plain[v], &trials[v]) || !expected(&items[v], &trials[v])) {
            fprintf(stderr, "%s: not the same, or not as expected, on both sides\n", name);
            return 0;
        }
    return 1;
}

/* ------------------------------------------------------------------- times */

/* The fences keep the calls from moving across the reading. */
static inline uint64_t ticks(void)
{
    _mm_lfence();
    uint64_t t = __rdtsc();
    _mm_lfence();
    return t;
}

static double nanoseconds(void)
{
    struct timespec t;
    clock_gettime(CLOCK_MONOTONIC, &t);
    return (double)t.tv_sec * 1e9 + (double)t.tv_nsec;
}

static double ticks_of_a_nanosecond(void)
{
    static double rate;
    if (rate == 0) {
        double begin = nanoseconds();
        uint64_t from = ticks();
        while (nanoseconds() < begin + 2e7)
            ;
        rate = (double)(ticks() - from) / (nanoseconds() - begin);
    }
    return rate;
}

static int rising(const void *a, const void *b)
{
    uint64_t x = *(const uint64_t *)a, y = *(const uint64_t *)b;
    return (x > y) - (x < y);
}

/*
 * The mean of the middle half. A clock may go in steps, of 10 ns on some machines; the middle
 * value alone would be off by up to one, and the mean is not.
 */
static double middle(uint64_t *values, unsigned count)
{
    double sum = 0;
    unsigned from = count / 4, end = count - from;
    qsort(values, count, sizeof *values, rising);
    for (unsigned i = from; i < end; i++)
        sum += (double)values[i];
    return sum / (end - from);
}

int fit(struct effort effort)
{
    return effort.runs > 0 && effort.batches > 0 && effort.batches <= MOST_BATCHES;
}

/* What two readings of the clock take with nothing between them. */
static double ticks_of_nothing(void)
{
    static uint64_t took[MOST_BATCHES];
    for (unsigned b = 0; b < MOST_BATCHES; b++) {
        uint64_t from = ticks();
        took[b] = ticks() - from;
    }
    return middle(took, MOST_BATCHES);
}

/* The states are restored before the clock is read, so restoring them is not in the time. */
static uint64_t timed_batch(const struct side *side, const struct item items[VARIANTS])
{
    restore(items);
    uint64_t from = ticks();
    run_batch(side, items);
    return ticks() - from;
}

/*
 * Batches of the two sides take turns, so that what else the machine does falls
 * on both. A run's time is that of its middle batches; the least of all runs is given.
 */
struct times measure(const struct item items[VARIANTS], struct effort effort)
{
    static uint64_t took[SIDES][MOST_BATCHES];
    double best[SIDES] = {DBL_MAX, DBL_MAX}, nothing = ticks_of_nothing();
    struct times times;
    for (unsigned r = 0; r < effort.runs; r++) {
        for (unsigned b = 0; b < effort.batches; b++)
            for (unsigned s = 0; s < SIDES; s++)
                took[s][b] = timed_batch(&sides[s], items);
        for (unsigned s = 0; s < SIDES; s++) {
            double run = middle(took[s], effort.batches);
            if (run < best[s])
                best[s] = run;
        }
    }
    for (unsigned s = 0; s < SIDES; s++)
        times.best[s] = (best[s] - nothing) / VARIANTS / ticks_of_a_nanosecond();
    return times;
}
