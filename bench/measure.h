/* Runs what a case asks on both sides: held against each other, timed, or once for a counter.
 */
#ifndef MEASURE_H
#define MEASURE_H

#include "cases.h"

/* A batch is one call on each of these states, which differ in their random numbers. */
enum { VARIANTS = 4 };

struct effort {
    unsigned runs, batches;
};

/* Whether there is something to run, and room to note it. */
int fit(struct effort effort);

/* Nanoseconds for one item, the best run of each side. */
struct times {
    double best[SIDES];
};

/*
 * Runs a batch of each side, the plain one first. False, and said, where an
 * answer, the bytes, the words or the tallies differ.
 */
int same_on_both(const struct item items[VARIANTS], const char *name);

/* How many rounds the first state's spread took then; 0 for any other call. */
unsigned rounds_of_first(void);

struct times measure(const struct item items[VARIANTS], struct effort effort);

#endif
