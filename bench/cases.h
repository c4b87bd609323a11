/*
 * What is measured: each case makes a state, and asks one or two calls, a load, the
 * check of a text or a report of it.
 */
#ifndef CASES_H
#define CASES_H

#include "world.h"

/* The parts of one measurement that its table varies. */
struct plan {
    unsigned things, levels, rounds;
    unsigned unsound; /* the record that is, where one is; 0 for the last */
};

enum asked { REQUESTS, LOAD, CHECK, REPORT };

/* A state, and what is asked on it. */
struct item {
    struct world world;
    enum asked asked;
    struct tupehiwo_request requests[2];
    unsigned count;
    uint8_t text[TUPEHIWO_LAYOUT_BYTES]; /* of a load or a check */
    size_t ntext;
    uint8_t verdict; /* that each request, the load or the check must give */
    uint8_t rounds;  /* and how many rounds, or ANY_ROUNDS */
};

enum { ANY_ROUNDS = 255 };

struct bench_case {
    const char *name;
    void (*build)(struct item *item, const struct plan *plan);
    unsigned fewest; /* things in use that the case needs */
    int mixed;       /* things at random levels */
};

extern const struct bench_case cases[];
extern const unsigned case_count;

/* The case of that name; where there is none, the program ends. */
const struct bench_case *case_named(const char *name);

void build_item(struct item *item, const struct bench_case *subject, const struct plan *plan,
                uint64_t seed);

#endif
