/*
 * Measures the proved monitor against the plain C one.
 *
 *   harness RUNS BATCHES [WORD]   holds the answers of both against each other and times them
 *   harness once [WORD]           only holds them against each other, for a counter of
 *                                 instructions
 *   harness script LINES          prints a script for the script programs
 *
 * With a word only the cases that have it in their names, and no growth.
 *
 * One line for each measurement: table, case, things in use, levels, rounds (or
 * the unsound record), and the times of plain C and of the proved library in
 * nanoseconds for each item.
 */
#include <stdio.h>
#include <stdlib.h>
#include <string.h>

#include "measure.h"
#include "script.h"

static struct effort effort; /* no runs: nothing is timed */
static int failures;

static void line(const char *table, const struct bench_case *subject, struct plan plan)
{
    static struct item items[VARIANTS];
    for (unsigned v = 0; v < VARIANTS; v++)
        build_item(&items[v], subject, &plan, v + 1);
    if (!same_on_both(items, subject->name)) {
        failures++;
        return;
    }
    printf("%-8s %-34s %4u %3u %4u", table, subject->name, plan.things, plan.levels,
           plan.unsound != 0 ? plan.unsound : rounds_of_first());
    if (effort.runs != 0) {
        struct times times = measure(items, effort);
        printf(" %9.1f %9.1f", times.best[PLAIN], times.best[PROVED]);
    }
    printf("\n");
    fflush(stdout);
}

enum { HALF = TUPEHIWO_THINGS / 2, MOST_ROUNDS = 126 };

/* The cases that the growth of the cost is shown with. */
#define WRITE "write"
#define UNSOUND "refusal_with_2_at_the_last_record"
#define CHAIN "spread_of_a_chain"

/* The core and what the case needs, half of the numbers, and all. */
static void measure_case(const struct bench_case *subject)
{
    static const unsigned levels[] = {1, 4, 16};
    const unsigned things[] = {subject->fewest, HALF, TUPEHIWO_THINGS};
    unsigned rounds = subject == case_named(CHAIN) ? MOST_ROUNDS : 0;
    for (unsigned t = 0; t < 3; t++) {
        if (t > 0 && things[t] <= subject->fewest)
            continue;
        for (unsigned l = 0; l < 3; l++)
            line("cases", subject, (struct plan){things[t], levels[l], rounds, 0});
    }
}

static void measure_growth(void)
{
    static const unsigned things[] = {FIRST_THINGS, 16, 32, 64, 96, 128};
    static const unsigned levels[] = {1, 2, 3, 4, 6, 8, 12, 16};
    static const unsigned records[] = {1, 32, 64, 96, 127};
    static const unsigned rounds[] = {0, 1, 2, 4, 8, 16, 32, 64, MOST_ROUNDS};
    const struct bench_case *write = case_named(WRITE), *unsound = case_named(UNSOUND),
                            *chain = case_named(CHAIN);
    for (unsigned i = 0; i < sizeof things / sizeof things[0]; i++)
        line("things", write, (struct plan){things[i], 4, 0, 0});
    for (unsigned i = 0; i < sizeof levels / sizeof levels[0]; i++)
        line("levels", write, (struct plan){FIRST_THINGS, levels[i], 0, 0});
    for (unsigned i = 0; i < sizeof levels / sizeof levels[0]; i++)
        line("full", write, (struct plan){TUPEHIWO_THINGS, levels[i], 0, 0});
    for (unsigned i = 0; i < sizeof records / sizeof records[0]; i++)
        line("unsound", unsound, (struct plan){TUPEHIWO_THINGS, 4, 0, records[i]});
    for (unsigned i = 0; i < sizeof rounds / sizeof rounds[0]; i++)
        line("rounds", chain, (struct plan){TUPEHIWO_THINGS, 4, rounds[i], 0});
}

static void measure_all(void)
{
    for (unsigned c = 0; c < case_count; c++)
        measure_case(&cases[c]);
    measure_growth();
}

static void measure_named(const char *word)
{
    unsigned named = 0;
    for (unsigned c = 0; c < case_count; c++)
        if (strstr(cases[c].name, word) != NULL) {
            measure_case(&cases[c]);
            named++;
        }
    if (named == 0) {
        fprintf(stderr, "no case has %s in its name\n", word);
        failures++;
    }
}

/*
 * Whether a start without a list is refused. A library that is lent one tally grants it: on
 * x86-64 the length is in a register that such a library does not read.
 */
static int is_lent_a_list(const struct side *side)
{
    struct world w = {.m = {.order = line_of(1)}};
    struct tupehiwo_request start = {TUPEHIWO_CODE_START, 0, 0, 0, 0, 0};
    return side->perform(w.m.bytes, TUPEHIWO_BYTES, w.m.words, TUPEHIWO_WORDS, w.m.tallies, 0,
                         w.m.order, start)
               .verdict == TUPEHIWO_STATE;
}

static int usage(void)
{
    fprintf(stderr, "harness RUNS BATCHES [WORD], harness once [WORD], or harness script LINES\n");
    return 2;
}

int main(int words, char **word)
{
    int once = words >= 2 && strcmp(word[1], "once") == 0, rest = once ? 2 : 3;
    if (words == 3 && strcmp(word[1], "script") == 0) {
        print_script((unsigned)atoi(word[2]));
        return 0;
    }
    if (words < rest || words > rest + 1)
        return usage();
    if (!once) {
        effort.runs = (unsigned)atoi(word[1]);
        effort.batches = (unsigned)atoi(word[2]);
    }
    if (!once && !fit(effort))
        return usage();
    for (unsigned s = 0; s < SIDES; s++)
        if (!is_lent_a_list(&sides[s])) {
            fprintf(stderr, "a library that is lent one tally cannot be measured\n");
            return 2;
        }
    if (words > rest)
        measure_named(word[rest]);
    else
        measure_all();
    return failures != 0;
}
