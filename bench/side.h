/* The two monitors that are measured, behind one face. */
#ifndef SIDE_H
#define SIDE_H

#include "baseline.h"

struct side {
    struct tupehiwo_answer (*perform)(uint8_t *bytes, size_t nbytes, uint64_t *words,
                                      size_t nwords, struct tupehiwo_tally *tallies,
                                      size_t ntallies, struct tupehiwo_order order,
                                      struct tupehiwo_request request);
    struct tupehiwo_answer (*load)(uint8_t *bytes, size_t nbytes, uint64_t *words,
                                   size_t nwords, struct tupehiwo_tally *tallies,
                                   size_t ntallies, struct tupehiwo_order order,
                                   const uint8_t *text, size_t ntext);
    struct tupehiwo_checked (*layout)(const uint8_t *text, size_t ntext);
    struct tupehiwo_report (*report)(const uint8_t *bytes, size_t nbytes, const uint64_t *words,
                                     size_t nwords, struct tupehiwo_order order);
};

enum { PLAIN, PROVED, SIDES };

static const struct side sides[SIDES] = {
    {baseline_perform, baseline_load, baseline_layout, baseline_report},
    {tupehiwo_perform, tupehiwo_load, tupehiwo_layout, tupehiwo_report}};

static inline struct tupehiwo_answer ask(const struct side *side, struct tupehiwo_monitor *m,
                                         struct tupehiwo_request request)
{
    return side->perform(m->bytes, TUPEHIWO_BYTES, m->words, TUPEHIWO_WORDS, m->tallies,
                         TUPEHIWO_TALLIES, m->order, request);
}

static inline struct tupehiwo_answer ask_load(const struct side *side,
                                              struct tupehiwo_monitor *m,
                                              const uint8_t *text, size_t ntext)
{
    return side->load(m->bytes, TUPEHIWO_BYTES, m->words, TUPEHIWO_WORDS, m->tallies,
                      TUPEHIWO_TALLIES, m->order, text, ntext);
}

static inline struct tupehiwo_report ask_report(const struct side *side,
                                                const struct tupehiwo_monitor *m)
{
    return side->report(m->bytes, TUPEHIWO_BYTES, m->words, TUPEHIWO_WORDS, m->order);
}

#endif
