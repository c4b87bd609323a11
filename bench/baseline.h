/*
 * A plain C monitor by the same rules, proved by nobody: the rival that the
 * proved library is measured against, and a stand-in to try the tests on.
 */
#ifndef BASELINE_H
#define BASELINE_H

#include "../include/tupehiwo.h"

#ifdef __cplusplus
extern "C" {
#endif

struct tupehiwo_answer baseline_perform(uint8_t *bytes, size_t nbytes, uint64_t *words,
                                        size_t nwords, struct tupehiwo_tally *tallies,
                                        size_t ntallies, struct tupehiwo_order order,
                                        struct tupehiwo_request request);

struct tupehiwo_answer baseline_load(uint8_t *bytes, size_t nbytes, uint64_t *words,
                                     size_t nwords, struct tupehiwo_tally *tallies,
                                     size_t ntallies, struct tupehiwo_order order,
                                     const uint8_t *text, size_t ntext);

struct tupehiwo_checked baseline_layout(const uint8_t *text, size_t ntext);

struct tupehiwo_report baseline_report(const uint8_t *bytes, size_t nbytes,
                                       const uint64_t *words, size_t nwords,
                                       struct tupehiwo_order order);

uint16_t baseline_next_marked(struct tupehiwo_report report, uint16_t from);

#ifdef __cplusplus
}
#endif

#endif
