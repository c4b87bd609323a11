/*
 * The library's names over a plain C monitor that is loaded when the program
 * begins: TUPEHIWO_PLANT names its file. So tests/plant builds the tests once for
 * all plants.
 */
#include <dlfcn.h>
#include <stdio.h>
#include <stdlib.h>
#include <string.h>

#include "baseline.h"

static struct {
    __typeof__(&baseline_perform) perform;
    __typeof__(&baseline_load) load;
    __typeof__(&baseline_layout) layout;
    __typeof__(&baseline_report) report;
    __typeof__(&baseline_next_marked) next_marked;
} monitor;

/* Puts a function's address where C allows it: a cast from a data pointer is not C. */
static void find(void *file, const char *name, void *function)
{
    void *found = dlsym(file, name);
    if (found == NULL) {
        fprintf(stderr, "the plant has no %s\n", name);
        exit(2);
    }
    memcpy(function, &found, sizeof found);
}

__attribute__((constructor)) static void plug(void)
{
    const char *name = getenv("TUPEHIWO_PLANT");
    if (name == NULL)
        return; /* a program's tests call no monitor */
    void *file = dlopen(name, RTLD_NOW);
    if (file == NULL) {
        fprintf(stderr, "%s cannot be loaded\n", name);
        exit(2);
    }
    find(file, "baseline_perform", &monitor.perform);
    find(file, "baseline_load", &monitor.load);
    find(file, "baseline_layout", &monitor.layout);
    find(file, "baseline_report", &monitor.report);
    find(file, "baseline_next_marked", &monitor.next_marked);
}

struct tupehiwo_answer tupehiwo_perform(uint8_t *bytes, size_t nbytes, uint64_t *words,
                                        size_t nwords, struct tupehiwo_tally *tallies,
                                        size_t ntallies, struct tupehiwo_order order,
                                        struct tupehiwo_request request)
{
    return monitor.perform(bytes, nbytes, words, nwords, tallies, ntallies, order, request);
}

struct tupehiwo_answer tupehiwo_load(uint8_t *bytes, size_t nbytes, uint64_t *words,
                                     size_t nwords, struct tupehiwo_tally *tallies,
                                     size_t ntallies, struct tupehiwo_order order,
                                     const uint8_t *text, size_t ntext)
{
    return monitor.load(bytes, nbytes, words, nwords, tallies, ntallies, order, text, ntext);
}

struct tupehiwo_checked tupehiwo_layout(const uint8_t *text, size_t ntext)
{
    return monitor.layout(text, ntext);
}

struct tupehiwo_report tupehiwo_report(const uint8_t *bytes, size_t nbytes,
                                       const uint64_t *words, size_t nwords,
                                       struct tupehiwo_order order)
{
    return monitor.report(bytes, nbytes, words, nwords, order);
}

uint16_t tupehiwo_next_marked(struct tupehiwo_report report, uint16_t from)
{
    return monitor.next_marked(report, from);
}
