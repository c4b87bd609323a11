/*
 * The inline functions of the header that take numbers, each behind one face, so
 * that a test can go through all of them and all of their numbers.
 */
#ifndef CALLS_H
#define CALLS_H

#include <stdio.h>
#include <string.h>

#include "tupehiwo.h"

enum { MOST_NUMBERS = 5 };

#define FACE(name, ...)                                                                        \
    static uint8_t ask_##name(struct tupehiwo_monitor *m, const uint64_t *n)                   \
    {                                                                                          \
        return tupehiwo_##name(m, __VA_ARGS__);                                                \
    }

FACE(read, n[0], n[1], n[2])
FACE(write, n[0], n[1], n[2])
FACE(execute, n[0], n[1], n[2], n[3], n[4])
FACE(create, n[0], n[1], n[2], n[3], n[4])
FACE(create_root, n[0], n[1], n[2], n[3])
FACE(move, n[0], n[1], n[2], n[3], n[4])
FACE(delete, n[0], n[1], n[2], n[3])
FACE(call, n[0], n[1])
FACE(invoke, n[0], n[1])
FACE(pass, n[0], n[1], n[2])
FACE(post, n[0], n[1], n[2])
FACE(find, n[0], n[1], n[2])
FACE(mark, n[0])
FACE(step, n[0])

struct call {
    const char *name;
    uint8_t (*ask)(struct tupehiwo_monitor *m, const uint64_t *n);
    uint16_t code;
    unsigned things, levels;    /* how many numbers it takes, things first */
    uint64_t fit[MOST_NUMBERS]; /* granted in the world of tests/wide.c */
};

static const struct call calls[] = {
    {"read", ask_read, 1, 3, 0, {2, 0, 10, 0, 0}},
    {"write", ask_write, 2, 3, 0, {1, 0, 127, 0, 0}},
    {"execute", ask_execute, 3, 3, 2, {1, 11, 126, 2, 0}},
    {"create", ask_create, 4, 4, 1, {0, 1, 126, 11, 2}},
    {"create root", ask_create_root, 5, 3, 1, {1, 2, 126, 0, 0}},
    {"move", ask_move, 6, 5, 0, {0, 1, 12, 10, 11}},
    {"delete", ask_delete, 7, 4, 0, {1, 0, 14, 10, 0}},
    {"call", ask_call, 8, 2, 0, {2, 1, 0, 0, 0}},
    {"invoke", ask_invoke, 9, 2, 0, {1, 2, 0, 0, 0}},
    {"pass", ask_pass, 10, 3, 0, {2, 11, 127, 0, 0}},
    {"post", ask_post, 11, 3, 0, {0, 11, 2, 0, 0}},
    {"find", ask_find, 12, 3, 0, {1, 2, 127, 0, 0}},
    {"mark", ask_mark, 13, 1, 0, {1, 0, 0, 0, 0}},
    {"step", ask_step, 14, 1, 0, {2, 0, 0, 0, 0}},
};

enum { CALLS = sizeof calls / sizeof calls[0], WIDE = 4 };

/* A number that does not fit 16 bits: each would fit if it were cut, but the last. */
static uint64_t wide(unsigned which, uint64_t fit)
{
    const uint64_t numbers[WIDE] = {65536 + fit, 65537, (UINT64_C(1) << 32) + 1, (uint64_t)-1};
    return numbers[which];
}

/* Asks with the call's fit numbers, but for one in a place. */
static uint8_t ask_with(struct tupehiwo_monitor *m, const struct call *call, unsigned place,
                        uint64_t number)
{
    uint64_t n[MOST_NUMBERS];
    memcpy(n, call->fit, sizeof n);
    n[place] = number;
    return call->ask(m, n);
}

static int failures;

static void expect(int holds, const char *what)
{
    if (!holds) {
        printf("%s: not as named\n", what);
        failures++;
    }
}

#endif
