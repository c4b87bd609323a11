#include "world.h"

#include <stdio.h>
#include <stdlib.h>

enum { RECORD = 8 };
enum { KIND, LEVEL, READ_LEVEL, DRIVER, CONTAINER }; /* bytes of a record */

/* The splitmix64 generator: the same numbers on every machine. */
unsigned draw(uint64_t *random, unsigned bound)
{
    uint64_t z = *random += UINT64_C(0x9E3779B97F4A7C15);
    z = (z ^ (z >> 30)) * UINT64_C(0xBF58476D1CE4E5B9);
    z = (z ^ (z >> 27)) * UINT64_C(0x94D049BB133111EB);
    return (unsigned)((z ^ (z >> 31)) % bound);
}

struct tupehiwo_order line_of(unsigned levels)
{
    struct tupehiwo_order order = {{0}, (uint16_t)levels, (uint16_t)(levels - 1)};
    for (unsigned i = 0; i < levels; i++)
        order.rows[i] = (uint16_t)((1u << levels) - (1u << i));
    return order;
}

unsigned kind_of(const struct world *w, unsigned n)
{
    return w->m.bytes[RECORD * n + KIND];
}

unsigned level_of(const struct world *w, unsigned n)
{
    return w->m.bytes[RECORD * n + LEVEL];
}

unsigned driver_of(const struct world *w, unsigned n)
{
    return w->m.bytes[RECORD * n + DRIVER];
}

unsigned container_of(const struct world *w, unsigned n)
{
    return w->m.bytes[RECORD * n + CONTAINER];
}

unsigned any(struct world *w, unsigned kind)
{
    unsigned n;
    do
        n = draw(&w->random, w->things);
    while (kind_of(w, n) != kind);
    return n;
}

unsigned any_level(struct world *w)
{
    unsigned count = w->m.order.count;
    return w->mixed ? draw(&w->random, count) : count - 1;
}

uint8_t done(struct world *w, unsigned code, unsigned a, unsigned b, unsigned c, unsigned d,
             unsigned e)
{
    struct tupehiwo_request request = {(uint16_t)code, (uint16_t)a, (uint16_t)b,
                                       (uint16_t)c,    (uint16_t)d, (uint16_t)e};
    return ask(&sides[PLAIN], &w->m, request).verdict;
}

void must(struct world *w, unsigned code, unsigned a, unsigned b, unsigned c, unsigned d,
          unsigned e)
{
    uint8_t verdict = done(w, code, a, b, c, d, e);
    if (verdict == TUPEHIWO_GRANTED)
        return;
    fprintf(stderr, "no state to measure on: call %u (%u %u %u %u %u) gives %u\n", code, a, b,
            c, d, e, verdict);
    exit(1);
}

void begin_world(struct world *w, unsigned levels, int mixed, uint64_t seed)
{
    struct world begun = {.random = seed, .things = FIRST_THINGS, .mixed = mixed};
    begun.m.order = line_of(levels);
    must(&begun, TUPEHIWO_CODE_START, 0, 0, 0, 0, 0);
    must(&begun, TUPEHIWO_CODE_CREATE_ROOT, CORE, CORE, IMAGE, levels - 1, 0);
    must(&begun, TUPEHIWO_CODE_EXECUTE, CORE, IMAGE, FIRST_TASK, any_level(&begun), 0);
    *w = begun;
}

/* A task, a root object or an object in a container. */
static uint8_t add_thing(struct world *w)
{
    unsigned made = w->things, level = any_level(w);
    unsigned driver = any(w, TASK), container = any(w, OBJECT);
    switch (draw(&w->random, 3)) {
    case 0:
        return done(w, TUPEHIWO_CODE_EXECUTE, CORE, IMAGE, made, level,
                    draw(&w->random, level + 1));
    case 1: return done(w, TUPEHIWO_CODE_CREATE_ROOT, CORE, driver, made, level, 0);
    default:
        done(w, TUPEHIWO_CODE_WRITE, CORE, driver_of(w, container), container, 0, 0);
        done(w, TUPEHIWO_CODE_WRITE, driver, driver_of(w, container), container, 0, 0);
        return done(w, TUPEHIWO_CODE_CREATE, CORE, driver, made, container, level);
    }
}

void fill_world(struct world *w, unsigned things)
{
    while (w->things < things)
        if (add_thing(w) == TUPEHIWO_GRANTED)
            w->things++;
}

void connect(struct world *w, unsigned from, unsigned to)
{
    if (kind_of(w, from) == OBJECT && kind_of(w, to) == TASK)
        done(w, TUPEHIWO_CODE_READ, to, driver_of(w, from), from, 0, 0);
    else if (kind_of(w, from) == TASK && kind_of(w, to) == OBJECT)
        done(w, TUPEHIWO_CODE_WRITE, from, driver_of(w, to), to, 0, 0);
    else if (kind_of(w, from) == TASK)
        done(w, TUPEHIWO_CODE_INVOKE, from, to, 0, 0, 0);
}

void use_world(struct world *w)
{
    for (unsigned i = 0; i < 4 * w->things; i++) {
        unsigned from = draw(&w->random, w->things);
        connect(w, from, draw(&w->random, w->things));
    }
}
