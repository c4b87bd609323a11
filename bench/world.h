/*
 * States to measure on. Each is made by calls from a start, so it is one that a
 * user's calls can reach.
 */
#ifndef WORLD_H
#define WORLD_H

#include "side.h"

enum { CORE, IMAGE, FIRST_TASK, FIRST_THINGS }; /* the numbers every world begins with */
enum { FREE, TASK, OBJECT };

struct world {
    struct tupehiwo_monitor m;
    uint64_t random; /* where the random numbers stand */
    unsigned things; /* numbers 0 to things - 1 are in use */
    int mixed;       /* things have random levels, else all have the top */
};

/* A number below the bound. */
unsigned draw(uint64_t *random, unsigned bound);

/* All levels in one line: of all orders of that count, the one with most pairs. */
struct tupehiwo_order line_of(unsigned levels);

void begin_world(struct world *w, unsigned levels, int mixed, uint64_t seed);

/* Adds tasks and objects at random until so many numbers are in use. */
void fill_world(struct world *w, unsigned things);

/* Reads, writes and invokes at random, so that the words hold something. */
void use_world(struct world *w);

/* The verdict of a call, which is done. */
uint8_t done(struct world *w, unsigned code, unsigned a, unsigned b, unsigned c, unsigned d,
             unsigned e);

/* The same for a call that must be granted, else the program ends. */
void must(struct world *w, unsigned code, unsigned a, unsigned b, unsigned c, unsigned d,
          unsigned e);

/* A random number in use of that kind. */
unsigned any(struct world *w, unsigned kind);

unsigned kind_of(const struct world *w, unsigned n);
unsigned level_of(const struct world *w, unsigned n);
unsigned driver_of(const struct world *w, unsigned n);
unsigned container_of(const struct world *w, unsigned n);
unsigned any_level(struct world *w);

/* Records a flow by an invoke, a write or a read; none from an object to an object. */
void connect(struct world *w, unsigned from, unsigned to);

#endif
