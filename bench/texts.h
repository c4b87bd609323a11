/* The texts of power-up layouts to measure on. */
#ifndef TEXTS_H
#define TEXTS_H

#include "world.h"

/*
 * A random layout with every number but the core's, under the order of the world:
 * each call of it is granted. Gives back how many bytes it has.
 */
size_t write_layout(struct world *w, uint8_t *text);

/* As many bytes as a text may have, of which the last alone is at fault. */
void write_long_text(struct world *w, uint8_t text[TUPEHIWO_LAYOUT_BYTES]);

#endif
