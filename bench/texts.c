#include "texts.h"

#include <stdio.h>
#include <string.h>

enum { DEPTH = TUPEHIWO_LAYOUT_DEPTH, LINE = 64 };

/* What a layout has so far, and which of its objects are open. */
struct draft {
    struct world *w;
    uint8_t *text;
    size_t length;
    unsigned tasks[TUPEHIWO_THINGS], ntasks;
    unsigned objects[TUPEHIWO_THINGS], nobjects;
    unsigned level[TUPEHIWO_THINGS];
    unsigned holding[DEPTH], open;
};

static void add(struct draft *d, const char *words)
{
    memcpy(d->text + d->length, words, strlen(words));
    d->length += strlen(words);
}

static unsigned random_below(struct draft *d, unsigned bound)
{
    return draw(&d->w->random, bound);
}

/* Closes open objects, so many that as many stay; the line ends with it. */
static void close_to(struct draft *d, unsigned open)
{
    for (; d->open > open; d->open--)
        add(d, ")");
    add(d, "\n");
}

/* All levels lie in one line: a driver's is at or above its container's. */
static void add_object(struct draft *d, unsigned n)
{
    char line[LINE];
    unsigned least = d->open > 0 ? d->level[d->holding[d->open - 1]] : 0, driver;
    do
        driver = d->tasks[random_below(d, d->ntasks)];
    while (d->level[driver] < least);
    unsigned highest = d->open > 0 ? least : d->level[driver];
    d->level[n] = random_below(d, highest + 1);
    snprintf(line, sizeof line, "(object %u driver %u level %u", n, driver, d->level[n]);
    add(d, line);
    d->objects[d->nobjects++] = n;
    d->holding[d->open++] = n;
}

static void add_task(struct draft *d, unsigned n)
{
    char line[LINE];
    unsigned image = d->objects[random_below(d, d->nobjects)];
    d->level[n] = random_below(d, d->level[image] + 1);
    snprintf(line, sizeof line, "(task %u image %u level %u reads %u)\n", n, image,
             d->level[n], random_below(d, d->level[n] + 1));
    add(d, line);
    d->tasks[d->ntasks++] = n;
}

/* A task only where no object is open. After the last number all are closed. */
size_t write_layout(struct world *w, uint8_t *text)
{
    struct draft d = {.w = w, .text = text, .ntasks = 1};
    d.level[CORE] = w->m.order.top;
    for (unsigned n = 1; n < TUPEHIWO_THINGS; n++) {
        if (d.nobjects > 0 && d.open == 0 && random_below(&d, 2) == 0) {
            add_task(&d, n);
            continue;
        }
        add_object(&d, n);
        unsigned most = d.open < DEPTH ? d.open : DEPTH - 1;
        close_to(&d, n == TUPEHIWO_THINGS - 1 ? 0 : random_below(&d, most + 1));
    }
    return d.length;
}

/* Layouts one after the other; where the text is full, one breaks off. */
void write_long_text(struct world *w, uint8_t text[TUPEHIWO_LAYOUT_BYTES])
{
    static uint8_t one[TUPEHIWO_LAYOUT_BYTES];
    for (size_t length = 0; length < TUPEHIWO_LAYOUT_BYTES;) {
        size_t left = TUPEHIWO_LAYOUT_BYTES - length, next = write_layout(w, one);
        memcpy(text + length, one, next < left ? next : left);
        length += next;
    }
    text[TUPEHIWO_LAYOUT_BYTES - 1] = 0;
}
