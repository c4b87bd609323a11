/*
 * Begin with the layout in a file: what an instrument has when it is switched on.
 *
 *   load FILE
 *
 * There are three levels: 0 for what a customer brought, 1 for what the shop has
 * checked, 2 for what came from the factory. Prints the load's verdict; what there
 * is then, or where the text is no layout's.
 */
#include <stdio.h>

#include "tupehiwo.h"

enum { FACTORY = 2, TASK = 1, OBJECT = 2 };

/* Each level is at or below the next. */
static const struct tupehiwo_order order = {{7, 6, 4}, 3, FACTORY};

/* A byte more than the longest layout, so that a longer file is found to be so. */
static char text[TUPEHIWO_LAYOUT_BYTES + 1];

static void print_kind(const struct tupehiwo_monitor *m, const char *name, uint8_t kind)
{
    printf("%s", name);
    for (unsigned n = 0; n < TUPEHIWO_THINGS; n++)
        if (m->bytes[8 * n] == kind)
            printf(" %u", n);
    printf("\n");
}

/* A text that gets to its calls has no place to tell: one of the calls was refused. */
static void print_fault(size_t length)
{
    struct tupehiwo_checked checked = tupehiwo_layout((const uint8_t *)text, length);
    struct tupehiwo_place place = tupehiwo_place_of(text, checked.offset);
    if (checked.verdict == TUPEHIWO_GRANTED)
        printf("a form that the rules refuse\n");
    else
        printf("line %lu, column %lu\n", (unsigned long)place.line,
               (unsigned long)place.column);
}

int main(int words, char **word)
{
    static struct tupehiwo_monitor m; /* zeros, as a monitor begins */
    FILE *file = words == 2 ? fopen(word[1], "rb") : NULL;
    if (file == NULL) {
        fprintf(stderr, "load FILE: the file of a layout\n");
        return 2;
    }
    size_t length = fread(text, 1, sizeof text, file);
    fclose(file);

    uint8_t verdict = tupehiwo_monitor_load(&m, order, text, length);
    printf("load: %u %s\n", verdict, tupehiwo_word(verdict));
    if (verdict != TUPEHIWO_GRANTED) {
        print_fault(length);
        return 1;
    }
    print_kind(&m, "tasks", TASK);
    print_kind(&m, "objects", OBJECT);
    return 0;
}
