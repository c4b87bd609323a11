#include "script.h"

#include <stdio.h>

#include "world.h"

/*
 * A call's word, how often it comes, and what its numbers are: a task (t), an
 * object (o), its driver (d) and its container (c), another object (a), a thing
 * (x), a new number (n), a level (l).
 */
struct kind {
    const char *word;
    unsigned code, weight;
    const char *numbers;
};

static const struct kind kinds[] = {
    {"read", TUPEHIWO_CODE_READ, 240, "tdo"},
    {"write", TUPEHIWO_CODE_WRITE, 200, "tdo"},
    {"call", TUPEHIWO_CODE_CALL, 100, "tt"},
    {"invoke", TUPEHIWO_CODE_INVOKE, 100, "tt"},
    {"create", TUPEHIWO_CODE_CREATE, 70, "ttnal"},
    {"root", TUPEHIWO_CODE_CREATE_ROOT, 40, "ttnl"},
    {"delete", TUPEHIWO_CODE_DELETE, 60, "tdoc"},
    {"move", TUPEHIWO_CODE_MOVE, 30, "tdoca"},
    {"pass", TUPEHIWO_CODE_PASS, 30, "tox"},
    {"post", TUPEHIWO_CODE_POST, 30, "tot"},
    {"find", TUPEHIWO_CODE_FIND, 30, "ttx"},
    {"run", TUPEHIWO_CODE_EXECUTE, 30, "tonll"},
    {"step", TUPEHIWO_CODE_STEP, 18, "x"},
    {"mark", TUPEHIWO_CODE_MARK, 1, "t"},
    {"spread", TUPEHIWO_CODE_SPREAD, 11, ""},
    {"words that are no call", 0, 10, NULL},
};

enum { WEIGHTS = 1000, LEVELS = 4, LINES_OF_A_START = 4096 };

static const struct kind *any_kind(struct world *w)
{
    unsigned left = draw(&w->random, WEIGHTS);
    const struct kind *kind = kinds;
    for (; left >= kind->weight; kind++)
        left -= kind->weight;
    return kind;
}

static unsigned any_in_use(struct world *w)
{
    return any(w, draw(&w->random, 2) ? TASK : OBJECT);
}

/* A few tries: where most numbers are in use the new one may be, too. */
static unsigned new_number(struct world *w)
{
    unsigned n = draw(&w->random, TUPEHIWO_THINGS);
    for (unsigned i = 0; i < 4 && kind_of(w, n) != FREE; i++)
        n = draw(&w->random, TUPEHIWO_THINGS);
    return n;
}

static unsigned any_number(struct world *w, char meant, unsigned object)
{
    switch (meant) {
    case 't': return any(w, TASK);
    case 'o': return object;
    case 'd': return driver_of(w, object);
    case 'c': return container_of(w, object);
    case 'a': return any(w, OBJECT);
    case 'x': return any_in_use(w);
    case 'n': return new_number(w);
    default: return any_level(w);
    }
}

static void print_call(struct world *w)
{
    const struct kind *kind = any_kind(w);
    unsigned object = any(w, OBJECT), n[5] = {0};
    printf("%s", kind->word);
    for (unsigned i = 0; kind->numbers != NULL && kind->numbers[i] != 0; i++) {
        n[i] = any_number(w, kind->numbers[i], object);
        printf(" %u", n[i]);
    }
    printf("\n");
    if (kind->numbers != NULL)
        done(w, kind->code, n[0], n[1], n[2], n[3], n[4]);
}

/* A start and the first things, as a world begins. */
static unsigned print_start(struct world *w)
{
    begin_world(w, LEVELS, 1, w->random);
    printf("start %u %u", LEVELS, w->m.order.top);
    for (unsigned i = 0; i < LEVELS; i++)
        printf(" %u", w->m.order.rows[i]);
    printf("\nroot %u %u %u %u\n", CORE, CORE, IMAGE, LEVELS - 1);
    printf("run %u %u %u %u 0\n", CORE, IMAGE, FIRST_TASK, level_of(w, FIRST_TASK));
    w->things = TUPEHIWO_THINGS;
    return FIRST_THINGS;
}

void print_script(unsigned lines)
{
    struct world w = {.random = 1};
    for (unsigned line = 0; line < lines;) {
        if (line % LINES_OF_A_START == 0) {
            line += print_start(&w);
        } else {
            print_call(&w);
            line++;
        }
    }
}
