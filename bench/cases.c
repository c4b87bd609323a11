#include "cases.h"

#include <stdio.h>
#include <stdlib.h>
#include <string.h>

#include "texts.h"

static void request(struct item *item, unsigned code, unsigned a, unsigned b, unsigned c,
                    unsigned d, unsigned e)
{
    struct tupehiwo_request q = {(uint16_t)code, (uint16_t)a, (uint16_t)b,
                                 (uint16_t)c,    (uint16_t)d, (uint16_t)e};
    item->asked = REQUESTS;
    item->requests[item->count++] = q;
}

static void mark(struct item *item, unsigned task)
{
    must(&item->world, TUPEHIWO_CODE_MARK, task, 0, 0, 0, 0);
}

static void fill_and_use(struct item *item, const struct plan *plan)
{
    fill_world(&item->world, plan->things);
    use_world(&item->world);
}

/* So many numbers from the first on, in random order. */
static void shuffle(struct world *w, unsigned first, unsigned *numbers, unsigned count)
{
    for (unsigned i = 0; i < count; i++) {
        unsigned place = draw(&w->random, i + 1), drawn;
        numbers[i] = first + i;
        drawn = numbers[place];
        numbers[place] = numbers[i];
        numbers[i] = drawn;
    }
}

/* ----------------------------------------------------------------- events */

/* The call that takes an access: of a random task to a random object, one that is granted. */
static void access(struct item *item, const struct plan *plan, unsigned code)
{
    unsigned task, object, driver;
    struct world before;
    fill_and_use(item, plan);
    before = item->world;
    do {
        item->world.m = before.m;
        task = any(&item->world, TASK);
        object = any(&item->world, OBJECT);
        driver = driver_of(&item->world, object);
    } while (done(&item->world, code, task, driver, object, 0, 0) != TUPEHIWO_GRANTED);
    item->world.m = before.m;
    request(item, code, task, driver, object, 0, 0);
}

static void build_read(struct item *item, const struct plan *plan)
{
    access(item, plan, TUPEHIWO_CODE_READ);
}

static void build_write(struct item *item, const struct plan *plan)
{
    access(item, plan, TUPEHIWO_CODE_WRITE);
}

static void build_invoke(struct item *item, const struct plan *plan)
{
    fill_and_use(item, plan);
    request(item, TUPEHIWO_CODE_INVOKE, CORE, any(&item->world, TASK), 0, 0, 0);
}

/* The task with the highest number: with many things in use its tally lies far from the core's. */
static unsigned last_task(struct item *item, const struct plan *plan)
{
    unsigned n = plan->things - 1;
    fill_and_use(item, plan);
    while (kind_of(&item->world, n) != TASK)
        n--;
    return n;
}

static void build_call_by_last(struct item *item, const struct plan *plan)
{
    unsigned task = last_task(item, plan);
    request(item, TUPEHIWO_CODE_CALL, task, task, 0, 0, 0);
}

/* Of one task by another. */
static void build_call(struct item *item, const struct plan *plan)
{
    struct world *w = &item->world;
    struct tupehiwo_monitor before;
    unsigned caller, callee;
    fill_and_use(item, plan);
    before = w->m;
    do {
        w->m = before;
        caller = any(w, TASK);
        callee = any(w, TASK);
    } while (caller == callee ||
             done(w, TUPEHIWO_CODE_CALL, caller, callee, 0, 0, 0) != TUPEHIWO_GRANTED);
    w->m = before;
    request(item, TUPEHIWO_CODE_CALL, caller, callee, 0, 0, 0);
}

/*
 * What a task read of an object goes on to another, which it feeds, or what another wrote to
 * the object goes on to the task.
 */
static void relay(struct item *item, const struct plan *plan, unsigned code)
{
    struct world *w = &item->world;
    struct tupehiwo_monitor before;
    unsigned reader, object, other, from, to;
    fill_and_use(item, plan);
    do {
        reader = any(w, TASK);
        object = any(w, OBJECT);
        other = any(w, TASK);
        from = code == TUPEHIWO_CODE_PASS ? reader : other;
        to = code == TUPEHIWO_CODE_PASS ? other : reader;
        connect(w, object, reader);
        connect(w, from, code == TUPEHIWO_CODE_PASS ? to : object);
        before = w->m;
    } while (done(w, code, from, object, to, 0, 0) != TUPEHIWO_GRANTED);
    w->m = before;
    request(item, code, from, object, to, 0, 0);
}

static void build_pass(struct item *item, const struct plan *plan)
{
    relay(item, plan, TUPEHIWO_CODE_PASS);
}

static void build_post(struct item *item, const struct plan *plan)
{
    relay(item, plan, TUPEHIWO_CODE_POST);
}

/* The image's driver is the core. */
static void build_refusal_of_last(struct item *item, const struct plan *plan)
{
    unsigned task = last_task(item, plan);
    request(item, TUPEHIWO_CODE_READ, task, task, IMAGE, 0, 0);
    item->verdict = TUPEHIWO_DRIVER;
}

/* An object is deleted and made again, so that all numbers can be in use. */
static void build_remade(struct item *item, const struct plan *plan)
{
    unsigned last = plan->things - 1, level = any_level(&item->world);
    fill_world(&item->world, last);
    must(&item->world, TUPEHIWO_CODE_WRITE, CORE, CORE, IMAGE, 0, 0);
    must(&item->world, TUPEHIWO_CODE_CREATE, CORE, CORE, last, IMAGE, level);
    item->world.things++;
    use_world(&item->world);
    request(item, TUPEHIWO_CODE_DELETE, CORE, CORE, last, IMAGE, 0);
    request(item, TUPEHIWO_CODE_CREATE, CORE, CORE, last, IMAGE, level);
}

static void build_unfit(struct item *item, const struct plan *plan)
{
    fill_and_use(item, plan);
    request(item, TUPEHIWO_CODE_READ, FIRST_TASK, CORE, TUPEHIWO_THINGS, 0, 0);
    item->verdict = TUPEHIWO_NUMBER;
}

/* The last spare byte of a record is not zero. */
static void build_unsound(struct item *item, const struct plan *plan)
{
    unsigned record = plan->unsound != 0 ? plan->unsound : TUPEHIWO_THINGS - 1;
    access(item, plan, TUPEHIWO_CODE_WRITE);
    item->world.m.bytes[8 * record + 7] = 1;
    item->verdict = TUPEHIWO_STATE;
}

static void build_start(struct item *item, const struct plan *plan)
{
    fill_and_use(item, plan);
    request(item, TUPEHIWO_CODE_START, 0, 0, 0, 0, 0);
}

/* The same line with the top as level 0: an order's test may hang on how levels are numbered. */
static void build_start_down(struct item *item, const struct plan *plan)
{
    struct tupehiwo_order down = {{0}, (uint16_t)plan->levels, 0};
    for (unsigned i = 0; i < plan->levels; i++)
        down.rows[i] = (uint16_t)((2u << i) - 1);
    build_start(item, plan);
    item->world.m.order = down;
}

/* -------------------------------------------------------------- deletions */

enum { SOME = 10, ALL_OTHERS = TUPEHIWO_THINGS - 2 };

/*
 * Flows from a thing to an object of the core's, and back; all is at the top. To and from
 * another object the core passes them on, which has to have its own flows before.
 */
static void tie(struct world *w, unsigned n, unsigned object)
{
    unsigned task = kind_of(w, n) == TASK ? n : CORE, other = task == n ? object : n;
    must(w, TUPEHIWO_CODE_WRITE, task, driver_of(w, other), other, 0, 0);
    must(w, TUPEHIWO_CODE_READ, task, driver_of(w, other), other, 0, 0);
    if (other == n) {
        must(w, TUPEHIWO_CODE_PASS, CORE, n, object, 0, 0);
        must(w, TUPEHIWO_CODE_PASS, CORE, object, n, 0, 0);
    }
}

/*
 * The last object is deleted from the image. So many things feed it and are fed by it, and
 * no others: the core, which is its driver, and things that are drawn, the image aside.
 */
static void build_delete(struct item *item, const struct plan *plan, unsigned tied)
{
    struct world *w = &item->world;
    unsigned object = plan->things - 1, others[TUPEHIWO_THINGS] = {CORE};
    fill_world(w, object);
    use_world(w);
    must(w, TUPEHIWO_CODE_WRITE, CORE, CORE, IMAGE, 0, 0);
    must(w, TUPEHIWO_CODE_CREATE, CORE, CORE, object, IMAGE, plan->levels - 1);
    w->things++;
    shuffle(w, FIRST_TASK, others + 1, object - FIRST_TASK);
    for (unsigned i = 0; i < tied; i++)
        tie(w, others[i], object);
    request(item, TUPEHIWO_CODE_DELETE, CORE, CORE, object, IMAGE, 0);
}

static void build_delete_untied(struct item *item, const struct plan *plan)
{
    build_delete(item, plan, 0);
}

static void build_delete_some(struct item *item, const struct plan *plan)
{
    build_delete(item, plan, SOME);
}

static void build_delete_all_others(struct item *item, const struct plan *plan)
{
    build_delete(item, plan, ALL_OTHERS);
}

/* ------------------------------------------------------------------ moves */

enum { NOWHERE = 255, CHAIN = 120 };

/* What a move may name: a root, the chain in it from TOP to BOTTOM, and an object in another. */
enum { ROOT, TOP, BOTTOM = TOP + CHAIN - 1, OTHER_ROOT, LOOSE, PLACES };

/* An object of the core's in a container, or a root, which the core may put things into. */
static void add_object(struct world *w, unsigned n, unsigned container, unsigned level)
{
    if (container == NOWHERE)
        must(w, TUPEHIWO_CODE_CREATE_ROOT, CORE, CORE, n, level, 0);
    else
        must(w, TUPEHIWO_CODE_CREATE, CORE, CORE, n, container, level);
    must(w, TUPEHIWO_CODE_WRITE, CORE, CORE, n, 0, 0);
    w->things++;
}

static void move(struct item *item, unsigned object, unsigned from, unsigned to)
{
    request(item, TUPEHIWO_CODE_MOVE, CORE, CORE, object, from, to);
}

static void build_move_of_roots(struct item *item, const struct plan *plan)
{
    struct world *w = &item->world;
    unsigned from = w->things, to = from + 1, object = to + 1, top = plan->levels - 1;
    add_object(w, from, NOWHERE, top);
    add_object(w, to, NOWHERE, top);
    add_object(w, object, from, any_level(w));
    fill_and_use(item, plan);
    move(item, object, from, to);
}

/* The numbers are drawn, so that no order of them makes the chain quick to follow. */
static void build_containers(struct item *item, const struct plan *plan, unsigned n[PLACES])
{
    struct world *w = &item->world;
    unsigned top = plan->levels - 1;
    shuffle(w, w->things, n, PLACES);
    add_object(w, n[ROOT], NOWHERE, top);
    for (unsigned i = TOP; i <= BOTTOM; i++)
        add_object(w, n[i], n[i - 1], top);
    add_object(w, n[OTHER_ROOT], NOWHERE, top);
    add_object(w, n[LOOSE], n[OTHER_ROOT], any_level(w));
    fill_and_use(item, plan);
}

static void build_move_down(struct item *item, const struct plan *plan)
{
    unsigned n[PLACES];
    build_containers(item, plan, n);
    move(item, n[LOOSE], n[OTHER_ROOT], n[BOTTOM]);
}

static void build_move_inside(struct item *item, const struct plan *plan)
{
    unsigned n[PLACES];
    build_containers(item, plan, n);
    move(item, n[TOP], n[ROOT], n[BOTTOM]);
    item->verdict = TUPEHIWO_PLACE;
}

/* ------------------------------------------------------------------ marks */

enum { OBJECTS_OF_ONE = 60 };

/* The driver and its objects have the last numbers. */
static void build_mark(struct item *item, const struct plan *plan)
{
    struct world *w = &item->world;
    unsigned driver = plan->things - OBJECTS_OF_ONE - 1, top = plan->levels - 1;
    fill_world(w, driver);
    must(w, TUPEHIWO_CODE_EXECUTE, CORE, IMAGE, driver, top, top);
    for (w->things = driver + 1; w->things < plan->things; w->things++)
        must(w, TUPEHIWO_CODE_CREATE_ROOT, CORE, driver, w->things, any_level(w), 0);
    use_world(w);
    request(item, TUPEHIWO_CODE_MARK, driver, 0, 0, 0, 0);
}

/* A task that a marked one feeds. */
static void build_step(struct item *item, const struct plan *plan)
{
    struct world *w = &item->world;
    unsigned source, task;
    fill_world(w, plan->things);
    source = any(w, TASK);
    do
        task = any(w, TASK);
    while (task == source);
    connect(w, source, task);
    mark(item, source);
    request(item, TUPEHIWO_CODE_STEP, task, 0, 0, 0, 0);
}

static void build_report(struct item *item, const struct plan *plan)
{
    fill_and_use(item, plan);
    mark(item, any(&item->world, TASK));
    must(&item->world, TUPEHIWO_CODE_SPREAD, 0, 0, 0, 0, 0);
    item->asked = REPORT;
}

/* ----------------------------------------------------------------- layouts */

/* The text of a random layout, with all numbers but the core's. */
static void build_load(struct item *item, const struct plan *plan)
{
    fill_and_use(item, plan);
    item->asked = LOAD;
    item->count = 1;
    item->ntext = write_layout(&item->world, item->text);
}

/* The longest text, with its last byte at fault. */
static void build_load_broken(struct item *item, const struct plan *plan)
{
    fill_and_use(item, plan);
    item->asked = LOAD;
    item->count = 1;
    item->ntext = sizeof item->text;
    write_long_text(&item->world, item->text);
    item->verdict = TUPEHIWO_FORM;
}

static void build_check(struct item *item, const struct plan *plan)
{
    build_load(item, plan);
    item->asked = CHECK;
    item->count = 0;
}

static void build_check_broken(struct item *item, const struct plan *plan)
{
    build_load_broken(item, plan);
    item->asked = CHECK;
    item->count = 0;
}

/* ----------------------------------------------------------------- spreads */

static void spread(struct item *item, unsigned rounds)
{
    request(item, TUPEHIWO_CODE_SPREAD, 0, 0, 0, 0, 0);
    item->rounds = (uint8_t)rounds;
}

/*
 * Tasks FIRST_TASK to 127 in a line, and last the core, whose object the image
 * is: 126 rounds if the first is marked, and fewer from one further on.
 */
static void build_chain(struct item *item, const struct plan *plan)
{
    struct world *w = &item->world;
    unsigned top = plan->levels - 1, rest = TUPEHIWO_THINGS - FIRST_TASK - plan->rounds;
    for (; w->things < plan->things; w->things++) {
        must(w, TUPEHIWO_CODE_EXECUTE, CORE, IMAGE, w->things, top, top);
        connect(w, w->things - 1, w->things);
    }
    connect(w, w->things - 1, CORE);
    mark(item, plan->rounds == 0 ? CORE : FIRST_TASK + rest);
    spread(item, plan->rounds);
}

/* One task feeds all others. */
static void build_star(struct item *item, const struct plan *plan)
{
    fill_world(&item->world, plan->things);
    for (unsigned n = 0; n < plan->things; n++)
        connect(&item->world, FIRST_TASK, n);
    mark(item, FIRST_TASK);
    spread(item, 1);
}

/* Each flow that a call can record is there or not, as a coin falls. */
static void build_dense(struct item *item, const struct plan *plan)
{
    fill_world(&item->world, plan->things);
    for (unsigned from = 0; from < plan->things; from++)
        for (unsigned to = 0; to < plan->things; to++)
            if (draw(&item->world.random, 2))
                connect(&item->world, from, to);
    connect(&item->world, FIRST_TASK, CORE);
    mark(item, FIRST_TASK);
    spread(item, ANY_ROUNDS);
}

static void build_unmarked(struct item *item, const struct plan *plan)
{
    fill_and_use(item, plan);
    spread(item, 0);
}

/* What the dense graph's spread leaves. */
static void build_settled(struct item *item, const struct plan *plan)
{
    build_dense(item, plan);
    must(&item->world, TUPEHIWO_CODE_SPREAD, 0, 0, 0, 0, 0);
    item->rounds = 0;
}

/* ------------------------------------------------------------------ tables */

const struct bench_case cases[] = {
    {"read", build_read, FIRST_THINGS, 1},
    {"write", build_write, FIRST_THINGS, 1},
    {"invoke", build_invoke, FIRST_THINGS, 1},
    {"call", build_call, FIRST_THINGS, 1},
    {"call_by_the_last_task", build_call_by_last, FIRST_THINGS, 1},
    {"pass", build_pass, FIRST_THINGS, 1},
    {"post", build_post, FIRST_THINGS, 1},
    {"delete_and_create", build_remade, FIRST_THINGS + 1, 1},
    {"delete_with_no_flows", build_delete_untied, FIRST_THINGS + 1, 0},
    {"delete_with_10_feeders_10_fed", build_delete_some, SOME + 2, 0},
    {"delete_with_126_feeders_126_fed", build_delete_all_others, TUPEHIWO_THINGS, 0},
    {"move_between_roots", build_move_of_roots, FIRST_THINGS + 3, 1},
    {"move_granted_after_120_steps", build_move_down, TUPEHIWO_THINGS, 1},
    {"move_refused_after_119_steps", build_move_inside, TUPEHIWO_THINGS, 1},
    {"refusal_with_4", build_unfit, FIRST_THINGS, 1},
    {"refusal_with_6_by_the_last_task", build_refusal_of_last, FIRST_THINGS, 1},
    {"refusal_with_2_at_the_last_record", build_unsound, FIRST_THINGS, 1},
    {"start", build_start, TUPEHIWO_THINGS, 1},
    {"start_with_the_top_as_level_0", build_start_down, TUPEHIWO_THINGS, 1},
    {"mark_of_a_driver_of_60_objects", build_mark, FIRST_THINGS + OBJECTS_OF_ONE + 1, 1},
    {"step", build_step, FIRST_THINGS, 0},
    {"report", build_report, FIRST_THINGS, 1},
    {"load_of_127_things", build_load, TUPEHIWO_THINGS, 1},
    {"load_of_16_KiB_refused_at_the_end", build_load_broken, TUPEHIWO_THINGS, 1},
    {"check_of_127_things", build_check, TUPEHIWO_THINGS, 1},
    {"check_of_16_KiB_refused_at_the_end", build_check_broken, TUPEHIWO_THINGS, 1},
    {"spread_of_a_chain", build_chain, TUPEHIWO_THINGS, 0},
    {"spread_of_a_star", build_star, FIRST_THINGS, 0},
    {"spread_of_a_dense_graph", build_dense, FIRST_THINGS, 0},
    {"spread_of_no_mark", build_unmarked, FIRST_THINGS, 1},
    {"spread_with_all_marked", build_settled, FIRST_THINGS, 0},
};

const unsigned case_count = sizeof cases / sizeof cases[0];

const struct bench_case *case_named(const char *name)
{
    for (unsigned c = 0; c < case_count; c++)
        if (strcmp(cases[c].name, name) == 0)
            return &cases[c];
    fprintf(stderr, "there is no case %s\n", name);
    exit(1);
}

void build_item(struct item *item, const struct bench_case *subject, const struct plan *plan,
                uint64_t seed)
{
    memset(item, 0, sizeof *item);
    begin_world(&item->world, plan->levels, subject->mixed, seed);
    subject->build(item, plan);
}
