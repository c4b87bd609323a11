/*
 * What both C monitors share: the records, every event, and the public calls.
 * A monitor includes this file and then writes what it does its own way: the
 * test of the bytes and of the order, sets, and all loops over the records.
 */
#ifndef RULES_H
#define RULES_H

#include "layout.h"

#include <string.h>

enum { THINGS = TUPEHIWO_THINGS, RECORD = 8, ROOT = 255 };
enum { KIND, LEVEL, READ_LEVEL, DRIVER, CONTAINER, MARKS }; /* bytes of a record */
enum { FREE, TASK, OBJECT };
enum { MARKED = 1, OUTSIDE = 3 };
enum { FLOWS = 0, READS = 256, WRITES = 512 }; /* first word of each kind of row */

struct state {
    uint8_t *bytes;
    uint64_t *words;
    const struct tupehiwo_order *order;
};

/* ------------------------------------------- what each monitor writes itself */

/* Number 0 is a task at the top, and each record is free, a task's or an object's. */
static int sound(const uint8_t *bytes, const struct tupehiwo_order *order);

/* The order passes. */
static int ordered(const struct tupehiwo_order *order);

/* Marks the objects of a driver. */
static void mark_objects(struct state *s, unsigned driver);

/* Whether an object lies in the container. */
static int filled(const struct state *s, unsigned container);

/* Whether n has a flow to an unmarked thing in use other than itself. */
static int feeds_unmarked(const struct state *s, unsigned n);

/*
 * Flows past an object that is to go: from each thing in use with a flow to it, and from its
 * driver, to each other thing in use that it has a flow to.
 */
static void bridge(struct state *s, unsigned object);

/* The record free, its rows and its column empty. */
static void clear(struct state *s, unsigned n);

/* Whether a marked thing has a flow to x. */
static int fed(const struct state *s, unsigned x);

/* Marks along the flows; how many rounds that took. */
static uint8_t spread(struct state *s);

/* A bit for each marked number. */
static void marked_words(const uint8_t *bytes, uint64_t words[2]);

/* ---------------------------------------------------------------- records */

static inline int holds(const uint64_t *row, unsigned n)
{
    return row[n / 64] >> (n % 64) & 1;
}

static inline void put(uint64_t *row, unsigned n)
{
    row[n / 64] |= UINT64_C(1) << (n % 64);
}

static inline unsigned field(const struct state *s, unsigned n, unsigned place)
{
    return s->bytes[RECORD * n + place];
}

static inline int is(const struct state *s, unsigned n, unsigned kind)
{
    return n < THINGS && field(s, n, KIND) == kind;
}

static inline int used(const struct state *s, unsigned n)
{
    return n < THINGS && field(s, n, KIND) != FREE;
}

static inline unsigned level(const struct state *s, unsigned n)
{
    return field(s, n, LEVEL);
}

static inline int marked(const struct state *s, unsigned n)
{
    return field(s, n, MARKS) != 0;
}

static inline int below(const struct state *s, unsigned a, unsigned b)
{
    return s->order->rows[a] >> b & 1;
}

static inline uint64_t *row(const struct state *s, unsigned kind, unsigned n)
{
    return s->words + kind + 2 * n;
}

static inline int has(const struct state *s, unsigned kind, unsigned from, unsigned to)
{
    return holds(row(s, kind, from), to);
}

static inline void add(struct state *s, unsigned kind, unsigned from, unsigned to)
{
    put(row(s, kind, from), to);
}

static void make(struct state *s, unsigned n, const uint8_t record[RECORD])
{
    memcpy(s->bytes + RECORD * n, record, RECORD);
}

/* A record as one value, kind in the lowest byte, as the processor loads it. */
static inline uint64_t load(const uint8_t *record)
{
    uint64_t whole;
    memcpy(&whole, record, sizeof whole);
    return whole;
}

static inline unsigned part(uint64_t whole, unsigned place)
{
    return whole >> (8 * place) & 255;
}

/* Under these masks are the bytes and bits that every task, or every object, has alike. */
#define TASK_ALIKE UINT64_C(0xFFFFFCFFFF0000FF)
#define OBJECT_ALIKE UINT64_C(0xFFFFFE0000FF00FF)

static inline int sound_task(uint64_t whole, unsigned count)
{
    return (whole & TASK_ALIKE) == TASK && part(whole, LEVEL) < count &&
           part(whole, READ_LEVEL) < count && part(whole, MARKS) != 2;
}

static inline int sound_object(const uint8_t *bytes, unsigned n, uint64_t whole, unsigned count)
{
    unsigned driver = part(whole, DRIVER), container = part(whole, CONTAINER);
    if ((whole & OBJECT_ALIKE) != OBJECT || part(whole, LEVEL) >= count)
        return 0;
    if (driver >= THINGS || bytes[RECORD * driver] != TASK)
        return 0;
    return container == ROOT ||
           (container < THINGS && container != n && bytes[RECORD * container] == OBJECT);
}

/* Whether the lengths, then the bytes, then the order let a call go on. */
static uint8_t fit(const uint8_t *bytes, size_t nbytes, size_t nwords,
                   const struct tupehiwo_order *order, int starting)
{
    if (nbytes != TUPEHIWO_BYTES || nwords != TUPEHIWO_WORDS)
        return TUPEHIWO_STATE;
    if (!starting && !sound(bytes, order))
        return TUPEHIWO_STATE;
    return ordered(order) ? TUPEHIWO_GRANTED : TUPEHIWO_ORDER;
}

/* ------------------------------------------------------- reads and writes */

static uint8_t start(struct state *s)
{
    uint8_t top = (uint8_t)s->order->top;
    uint8_t core[RECORD] = {TASK, top, top};
    memset(s->bytes, 0, TUPEHIWO_BYTES);
    memset(s->words, 0, TUPEHIWO_WORDS * sizeof *s->words);
    make(s, 0, core);
    return TUPEHIWO_GRANTED;
}

static uint8_t read(struct state *s, unsigned task, unsigned driver, unsigned object)
{
    if (!is(s, task, TASK) || !is(s, driver, TASK) || !is(s, object, OBJECT))
        return TUPEHIWO_NUMBER;
    if (field(s, object, DRIVER) != driver)
        return TUPEHIWO_DRIVER;
    unsigned le = level(s, task), re = field(s, task, READ_LEVEL);
    unsigned lo = level(s, object), ld = level(s, driver);
    if (!below(s, le, ld) && !below(s, re, ld))
        return TUPEHIWO_PATH;
    int honest = below(s, le, lo) || below(s, re, lo);
    int captured = marked(s, driver);
    if (!below(s, lo, ld) || (!honest && !captured))
        return TUPEHIWO_RULE;
    add(s, READS, task, object);
    if (marked(s, task) || (below(s, le, ld) && (captured || below(s, le, lo)))) {
        add(s, FLOWS, object, task);
        if (captured)
            add(s, FLOWS, driver, task);
    }
    return honest ? TUPEHIWO_GRANTED : TUPEHIWO_SLIPPED;
}

static uint8_t write(struct state *s, unsigned task, unsigned driver, unsigned object)
{
    if (!is(s, task, TASK) || !is(s, driver, TASK) || !is(s, object, OBJECT))
        return TUPEHIWO_NUMBER;
    if (field(s, object, DRIVER) != driver)
        return TUPEHIWO_DRIVER;
    unsigned lo = level(s, object);
    int honest = below(s, lo, level(s, task));
    int captured = marked(s, driver);
    if (!below(s, lo, level(s, driver)) || (!honest && !captured))
        return TUPEHIWO_RULE;
    add(s, WRITES, task, object);
    add(s, FLOWS, task, object);
    if (captured)
        add(s, FLOWS, task, driver);
    return honest ? TUPEHIWO_GRANTED : TUPEHIWO_SLIPPED;
}

/* ------------------------------------------------------------- new things */

static uint8_t execute(struct state *s, unsigned creator, unsigned image, unsigned made,
                       unsigned l, unsigned r)
{
    if (!is(s, creator, TASK) || !is(s, image, OBJECT) || made >= THINGS)
        return TUPEHIWO_NUMBER;
    if (used(s, made))
        return TUPEHIWO_TAKEN;
    if (l >= s->order->count || r >= s->order->count)
        return TUPEHIWO_SCALE;
    if (!below(s, l, level(s, image)) || !below(s, r, l))
        return TUPEHIWO_RULE;
    uint8_t record[RECORD] = {TASK, (uint8_t)l, (uint8_t)r};
    make(s, made, record);
    if (marked(s, image))
        add(s, FLOWS, image, made);
    return TUPEHIWO_GRANTED;
}

/* Both creates; a root asks nothing of a container, and its record names ROOT. */
static uint8_t create(struct state *s, unsigned creator, unsigned driver, unsigned made,
                      unsigned container, int root, unsigned l)
{
    if (!is(s, creator, TASK) || !is(s, driver, TASK) || made >= THINGS ||
        (!root && !is(s, container, OBJECT)))
        return TUPEHIWO_NUMBER;
    if (used(s, made))
        return TUPEHIWO_TAKEN;
    if (!root && (!has(s, WRITES, creator, container) || !has(s, WRITES, driver, container)))
        return TUPEHIWO_HELD;
    if (l >= s->order->count)
        return TUPEHIWO_SCALE;
    if (!below(s, l, level(s, creator)) || !below(s, l, level(s, driver)) ||
        (!root && !below(s, l, level(s, container))))
        return TUPEHIWO_RULE;
    int captured = marked(s, driver);
    uint8_t record[RECORD] = {OBJECT,          (uint8_t)l,         0,
                              (uint8_t)driver, (uint8_t)container, captured ? MARKED : 0};
    make(s, made, record);
    if (captured) {
        add(s, FLOWS, creator, made);
        add(s, FLOWS, creator, driver);
    }
    return TUPEHIWO_GRANTED;
}

/* -------------------------------------------------------- move and delete */

/*
 * Whether going from container to container leads from n to the object. Lent bytes may go in
 * a circle without it: as many steps as there are other numbers pass all that n leads to.
 */
static int inside(const struct state *s, unsigned n, unsigned object)
{
    for (unsigned steps = 1; steps < THINGS; steps++) {
        n = field(s, n, CONTAINER);
        if (n == object)
            return 1;
        if (n == ROOT)
            return 0;
    }
    return 0;
}

static uint8_t move(struct state *s, unsigned task, unsigned driver, unsigned object,
                    unsigned from, unsigned to)
{
    if (!is(s, task, TASK) || !is(s, driver, TASK) || !is(s, object, OBJECT) ||
        !is(s, from, OBJECT) || !is(s, to, OBJECT))
        return TUPEHIWO_NUMBER;
    if (field(s, object, DRIVER) != driver)
        return TUPEHIWO_DRIVER;
    if (object == from || object == to || from == to || field(s, object, CONTAINER) != from ||
        inside(s, to, object))
        return TUPEHIWO_PLACE;
    if (!has(s, WRITES, task, from) || !has(s, WRITES, task, to) ||
        !has(s, WRITES, driver, from) || !has(s, WRITES, driver, to))
        return TUPEHIWO_HELD;
    unsigned lo = level(s, object);
    int honest = below(s, lo, level(s, task));
    int captured = marked(s, driver);
    if (!below(s, lo, level(s, driver)) || !below(s, lo, level(s, to)) ||
        (!honest && !captured))
        return TUPEHIWO_RULE;
    s->bytes[RECORD * object + CONTAINER] = (uint8_t)to;
    if (captured) {
        add(s, FLOWS, task, object);
        add(s, FLOWS, task, driver);
    }
    return honest ? TUPEHIWO_GRANTED : TUPEHIWO_SLIPPED;
}

static uint8_t delete_object(struct state *s, unsigned task, unsigned driver, unsigned object,
                             unsigned container)
{
    if (!is(s, task, TASK) || !is(s, driver, TASK) || !is(s, object, OBJECT) ||
        !is(s, container, OBJECT))
        return TUPEHIWO_NUMBER;
    if (field(s, object, DRIVER) != driver)
        return TUPEHIWO_DRIVER;
    if (field(s, object, CONTAINER) != container)
        return TUPEHIWO_PLACE;
    if (!has(s, WRITES, task, container) || !has(s, WRITES, driver, container))
        return TUPEHIWO_HELD;
    unsigned lo = level(s, object);
    if (!below(s, lo, level(s, task)) || !below(s, lo, level(s, driver)))
        return TUPEHIWO_RULE;
    if (filled(s, object))
        return TUPEHIWO_FILLED;
    if (marked(s, object) && feeds_unmarked(s, object))
        return TUPEHIWO_FEEDING;
    bridge(s, object);
    clear(s, object);
    if (marked(s, driver))
        add(s, FLOWS, task, driver);
    return TUPEHIWO_GRANTED;
}

/* --------------------------------------------------------- between tasks */

static uint8_t call(struct state *s, unsigned caller, unsigned callee)
{
    if (!is(s, caller, TASK) || !is(s, callee, TASK))
        return TUPEHIWO_NUMBER;
    int trusted = below(s, level(s, caller), level(s, callee));
    if (!trusted && !below(s, field(s, caller, READ_LEVEL), level(s, callee)))
        return TUPEHIWO_PATH;
    if (trusted || marked(s, caller)) {
        add(s, FLOWS, callee, caller);
        if (marked(s, callee))
            add(s, FLOWS, caller, callee);
    }
    return TUPEHIWO_GRANTED;
}

static uint8_t invoke(struct state *s, unsigned invoker, unsigned invokee)
{
    if (!is(s, invoker, TASK) || !is(s, invokee, TASK))
        return TUPEHIWO_NUMBER;
    if (!below(s, level(s, invokee), level(s, invoker)))
        return TUPEHIWO_RULE;
    add(s, FLOWS, invoker, invokee);
    if (marked(s, invoker))
        add(s, FLOWS, invokee, invoker);
    return TUPEHIWO_GRANTED;
}

/* Only the read level lets the task reach the object, or the object's driver. */
static int risky(const struct state *s, unsigned task, unsigned object)
{
    unsigned le = level(s, task), re = field(s, task, READ_LEVEL);
    unsigned lo = level(s, object), ld = level(s, field(s, object, DRIVER));
    return (!below(s, le, lo) && below(s, re, lo)) || (!below(s, le, ld) && below(s, re, ld));
}

static uint8_t pass(struct state *s, unsigned z, unsigned x, unsigned y)
{
    if (!is(s, z, TASK) || !is(s, x, OBJECT) || !used(s, y))
        return TUPEHIWO_NUMBER;
    if (x == y)
        return TUPEHIWO_PLACE;
    if (!has(s, FLOWS, z, y) || !has(s, READS, z, x))
        return TUPEHIWO_HELD;
    if (!marked(s, z) && risky(s, z, x))
        return TUPEHIWO_RULE;
    add(s, FLOWS, x, y);
    return TUPEHIWO_GRANTED;
}

static uint8_t post(struct state *s, unsigned x, unsigned z, unsigned y)
{
    if (!is(s, x, TASK) || !is(s, z, OBJECT) || !is(s, y, TASK))
        return TUPEHIWO_NUMBER;
    if (x == y)
        return TUPEHIWO_PLACE;
    if (!has(s, FLOWS, x, z) || !has(s, READS, y, z))
        return TUPEHIWO_HELD;
    if (!marked(s, y) && risky(s, y, z))
        return TUPEHIWO_RULE;
    add(s, FLOWS, x, y);
    return TUPEHIWO_GRANTED;
}

static uint8_t find(struct state *s, unsigned x, unsigned z, unsigned y)
{
    if (!is(s, x, TASK) || !is(s, z, TASK) || !used(s, y))
        return TUPEHIWO_NUMBER;
    if (x == y)
        return TUPEHIWO_PLACE;
    if (!has(s, FLOWS, x, z) || !has(s, FLOWS, z, y))
        return TUPEHIWO_HELD;
    add(s, FLOWS, x, y);
    return TUPEHIWO_GRANTED;
}

/* ------------------------------------------------------------------ marks */

static uint8_t mark(struct state *s, unsigned task)
{
    if (!is(s, task, TASK))
        return TUPEHIWO_NUMBER;
    s->bytes[RECORD * task + MARKS] = OUTSIDE;
    mark_objects(s, task);
    return TUPEHIWO_GRANTED;
}

static uint8_t step(struct state *s, unsigned x)
{
    if (!used(s, x))
        return TUPEHIWO_NUMBER;
    if (marked(s, x) || !fed(s, x))
        return TUPEHIWO_STILL;
    s->bytes[RECORD * x + MARKS] = MARKED;
    if (field(s, x, KIND) == TASK)
        mark_objects(s, x);
    return TUPEHIWO_GRANTED;
}

/* ------------------------------------------------------------ public calls */

static uint8_t perform(struct state *s, struct tupehiwo_request q)
{
    switch (q.code) {
    case TUPEHIWO_CODE_START: return start(s);
    case TUPEHIWO_CODE_READ: return read(s, q.a, q.b, q.c);
    case TUPEHIWO_CODE_WRITE: return write(s, q.a, q.b, q.c);
    case TUPEHIWO_CODE_EXECUTE: return execute(s, q.a, q.b, q.c, q.d, q.e);
    case TUPEHIWO_CODE_CREATE: return create(s, q.a, q.b, q.c, q.d, 0, q.e);
    case TUPEHIWO_CODE_CREATE_ROOT: return create(s, q.a, q.b, q.c, ROOT, 1, q.d);
    case TUPEHIWO_CODE_MOVE: return move(s, q.a, q.b, q.c, q.d, q.e);
    case TUPEHIWO_CODE_DELETE: return delete_object(s, q.a, q.b, q.c, q.d);
    case TUPEHIWO_CODE_CALL: return call(s, q.a, q.b);
    case TUPEHIWO_CODE_INVOKE: return invoke(s, q.a, q.b);
    case TUPEHIWO_CODE_PASS: return pass(s, q.a, q.b, q.c);
    case TUPEHIWO_CODE_POST: return post(s, q.a, q.b, q.c);
    case TUPEHIWO_CODE_FIND: return find(s, q.a, q.b, q.c);
    case TUPEHIWO_CODE_MARK: return mark(s, q.a);
    case TUPEHIWO_CODE_STEP: return step(s, q.a);
    default: return TUPEHIWO_NUMBER;
    }
}

/* Whose tally a call counts on: in those that a task asks for, its first number's. */
static unsigned asker(const struct state *s, struct tupehiwo_request q)
{
    int asks = q.code >= TUPEHIWO_CODE_READ && q.code <= TUPEHIWO_CODE_FIND;
    return asks && is(s, q.a, TASK) ? q.a : 0;
}

static void clear_tallies(struct tupehiwo_tally *tallies)
{
    memset(tallies, 0, TUPEHIWO_TALLIES * sizeof *tallies);
}

static void raise(struct tupehiwo_tally *tally, uint8_t verdict)
{
    uint32_t *count = verdict == TUPEHIWO_GRANTED   ? &tally->granted
                      : verdict == TUPEHIWO_SLIPPED ? &tally->slipped
                                                    : &tally->refused;
    if (*count != UINT32_MAX)
        ++*count;
}

/* What the driver is told: of these calls alone, and yes only of a granted one. */
static inline uint8_t told(unsigned code, uint8_t verdict)
{
    switch (code) {
    case TUPEHIWO_CODE_READ:
    case TUPEHIWO_CODE_WRITE:
    case TUPEHIWO_CODE_EXECUTE:
    case TUPEHIWO_CODE_CREATE:
    case TUPEHIWO_CODE_CREATE_ROOT:
    case TUPEHIWO_CODE_MOVE:
    case TUPEHIWO_CODE_CALL:
    case TUPEHIWO_CODE_INVOKE:
        return verdict == TUPEHIWO_GRANTED ? TUPEHIWO_TOLD_YES : TUPEHIWO_TOLD_NO;
    default: return TUPEHIWO_NO_WORD;
    }
}

/*
 * The answer with its word, put together in a register, the verdict lowest as x86 stores it:
 * gcc would set the three bytes one by one in memory and read them back at once, which has to
 * wait.
 */
static inline struct tupehiwo_answer tell(struct tupehiwo_answer answer, unsigned code)
{
    uint32_t word = told(code, answer.verdict), rounds = answer.rounds;
    uint32_t bytes = answer.verdict | rounds << 8 | word << 16;
    struct tupehiwo_answer whole;
    memcpy(&whole, &bytes, sizeof whole);
    return whole;
}

/* A list of another length is left as it is; nothing can be counted on it. */
struct tupehiwo_answer baseline_perform(uint8_t *bytes, size_t nbytes, uint64_t *words,
                                        size_t nwords, struct tupehiwo_tally *tallies,
                                        size_t ntallies, struct tupehiwo_order order,
                                        struct tupehiwo_request request)
{
    struct state s = {bytes, words, &order};
    struct tupehiwo_answer answer = {TUPEHIWO_STATE, 0, TUPEHIWO_NO_WORD};
    int starting = request.code == TUPEHIWO_CODE_START;
    unsigned counted = 0;
    if (ntallies == TUPEHIWO_TALLIES) {
        answer.verdict = fit(bytes, nbytes, nwords, &order, starting);
        if (answer.verdict == TUPEHIWO_GRANTED) {
            counted = asker(&s, request);
            if (request.code == TUPEHIWO_CODE_SPREAD)
                answer.rounds = spread(&s);
            else
                answer.verdict = perform(&s, request);
            if (starting)
                clear_tallies(tallies);
        }
        raise(&tallies[counted], answer.verdict);
    }
    return tell(answer, request.code);
}

/* The calls of one object: a root's, or two writes to the container and a create in it. */
static uint8_t lay_object(struct state *s, const struct form *form, unsigned container)
{
    if (form->depth == 0)
        return create(s, 0, form->driver, form->number, ROOT, 1, form->level);
    unsigned through = field(s, container, DRIVER);
    uint8_t verdict = write(s, 0, through, container);
    if (verdict == TUPEHIWO_GRANTED)
        verdict = write(s, form->driver, through, container);
    if (verdict == TUPEHIWO_GRANTED)
        verdict = create(s, 0, form->driver, form->number, container, 0, form->level);
    return verdict;
}

/* The calls of a text whose form is good, up to the first that is refused. */
static uint8_t lay_out(struct state *s, const uint8_t *text, size_t ntext)
{
    struct reader r = {text, text + ntext, 0};
    unsigned holding[TUPEHIWO_LAYOUT_DEPTH + 1] = {0}; /* the object at each depth */
    struct form form;
    uint8_t verdict = TUPEHIWO_GRANTED;
    while (verdict == TUPEHIWO_GRANTED && r.at < r.end && read_form(&r, &form)) {
        if (form.task) {
            verdict = execute(s, 0, form.image, form.number, form.level, form.reads);
        } else {
            verdict = lay_object(s, &form, holding[form.depth]);
            holding[form.depth + 1] = form.number;
        }
    }
    return verdict;
}

/* A refusal past the order leaves the state of a start, and the tallies of before. */
struct tupehiwo_answer baseline_load(uint8_t *bytes, size_t nbytes, uint64_t *words,
                                     size_t nwords, struct tupehiwo_tally *tallies,
                                     size_t ntallies, struct tupehiwo_order order,
                                     const uint8_t *text, size_t ntext)
{
    struct state s = {bytes, words, &order};
    struct tupehiwo_answer answer = {TUPEHIWO_STATE, 0, TUPEHIWO_NO_WORD};
    if (ntallies != TUPEHIWO_TALLIES)
        return answer;
    answer.verdict = fit(bytes, nbytes, nwords, &order, 1);
    if (answer.verdict == TUPEHIWO_GRANTED) {
        start(&s);
        answer.verdict = check_layout(text, ntext).verdict;
        if (answer.verdict == TUPEHIWO_GRANTED) {
            answer.verdict = lay_out(&s, text, ntext);
            if (answer.verdict == TUPEHIWO_GRANTED)
                clear_tallies(tallies);
            else
                start(&s);
        }
    }
    raise(&tallies[0], answer.verdict);
    return answer;
}

struct tupehiwo_checked baseline_layout(const uint8_t *text, size_t ntext)
{
    return check_layout(text, ntext);
}

struct tupehiwo_report baseline_report(const uint8_t *bytes, size_t nbytes,
                                       const uint64_t *words, size_t nwords,
                                       struct tupehiwo_order order)
{
    struct tupehiwo_report report = {{0, 0}, 0, fit(bytes, nbytes, nwords, &order, 0)};
    (void)words; /* the marks stand in the bytes */
    if (report.verdict == TUPEHIWO_GRANTED) {
        marked_words(bytes, report.words);
        report.ones = (uint32_t)(__builtin_popcountll(report.words[0]) +
                                 __builtin_popcountll(report.words[1]));
    }
    return report;
}

uint16_t baseline_next_marked(struct tupehiwo_report report, uint16_t from)
{
    for (unsigned w = from / 64, low = from % 64; w < 2; w++, low = 0) {
        uint64_t rest = report.words[w] >> low << low;
        if (rest != 0)
            return (uint16_t)(64 * w + (unsigned)__builtin_ctzll(rest));
    }
    return THINGS;
}

#endif
