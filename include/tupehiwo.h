/*
 * The integrity monitor: C face (C99 and C++).
 *
 * The monitor follows tasks and objects, their levels, who read and wrote
 * what, and which of them are marked as captured. It keeps nothing of its own:
 * each call is lent 1,024 bytes and 768 words, a list of 128 tallies, and the order
 * of the levels (a report has no list).
 *
 * Either lend your own memory to tupehiwo_perform, tupehiwo_load and
 * tupehiwo_report, or keep a struct tupehiwo_monitor and use the inline function
 * of each call below.
 *
 * Link with libmonitor.a.
 *
 * The memory lent. Bytes: eight for each number, in this order: kind (0 free, 1
 * task, 2 object), level, read level, driver, container (255 for a root object),
 * marks (1 marked, plus 2 marked from outside), two zero bytes. Words: two for
 * each row, number 0 in the lowest bit of the first; 128 rows of flows (row is
 * the source), 128 of read accesses, 128 of write accesses (row is the task).
 * Tallies: one for each number. Bytes, words and tallies must not overlap, nor a
 * text with any of them. Calls on different memory may run at the same time.
 *
 * A call counts on one tally, that of the task that asks, so that the list tells
 * whose calls were refused. In the calls from TUPEHIWO_CODE_READ to TUPEHIWO_CODE_FIND
 * the first number asks, if it names a task before the call. All else counts on tally
 * 0, the core's: every start, load, mark, step and spread, every call refused with
 * TUPEHIWO_STATE or TUPEHIWO_ORDER, and every call whose first number names no task. A
 * granted start or load sets the whole list to zero, and then counts itself: read the
 * list before it. What a list holds is never tested, and a new task goes on with what
 * stands in its tally.
 *
 * A layout is a text that says which tasks and objects an instrument has when it
 * is switched on:
 *
 *     (object 10 driver 0 level 3
 *     (object 11 driver 0 level 2))
 *     (task 1 image 11 level 2 reads 0)
 *
 * A form stands on a line: an object with its driver and level, or a task with the
 * object that it is run from, its level and its read level. What lies in an object
 * stands on the lines after it, before its closing bracket; only objects lie in
 * objects, up to eight deep. Closing brackets stand at a line's end, one space
 * parts words, a line feed ends each line, the last too, and nothing else stands
 * anywhere: no tab, no empty line, no remark. A number has at most three digits and
 * no leading zero. A text has at most 16 KiB and may be empty. The driver or image
 * that a form names has to stand before it; the core, task 0, is there already.
 */
#ifndef TUPEHIWO_H
#define TUPEHIWO_H

#include <stddef.h>
#include <stdint.h>

#ifdef __cplusplus
extern "C" {
#endif

/* ------------------------------------------------------------------ sizes */

enum {
    TUPEHIWO_THINGS = 128,         /* numbers 0 to 127; 0 is the core, a task */
    TUPEHIWO_BYTES = 1024,         /* eight bytes for each number */
    TUPEHIWO_WORDS = 768,          /* flows at 0, read accesses at 256, write accesses at 512 */
    TUPEHIWO_TALLIES = 128,        /* one for each number */
    TUPEHIWO_LEVELS = 16,          /* rows of an order */
    TUPEHIWO_LAYOUT_BYTES = 16384, /* the longest text of a layout */
    TUPEHIWO_LAYOUT_DEPTH = 8      /* objects in objects, a root object being the first */
};

/* --------------------------------------------------------------- verdicts */

/*
 * What a call answers. The lowest refusal that applies is given, save that form and
 * deep come right after order.
 */
enum {
    TUPEHIWO_GRANTED = 0, /* done */
    TUPEHIWO_SLIPPED = 1, /* done, though only a marked driver lets it through */
    TUPEHIWO_STATE = 2,   /* a length is wrong, or the bytes are not sound */
    TUPEHIWO_ORDER = 3,   /* the order is not a partial order with its top */
    TUPEHIWO_NUMBER = 4,  /* a number is 128 or more, free, or of the wrong kind */
    TUPEHIWO_TAKEN = 5,   /* a new number is in use */
    TUPEHIWO_DRIVER = 6,  /* the driver named is not the object's */
    TUPEHIWO_PLACE = 7,   /* not in the container named, things must differ, or a
                             move would put an object inside itself */
    TUPEHIWO_HELD = 8,    /* an access or flow that is needed is not recorded */
    TUPEHIWO_SCALE = 9,   /* a level given is not below the count */
    TUPEHIWO_PATH = 10,   /* the path test of read or call fails */
    TUPEHIWO_RULE = 11,   /* another level test fails */
    TUPEHIWO_FILLED = 12, /* a container to be deleted holds an object */
    TUPEHIWO_STILL = 13,  /* a step has nothing to mark */
    TUPEHIWO_FORM = 14,   /* the text is no layout's, or too long */
    TUPEHIWO_DEEP = 15,   /* an object lies at a ninth level */
    TUPEHIWO_FEEDING = 16 /* an object to be deleted is marked and feeds an unmarked thing */
};

/* -------------------------------------------------------------- told words */

/*
 * What the driver is told of a read, write, execute, create, create root, move, call or
 * invoke; no other call has a word, nor has a load. The verdict is for whoever runs the
 * monitor, the word for the driver: a driver that is given the word alone does not learn
 * from that one call who is marked. The verdict may show it: a mark alone can turn
 * TUPEHIWO_RULE into TUPEHIWO_SLIPPED, and of a deletion TUPEHIWO_GRANTED into
 * TUPEHIWO_FEEDING, which is why a deletion has no word. That covers one call: a slip is
 * told no and yet carried out, and later calls see what it recorded.
 */
enum {
    TUPEHIWO_NO_WORD = 0,  /* the call has none */
    TUPEHIWO_TOLD_YES = 1, /* it was granted */
    TUPEHIWO_TOLD_NO = 2   /* it slipped or was refused, for whatever reason */
};

/* ------------------------------------------------------------------ codes */

/* What a request asks for; its arguments fill a, b, c, d, e in this order. */
enum {
    TUPEHIWO_CODE_START = 0,
    TUPEHIWO_CODE_READ = 1,        /* task, driver, object */
    TUPEHIWO_CODE_WRITE = 2,       /* task, driver, object */
    TUPEHIWO_CODE_EXECUTE = 3,     /* creator, image, new, level, read level */
    TUPEHIWO_CODE_CREATE = 4,      /* creator, driver, new, container, level */
    TUPEHIWO_CODE_CREATE_ROOT = 5, /* creator, driver, new, level */
    TUPEHIWO_CODE_MOVE = 6,        /* task, driver, object, from, to */
    TUPEHIWO_CODE_DELETE = 7,      /* task, driver, object, container */
    TUPEHIWO_CODE_CALL = 8,        /* caller, callee */
    TUPEHIWO_CODE_INVOKE = 9,      /* invoker, invokee */
    TUPEHIWO_CODE_PASS = 10,       /* z, x, y */
    TUPEHIWO_CODE_POST = 11,       /* x, z, y */
    TUPEHIWO_CODE_FIND = 12,       /* x, z, y */
    TUPEHIWO_CODE_MARK = 13,       /* task */
    TUPEHIWO_CODE_STEP = 14,       /* x */
    TUPEHIWO_CODE_SPREAD = 15
};

/* ------------------------------------------------------------ the library */

/*
 * Bit j of row i says that level i is at or below level j. C cuts what is wider
 * than these fields without a word: set them from numbers that fit.
 */
struct tupehiwo_order {
    uint16_t rows[16];
    uint16_t count;
    uint16_t top;
};

/*
 * How many of the calls that count here were granted, slipped and refused; each stops
 * at 4,294,967,295.
 */
struct tupehiwo_tally {
    uint32_t granted, slipped, refused;
};

/*
 * A verdict, the rounds that marked something if a spread was granted, and the word for
 * the driver.
 */
struct tupehiwo_answer {
    uint8_t verdict;
    uint8_t rounds;
    uint8_t told;
};

/* A code, and its arguments; those that the code does not use are ignored. */
struct tupehiwo_request {
    uint16_t code, a, b, c, d, e;
};

/* A bit for each marked number (0 lowest), and how many there are. */
struct tupehiwo_report {
    uint64_t words[2];
    uint32_t ones;
    uint8_t verdict;
};

/*
 * Performs one call on the memory lent and counts it on one tally, as said above. A
 * refusal changes nothing but the refused count of that tally. A list of another length
 * than 128 is refused with TUPEHIWO_STATE, and then nothing at all changes. A code
 * that names no call is an unfit number (TUPEHIWO_NUMBER), counted on tally 0, and has no
 * word.
 */
struct tupehiwo_answer tupehiwo_perform(uint8_t *bytes, size_t nbytes, uint64_t *words,
                                        size_t nwords, struct tupehiwo_tally *tallies,
                                        size_t ntallies, struct tupehiwo_order order,
                                        struct tupehiwo_request request);

/*
 * Begins anew with a layout: what a start leaves, and then the calls of the forms,
 * in the text's order, by the core (task 0): tupehiwo_create_root for an object in
 * none, tupehiwo_execute for a task. Before tupehiwo_create for an object in
 * another, the core and then the new object's driver each write to the container,
 * through the container's driver. The load counts once, on tally 0, its calls not at
 * all. A granted one first sets the list to zero; a refused one does not.
 *
 * As a start does, it tests only the lengths for TUPEHIWO_STATE, then the order;
 * refused so, it leaves bytes and words as they were, and a list of another length than
 * 128 too. Then the whole text is tested for its form (TUPEHIWO_FORM),
 * then for its depth (TUPEHIWO_DEEP), before any call. The first call that is refused
 * ends the load, which answers with its verdict. After each of these refusals bytes
 * and words are those of a start under the order lent.
 *
 * It takes less than 4 KiB of stack for every text.
 */
struct tupehiwo_answer tupehiwo_load(uint8_t *bytes, size_t nbytes, uint64_t *words,
                                     size_t nwords, struct tupehiwo_tally *tallies,
                                     size_t ntallies, struct tupehiwo_order order,
                                     const uint8_t *text, size_t ntext);

/* Where a text was left, in bytes from its beginning, and why. */
struct tupehiwo_checked {
    uint32_t offset;
    uint8_t verdict;
};

/*
 * What a load says of a text alone: TUPEHIWO_FORM, TUPEHIWO_DEEP, or
 * TUPEHIWO_GRANTED where it would get to its calls. The offset is that of the first
 * byte that no layout has there (the text's length, where the text breaks off), for
 * a text that is too long 16,384; for TUPEHIWO_DEEP that of the first opening
 * bracket of a ninth level; otherwise the text's length. It takes less than 4 KiB of
 * stack for every text.
 */
struct tupehiwo_checked tupehiwo_layout(const uint8_t *text, size_t ntext);

/* The marked numbers; no words and no ones when refused (state, order). */
struct tupehiwo_report tupehiwo_report(const uint8_t *bytes, size_t nbytes,
                                       const uint64_t *words, size_t nwords,
                                       struct tupehiwo_order order);

/*
 * The lowest marked number that is from or more; 128 if there is none. C cuts a
 * wider from to 16 bits, that is to a lower one: numbers may come again, but none
 * is left out. The next after n is that from n + 1.
 */
uint16_t tupehiwo_next_marked(struct tupehiwo_report report, uint16_t from);

/* ------------------------------------------------- one function each call */

/*
 * The memory of one monitor. All zeros is a fit beginning: every call but a
 * start or a load is then refused with TUPEHIWO_STATE.
 */
struct tupehiwo_monitor {
    uint8_t bytes[TUPEHIWO_BYTES];
    uint64_t words[TUPEHIWO_WORDS];
    struct tupehiwo_tally tallies[TUPEHIWO_TALLIES];
    struct tupehiwo_order order; /* that of the last start or load that made the state anew */
    uint8_t told;                /* what the driver of the last call is told */
};

/*
 * A number as a request holds it. The functions below take 64 bits, since C cuts
 * a wider number to fit without a word: 65,537 would be task 1. What does not fit
 * becomes 65,535. No thing, no level and no call has that number, so that it is
 * refused (TUPEHIWO_NUMBER, a level with TUPEHIWO_SCALE) in its place.
 */
static inline uint16_t tupehiwo_narrow(uint64_t number)
{
    return (uint16_t)(number < 65535 ? number : 65535);
}

/* Any call: what each of the functions below is made of. */
static inline struct tupehiwo_answer tupehiwo_do(struct tupehiwo_monitor *m, uint64_t code,
                                                 uint64_t a, uint64_t b, uint64_t c, uint64_t d,
                                                 uint64_t e)
{
    struct tupehiwo_request request = {tupehiwo_narrow(code), tupehiwo_narrow(a),
                                       tupehiwo_narrow(b),    tupehiwo_narrow(c),
                                       tupehiwo_narrow(d),    tupehiwo_narrow(e)};
    struct tupehiwo_answer answer =
        tupehiwo_perform(m->bytes, TUPEHIWO_BYTES, m->words, TUPEHIWO_WORDS, m->tallies,
                         TUPEHIWO_TALLIES, m->order, request);
    m->told = answer.told;
    return answer;
}

/*
 * Begins anew under an order: the core alone, and no call counted but this. A refused
 * start keeps the old order.
 */
static inline uint8_t tupehiwo_start(struct tupehiwo_monitor *m, struct tupehiwo_order order)
{
    struct tupehiwo_request request = {TUPEHIWO_CODE_START, 0, 0, 0, 0, 0};
    struct tupehiwo_answer answer =
        tupehiwo_perform(m->bytes, TUPEHIWO_BYTES, m->words, TUPEHIWO_WORDS, m->tallies,
                         TUPEHIWO_TALLIES, order, request);
    if (answer.verdict == TUPEHIWO_GRANTED)
        m->order = order;
    m->told = answer.told;
    return answer.verdict;
}

/*
 * Begins anew with a layout under an order. A refused one raises the refused count of
 * tally 0 and keeps the other counts. Refused with TUPEHIWO_ORDER it keeps bytes, words
 * and the old order too; refused otherwise it leaves the core alone, as a start does,
 * under the new one.
 */
static inline uint8_t tupehiwo_monitor_load(struct tupehiwo_monitor *m,
                                            struct tupehiwo_order order, const void *text,
                                            size_t ntext)
{
    struct tupehiwo_answer answer =
        tupehiwo_load(m->bytes, TUPEHIWO_BYTES, m->words, TUPEHIWO_WORDS, m->tallies,
                      TUPEHIWO_TALLIES, order, (const uint8_t *)text, ntext);
    if (answer.verdict != TUPEHIWO_STATE && answer.verdict != TUPEHIWO_ORDER)
        m->order = order;
    m->told = answer.told;
    return answer.verdict;
}

/* A task reads an object through the object's driver. */
static inline uint8_t tupehiwo_read(struct tupehiwo_monitor *m, uint64_t task, uint64_t driver,
                                    uint64_t object)
{
    return tupehiwo_do(m, TUPEHIWO_CODE_READ, task, driver, object, 0, 0).verdict;
}

/* A task writes an object through the object's driver. */
static inline uint8_t tupehiwo_write(struct tupehiwo_monitor *m, uint64_t task, uint64_t driver,
                                     uint64_t object)
{
    return tupehiwo_do(m, TUPEHIWO_CODE_WRITE, task, driver, object, 0, 0).verdict;
}

/* Makes a new task from an image object. */
static inline uint8_t tupehiwo_execute(struct tupehiwo_monitor *m, uint64_t creator,
                                       uint64_t image, uint64_t made, uint64_t level,
                                       uint64_t read_level)
{
    return tupehiwo_do(m, TUPEHIWO_CODE_EXECUTE, creator, image, made, level, read_level)
        .verdict;
}

/* Makes a new object in a container that creator and driver hold write access to. */
static inline uint8_t tupehiwo_create(struct tupehiwo_monitor *m, uint64_t creator,
                                      uint64_t driver, uint64_t made, uint64_t container,
                                      uint64_t level)
{
    return tupehiwo_do(m, TUPEHIWO_CODE_CREATE, creator, driver, made, container, level)
        .verdict;
}

/* Makes a new object in no container. */
static inline uint8_t tupehiwo_create_root(struct tupehiwo_monitor *m, uint64_t creator,
                                           uint64_t driver, uint64_t made, uint64_t level)
{
    return tupehiwo_do(m, TUPEHIWO_CODE_CREATE_ROOT, creator, driver, made, level, 0).verdict;
}

/* Moves an object from one container to another that does not lie anywhere inside it. */
static inline uint8_t tupehiwo_move(struct tupehiwo_monitor *m, uint64_t task, uint64_t driver,
                                    uint64_t object, uint64_t from, uint64_t to)
{
    return tupehiwo_do(m, TUPEHIWO_CODE_MOVE, task, driver, object, from, to).verdict;
}

/*
 * Deletes an empty object from its container, with its flows and accesses. The trail
 * past it is kept: each thing that fed the object, and its driver, is recorded as feeding
 * each thing that the object fed, but none as feeding itself. A marked object is not
 * deleted while it feeds an unmarked thing (TUPEHIWO_FEEDING); a spread marks that thing,
 * and then the object may go.
 */
static inline uint8_t tupehiwo_delete(struct tupehiwo_monitor *m, uint64_t task,
                                      uint64_t driver, uint64_t object, uint64_t container)
{
    return tupehiwo_do(m, TUPEHIWO_CODE_DELETE, task, driver, object, container, 0).verdict;
}

/* A task calls another and takes its answer. */
static inline uint8_t tupehiwo_call(struct tupehiwo_monitor *m, uint64_t caller,
                                    uint64_t callee)
{
    return tupehiwo_do(m, TUPEHIWO_CODE_CALL, caller, callee, 0, 0, 0).verdict;
}

/* A task invokes another without an answer. */
static inline uint8_t tupehiwo_invoke(struct tupehiwo_monitor *m, uint64_t invoker,
                                      uint64_t invokee)
{
    return tupehiwo_do(m, TUPEHIWO_CODE_INVOKE, invoker, invokee, 0, 0, 0).verdict;
}

/* Task z, which reads object x and feeds y, passes x on: flow x to y. */
static inline uint8_t tupehiwo_pass(struct tupehiwo_monitor *m, uint64_t z, uint64_t x,
                                    uint64_t y)
{
    return tupehiwo_do(m, TUPEHIWO_CODE_PASS, z, x, y, 0, 0).verdict;
}

/* Task x, which feeds object z, reaches the task y that reads it: flow x to y. */
static inline uint8_t tupehiwo_post(struct tupehiwo_monitor *m, uint64_t x, uint64_t z,
                                    uint64_t y)
{
    return tupehiwo_do(m, TUPEHIWO_CODE_POST, x, z, y, 0, 0).verdict;
}

/* Task x, which feeds task z, reaches what z feeds: flow x to y. */
static inline uint8_t tupehiwo_find(struct tupehiwo_monitor *m, uint64_t x, uint64_t z,
                                    uint64_t y)
{
    return tupehiwo_do(m, TUPEHIWO_CODE_FIND, x, z, y, 0, 0).verdict;
}

/* Marks a task from outside, and its objects. */
static inline uint8_t tupehiwo_mark(struct tupehiwo_monitor *m, uint64_t task)
{
    return tupehiwo_do(m, TUPEHIWO_CODE_MARK, task, 0, 0, 0, 0).verdict;
}

/* Marks one thing that a marked one feeds, and its objects if it is a task. */
static inline uint8_t tupehiwo_step(struct tupehiwo_monitor *m, uint64_t x)
{
    return tupehiwo_do(m, TUPEHIWO_CODE_STEP, x, 0, 0, 0, 0).verdict;
}

/*
 * Marks all that the marked things reach, also by way of objects that were deleted, and
 * tells in how many rounds.
 */
static inline struct tupehiwo_answer tupehiwo_spread(struct tupehiwo_monitor *m)
{
    return tupehiwo_do(m, TUPEHIWO_CODE_SPREAD, 0, 0, 0, 0, 0);
}

/* The report on this monitor's memory. */
static inline struct tupehiwo_report tupehiwo_marked(const struct tupehiwo_monitor *m)
{
    return tupehiwo_report(m->bytes, TUPEHIWO_BYTES, m->words, TUPEHIWO_WORDS, m->order);
}

/* The word for a verdict, as "granted"; "unknown" for a number that is none. */
static inline const char *tupehiwo_word(uint64_t verdict)
{
    static const char *const words[] = {"granted", "slipped", "state",  "order", "number",
                                        "taken",   "driver",  "place",  "held",  "scale",
                                        "path",    "rule",    "filled", "still", "form",
                                        "deep",    "feeding"};
    return verdict < sizeof words / sizeof words[0] ? words[verdict] : "unknown";
}

/* A place in a text, as editors count: both from 1, a column for each byte. */
struct tupehiwo_place {
    size_t line, column;
};

/* The place of an offset, which is at most the text's length. */
static inline struct tupehiwo_place tupehiwo_place_of(const void *text, size_t offset)
{
    const uint8_t *bytes = (const uint8_t *)text;
    struct tupehiwo_place place = {1, 1};
    for (size_t i = 0; i < offset; i++) {
        place.line += bytes[i] == '\n';
        place.column = bytes[i] == '\n' ? 1 : place.column + 1;
    }
    return place;
}

#ifdef __cplusplus
}
#endif

#endif
