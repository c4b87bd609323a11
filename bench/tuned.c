/*
 * The C monitor tuned by profiles: free records are passed over eight at a time, sets stay in
 * registers, marks are written without a branch.
 */
#include "rules.h"

/* A bit for each number, 0 to 63 in the low word. */
struct set {
    uint64_t low, high;
};

static inline struct set join(struct set a, struct set b)
{
    return (struct set){a.low | b.low, a.high | b.high};
}

static inline struct set common(struct set a, struct set b)
{
    return (struct set){a.low & b.low, a.high & b.high};
}

static inline struct set without(struct set a, struct set b)
{
    return (struct set){a.low & ~b.low, a.high & ~b.high};
}

static inline int empty(struct set set)
{
    return (set.low | set.high) == 0;
}

static inline struct set join_rows(struct set set, const uint64_t *rows, uint64_t word)
{
    for (; word != 0; word &= word - 1) {
        const uint64_t *row = rows + 2 * __builtin_ctzll(word);
        set = join(set, (struct set){row[0], row[1]});
    }
    return set;
}

/* The rows of a set's numbers together. */
static inline struct set rows_of(const uint64_t *rows, struct set of)
{
    struct set low = join_rows((struct set){0, 0}, rows, of.low);
    return join_rows(low, rows + THINGS, of.high);
}

static inline uint64_t at(unsigned place, unsigned value)
{
    return (uint64_t)value << (8 * place);
}

/* Whether an object has that value in that byte. */
static inline int object_with(uint64_t whole, unsigned place, unsigned value)
{
    return (whole & (at(KIND, 255) | at(place, 255))) == (at(KIND, OBJECT) | at(place, value));
}

/* Eight records at a time: compilers turn the inner loop into straight code. */
static inline uint64_t word_of(const uint8_t *records, uint64_t bits)
{
    uint64_t word = 0;
    for (unsigned first = 0; first < 64; first += 8) {
        uint64_t eight = 0;
        for (unsigned n = 0; n < 8; n++)
            eight |= (uint64_t)((load(records + RECORD * (first + n)) & bits) != 0) << n;
        word |= eight << first;
    }
    return word;
}

/* The numbers whose record has one of the bits. */
static inline struct set set_of(const uint8_t *bytes, uint64_t bits)
{
    return (struct set){word_of(bytes, bits), word_of(bytes + TUPEHIWO_BYTES / 2, bits)};
}

/* Marks are 0, 1 or 3: the lowest bit tells. */
static inline struct set marked_set(const uint8_t *bytes)
{
    return set_of(bytes, at(MARKS, MARKED));
}

/* A free record's kind is 0. */
static inline struct set used_set(const uint8_t *bytes)
{
    return set_of(bytes, at(KIND, TASK | OBJECT));
}

static inline struct set one(unsigned n)
{
    uint64_t bit = UINT64_C(1) << (n % 64);
    return n < 64 ? (struct set){bit, 0} : (struct set){0, bit};
}

/* Without a branch, and an object's marks are 0 or 1. */
static void mark_objects(struct state *s, unsigned driver)
{
    for (unsigned n = 0; n < THINGS; n++) {
        uint64_t whole = load(s->bytes + RECORD * n);
        whole |= at(MARKS, object_with(whole, DRIVER, driver) ? MARKED : 0);
        memcpy(s->bytes + RECORD * n, &whole, sizeof whole);
    }
}

static inline int sound_record(const uint8_t *bytes, unsigned n, unsigned count)
{
    uint64_t whole = load(bytes + RECORD * n);
    return whole == 0 || sound_task(whole, count) || sound_object(bytes, n, whole, count);
}

/* Eight free records at once cost one test. */
static int sound(const uint8_t *bytes, const struct tupehiwo_order *order)
{
    unsigned count = order->count;
    if (bytes[KIND] != TASK || bytes[LEVEL] != order->top)
        return 0;
    for (unsigned first = 0; first < THINGS; first += 8) {
        uint64_t any = 0;
        for (unsigned n = first; n < first + 8; n++)
            any |= load(bytes + RECORD * n);
        if (any == 0)
            continue;
        for (unsigned n = first; n < first + 8; n++)
            if (!sound_record(bytes, n, count))
                return 0;
    }
    return 1;
}

/*
 * What is strictly above i has its rows within it: that is transitivity and
 * antisymmetry. What is wrong is gathered and tested once, at the end.
 */
static int ordered(const struct tupehiwo_order *order)
{
    unsigned count = order->count, top = order->top, wrong = 0;
    if (count < 1 || count > TUPEHIWO_LEVELS || top >= count)
        return 0;
    unsigned outside = ~0u << count;
    for (unsigned i = 0; i < count; i++) {
        unsigned row = order->rows[i], strict = row & ~(1u << i), reached = 0;
        for (unsigned rest = strict; rest != 0; rest &= rest - 1)
            reached |= order->rows[__builtin_ctz(rest)];
        wrong |= (row & outside) | (~row & (1u << i | 1u << top)) | (reached & ~strict);
    }
    for (unsigned i = count; i < TUPEHIWO_LEVELS; i++)
        wrong |= order->rows[i];
    return wrong == 0;
}

static int filled(const struct state *s, unsigned container)
{
    int found = 0;
    for (unsigned n = 0; n < THINGS; n++)
        found |= object_with(load(s->bytes + RECORD * n), CONTAINER, container);
    return found;
}

/* The others that n has a flow to. */
static inline struct set ends_of(const struct state *s, unsigned n)
{
    const uint64_t *flows = row(s, FLOWS, n);
    return without((struct set){flows[0], flows[1]}, one(n));
}

static int feeds_unmarked(const struct state *s, unsigned n)
{
    struct set unmarked = without(used_set(s->bytes), marked_set(s->bytes));
    return !empty(common(ends_of(s, n), unmarked));
}

/* Those of a word's numbers that are in use: of few that costs less than of all records. */
static inline uint64_t used_word(const uint8_t *records, uint64_t word)
{
    uint64_t found = 0;
    for (; word != 0; word &= word - 1)
        found |= records[RECORD * __builtin_ctzll(word) + KIND] != FREE ? word & -word : 0;
    return found;
}

/* The feeders among 64 numbers get the set into their rows, each without its own bit. */
static inline void bridge_half(struct state *s, unsigned first, unsigned object,
                               struct set set)
{
    uint64_t halves[2] = {set.low, set.high};
    unsigned half = first / 64;
    for (unsigned n = 0; n < 64; n++) {
        uint64_t *flows = row(s, FLOWS, first + n);
        if (holds(flows, object) && field(s, first + n, KIND) != FREE) {
            flows[half] |= halves[half] & ~(UINT64_C(1) << n);
            flows[!half] |= halves[!half];
        }
    }
}

/*
 * The driver gets a flow to the object, so as to be found as the others are. The column is
 * cleared next, and so is the object's own row, which may have got the set too.
 */
static void bridge(struct state *s, unsigned object)
{
    struct set ends = ends_of(s, object), things;
    if (empty(ends))
        return;
    things.low = used_word(s->bytes, ends.low);
    things.high = used_word(s->bytes + TUPEHIWO_BYTES / 2, ends.high);
    add(s, FLOWS, field(s, object, DRIVER), object);
    bridge_half(s, 0, object, things);
    bridge_half(s, 64, object, things);
}

/* Rows of all three kinds lie one after the other: one loop clears the column. */
static void clear(struct state *s, unsigned n)
{
    static const uint8_t nothing[RECORD] = {FREE};
    uint64_t column[2] = {0, 0};
    put(column, n);
    make(s, n, nothing);
    for (unsigned w = 0; w < TUPEHIWO_WORDS; w += 2) {
        s->words[w] &= ~column[0];
        s->words[w + 1] &= ~column[1];
    }
    for (unsigned kind = FLOWS; kind <= WRITES; kind += READS)
        memset(row(s, kind, n), 0, 2 * sizeof *s->words);
}

static int any_holds(const uint64_t *rows, uint64_t word, unsigned x)
{
    for (; word != 0; word &= word - 1)
        if (holds(rows + 2 * __builtin_ctzll(word), x))
            return 1;
    return 0;
}

static int fed(const struct state *s, unsigned x)
{
    struct set sources = marked_set(s->bytes);
    return any_holds(row(s, FLOWS, 0), sources.low, x) ||
           any_holds(row(s, FLOWS, 64), sources.high, x);
}

/* Rows of the objects that each task drives, and a row of the tasks that drive any. */
struct driving {
    uint64_t objects[2 * THINGS], drivers[2];
};

static void survey(const struct state *s, struct driving *driving, uint64_t word,
                   unsigned first)
{
    for (; word != 0; word &= word - 1) {
        unsigned n = first + (unsigned)__builtin_ctzll(word), driver = field(s, n, DRIVER);
        put(driving->objects + 2 * driver, n);
        put(driving->drivers, driver);
    }
}

static void mark_word(uint8_t *records, uint64_t word)
{
    for (; word != 0; word &= word - 1)
        records[RECORD * __builtin_ctzll(word) + MARKS] = MARKED;
}

static void mark_set(struct state *s, struct set set)
{
    mark_word(s->bytes, set.low);
    mark_word(s->bytes + TUPEHIWO_BYTES / 2, set.high);
}

/*
 * Rounds until one catches nothing; gives back who is unmarked then. What older
 * sources feed, and the objects of older drivers, are marked by then: only those
 * that the last round caught are sources of the next.
 */
static struct set run_rounds(const struct state *s, const struct driving *driving,
                             struct set marked, struct set unmarked, uint8_t *rounds)
{
    struct set drivers = {driving->drivers[0], driving->drivers[1]}, sources = marked;
    for (;;) {
        struct set caught = common(rows_of(row(s, FLOWS, 0), sources), unmarked);
        struct set captured = *rounds == 0 ? join(marked, caught) : caught;
        struct set objects = rows_of(driving->objects, common(captured, drivers));
        caught = join(caught, common(objects, unmarked));
        if (empty(caught))
            return unmarked;
        ++*rounds;
        unmarked = without(unmarked, caught);
        sources = caught;
    }
}

static uint8_t spread(struct state *s)
{
    struct driving driving;
    struct set marked = marked_set(s->bytes), objects, unmarked, left;
    uint8_t rounds = 0;
    if (empty(marked))
        return 0;
    objects = without(set_of(s->bytes, at(KIND, OBJECT)), marked);
    unmarked = join(without(set_of(s->bytes, at(KIND, TASK)), marked), objects);
    memset(&driving, 0, sizeof driving);
    survey(s, &driving, objects.low, 0);
    survey(s, &driving, objects.high, 64);
    left = run_rounds(s, &driving, marked, unmarked, &rounds);
    mark_set(s, without(unmarked, left));
    return rounds;
}

static void marked_words(const uint8_t *bytes, uint64_t words[2])
{
    struct set set = marked_set(bytes);
    words[0] = set.low;
    words[1] = set.high;
}
