/* The plain C monitor: the rules as they are, with loops that leave at the first failure. */
#include "rules.h"

/* A bit for each number. */
struct set {
    uint64_t words[2];
};

static inline void join(struct set *set, const uint64_t *row)
{
    set->words[0] |= row[0];
    set->words[1] |= row[1];
}

static inline int empty(const struct set *set)
{
    return (set->words[0] | set->words[1]) == 0;
}

/* Removes and returns the lowest number of a set that is not empty. */
static inline unsigned take(struct set *set)
{
    unsigned w = set->words[0] == 0;
    unsigned n = 64 * w + (unsigned)__builtin_ctzll(set->words[w]);
    set->words[w] &= set->words[w] - 1;
    return n;
}

static void mark_objects(struct state *s, unsigned driver)
{
    for (unsigned n = 0; n < THINGS; n++)
        if (field(s, n, KIND) == OBJECT && field(s, n, DRIVER) == driver)
            s->bytes[RECORD * n + MARKS] = MARKED;
}

static int sound(const uint8_t *bytes, const struct tupehiwo_order *order)
{
    for (unsigned n = 0; n < THINGS; n++) {
        uint64_t whole = load(bytes + RECORD * n);
        if (whole != 0 && !sound_task(whole, order->count) &&
            !sound_object(bytes, n, whole, order->count))
            return 0;
    }
    return bytes[KIND] == TASK && bytes[LEVEL] == order->top;
}

/* Row j within row i, for each j above i, is transitivity. */
static int ordered(const struct tupehiwo_order *order)
{
    unsigned count = order->count, top = order->top;
    if (count < 1 || count > TUPEHIWO_LEVELS || top >= count)
        return 0;
    unsigned outside = ~0u << count;
    for (unsigned i = 0; i < count; i++) {
        unsigned above = order->rows[i];
        if ((above & outside) || !(above >> i & 1) || !(above >> top & 1))
            return 0;
        for (unsigned rest = above & ~(1u << i); rest != 0; rest &= rest - 1) {
            unsigned higher = order->rows[__builtin_ctz(rest)];
            if ((higher & ~above) || (higher >> i & 1))
                return 0;
        }
    }
    for (unsigned i = count; i < TUPEHIWO_LEVELS; i++)
        if (order->rows[i] != 0)
            return 0;
    return 1;
}

static int filled(const struct state *s, unsigned container)
{
    for (unsigned n = 0; n < THINGS; n++)
        if (field(s, n, KIND) == OBJECT && field(s, n, CONTAINER) == container)
            return 1;
    return 0;
}

/* The things in use, other than n, that n has a flow to. */
static struct set fed_things(const struct state *s, unsigned n)
{
    struct set things = {{0, 0}};
    for (unsigned w = 0; w < 2; w++)
        for (uint64_t rest = row(s, FLOWS, n)[w]; rest != 0; rest &= rest - 1) {
            unsigned x = 64 * w + (unsigned)__builtin_ctzll(rest);
            if (x != n && used(s, x))
                things.words[w] |= rest & -rest;
        }
    return things;
}

static int feeds_unmarked(const struct state *s, unsigned n)
{
    for (struct set things = fed_things(s, n); !empty(&things);)
        if (!marked(s, take(&things)))
            return 1;
    return 0;
}

/* A feeder's row gets all that the object feeds, but not the feeder itself. */
static void bridge(struct state *s, unsigned object)
{
    struct set things = fed_things(s, object);
    unsigned driver = field(s, object, DRIVER);
    if (empty(&things))
        return;
    for (unsigned p = 0; p < THINGS; p++) {
        uint64_t *flows = row(s, FLOWS, p), itself = UINT64_C(1) << (p % 64);
        if (p == object || !used(s, p) || (p != driver && !holds(flows, object)))
            continue;
        flows[0] |= things.words[0] & ~(p < 64 ? itself : 0);
        flows[1] |= things.words[1] & ~(p < 64 ? 0 : itself);
    }
}

/* Rows of all three kinds lie one after the other: one loop clears the column. */
static void clear(struct state *s, unsigned n)
{
    static const uint8_t nothing[RECORD] = {FREE};
    uint64_t keep = ~(UINT64_C(1) << (n % 64));
    make(s, n, nothing);
    for (unsigned w = n / 64; w < TUPEHIWO_WORDS; w += 2)
        s->words[w] &= keep;
    for (unsigned kind = FLOWS; kind <= WRITES; kind += READS)
        memset(row(s, kind, n), 0, 2 * sizeof *s->words);
}

static struct set marked_set(const uint8_t *bytes)
{
    struct set set = {{0, 0}};
    for (unsigned n = 0; n < THINGS; n++)
        set.words[n / 64] |= (uint64_t)(bytes[RECORD * n + MARKS] != 0) << (n % 64);
    return set;
}

static int fed(const struct state *s, unsigned x)
{
    for (struct set sources = marked_set(s->bytes); !empty(&sources);)
        if (has(s, FLOWS, take(&sources), x))
            return 1;
    return 0;
}

/* What a spread looks up again and again: who is unmarked, and whose objects are whose. */
struct reach {
    struct set unmarked;
    struct set driven[THINGS];
};

static void survey(const struct state *s, struct reach *reach)
{
    memset(reach, 0, sizeof *reach);
    for (unsigned n = 0; n < THINGS; n++) {
        unsigned kind = field(s, n, KIND);
        if (kind != FREE && !marked(s, n))
            put(reach->unmarked.words, n);
        if (kind == OBJECT)
            put(reach->driven[field(s, n, DRIVER)].words, n);
    }
}

/* Moves those of a row that are unmarked from there into the set of newly marked. */
static inline void catch_unmarked(struct reach *reach, struct set *caught, const uint64_t *row)
{
    for (unsigned w = 0; w < 2; w++) {
        uint64_t both = row[w] & reach->unmarked.words[w];
        caught->words[w] |= both;
        reach->unmarked.words[w] &= ~both;
    }
}

/*
 * What older sources feed, and the objects of older drivers, are marked by
 * then: only those that the last round caught are sources of the next.
 */
static uint8_t spread(struct state *s)
{
    struct reach reach;
    struct set sources = marked_set(s->bytes);
    uint8_t rounds = 0;
    survey(s, &reach);
    for (;;) {
        struct set caught = {{0, 0}}, drivers = sources;
        while (!empty(&sources))
            catch_unmarked(&reach, &caught, row(s, FLOWS, take(&sources)));
        join(&drivers, caught.words);
        while (!empty(&drivers))
            catch_unmarked(&reach, &caught, reach.driven[take(&drivers)].words);
        if (empty(&caught))
            return rounds;
        rounds++;
        sources = caught;
        while (!empty(&caught))
            s->bytes[RECORD * take(&caught) + MARKS] = MARKED;
    }
}

static void marked_words(const uint8_t *bytes, uint64_t words[2])
{
    struct set set = marked_set(bytes);
    memcpy(words, set.words, sizeof set.words);
}
