/*
 * Numbers that do not fit 16 bits, through the inline functions of the header
 * and the library: refused in their place of the table, and nothing is changed but
 * one count, of the task that asks or, where none does, of the core, and the word for
 * the driver. Compiled as C and as C++.
 */
#include "calls.h"

/* Each is granted, under the order Q: the same world as in tests/suite/memory.rs. */
static const uint64_t world[][1 + MOST_NUMBERS] = {
    {TUPEHIWO_CODE_CREATE_ROOT, 0, 0, 10, 3, 0},  {TUPEHIWO_CODE_CREATE_ROOT, 0, 0, 11, 3, 0},
    {TUPEHIWO_CODE_CREATE_ROOT, 0, 0, 127, 0, 0}, {TUPEHIWO_CODE_EXECUTE, 0, 10, 1, 3, 1},
    {TUPEHIWO_CODE_EXECUTE, 0, 11, 2, 1, 0},      {TUPEHIWO_CODE_WRITE, 0, 0, 10, 0, 0},
    {TUPEHIWO_CODE_WRITE, 1, 0, 10, 0, 0},        {TUPEHIWO_CODE_WRITE, 0, 0, 11, 0, 0},
    {TUPEHIWO_CODE_WRITE, 1, 0, 11, 0, 0},        {TUPEHIWO_CODE_CREATE, 0, 1, 12, 10, 2},
    {TUPEHIWO_CODE_READ, 2, 0, 11, 0, 0},         {TUPEHIWO_CODE_INVOKE, 1, 2, 0, 0, 0},
    {TUPEHIWO_CODE_WRITE, 2, 0, 127, 0, 0},       {TUPEHIWO_CODE_CREATE, 0, 0, 14, 10, 1},
    {TUPEHIWO_CODE_MARK, 1, 0, 0, 0, 0},
};

static void build(struct tupehiwo_monitor *m)
{
    const struct tupehiwo_order q = {{15, 10, 12, 8}, 4, 3};
    memset(m, 0, sizeof *m);
    expect(tupehiwo_start(m, q) == TUPEHIWO_GRANTED, "start");
    for (unsigned i = 0; i < sizeof world / sizeof world[0]; i++) {
        const uint64_t *n = world[i];
        struct tupehiwo_answer answer = tupehiwo_do(m, n[0], n[1], n[2], n[3], n[4], n[5]);
        expect(answer.verdict == TUPEHIWO_GRANTED, "a call of the world");
    }
}

/* Refused with this verdict: but for the asker's count of refusals, all is as before. */
static void expect_refused(const struct tupehiwo_monitor *m, uint8_t given, uint8_t verdict,
                           uint64_t asker, const struct tupehiwo_monitor *before,
                           const char *what)
{
    struct tupehiwo_monitor counted = *before;
    counted.tallies[asker].refused++;
    expect(given == verdict, what);
    expect(memcmp(m->bytes, counted.bytes, sizeof m->bytes) == 0, what);
    expect(memcmp(m->words, counted.words, sizeof m->words) == 0, what);
    expect(memcmp(m->tallies, counted.tallies, sizeof m->tallies) == 0, what);
    expect(memcmp(&m->order, &counted.order, sizeof m->order) == 0, what);
}

/* Whom a call with its fit numbers counts on. */
static uint64_t asker(const struct call *call)
{
    return call->code <= TUPEHIWO_CODE_FIND ? call->fit[0] : 0;
}

/* What the driver is told of a call with this code. */
static void expect_told(const struct tupehiwo_monitor *m, uint16_t code, uint8_t word,
                        const char *what)
{
    int heard = code <= TUPEHIWO_CODE_INVOKE && code != TUPEHIWO_CODE_DELETE;
    expect(m->told == (heard ? word : (uint8_t)TUPEHIWO_NO_WORD), what);
}

/* Every call, place and wide number; the verdict for things, and that for levels. */
static void check_calls(const struct tupehiwo_monitor *before, uint8_t thing, uint8_t level)
{
    for (unsigned i = 0; i < CALLS; i++)
        for (unsigned place = 0; place < calls[i].things + calls[i].levels; place++)
            for (unsigned which = 0; which < WIDE; which++) {
                struct tupehiwo_monitor m = *before;
                uint64_t number = wide(which, calls[i].fit[place]);
                uint8_t given = ask_with(&m, &calls[i], place, number);
                uint8_t verdict = place < calls[i].things ? thing : level;
                int asked = place > 0 && verdict > TUPEHIWO_ORDER;
                expect_refused(&m, given, verdict, asked ? asker(&calls[i]) : 0, before,
                               calls[i].name);
                expect_told(&m, calls[i].code, TUPEHIWO_TOLD_NO, calls[i].name);
            }
}

/* Every code, a start's and a spread's too. */
static void check_codes(const struct tupehiwo_monitor *before, uint8_t verdict)
{
    for (uint64_t code = TUPEHIWO_CODE_START; code <= TUPEHIWO_CODE_SPREAD; code++)
        for (unsigned which = 0; which < WIDE; which++) {
            struct tupehiwo_monitor m = *before;
            uint8_t given = tupehiwo_do(&m, wide(which, code), 1, 2, 127, 0, 0).verdict;
            expect_refused(&m, given, verdict, 0, before, "a wide code");
            expect(m.told == TUPEHIWO_NO_WORD, "the word of a wide code");
        }
}

/* The fit numbers are those that a wide one is cut to: without it, all is granted. */
static void check_fit_numbers(const struct tupehiwo_monitor *before)
{
    for (unsigned i = 0; i < CALLS; i++) {
        struct tupehiwo_monitor m = *before;
        uint64_t n = asker(&calls[i]);
        expect(calls[i].ask(&m, calls[i].fit) == TUPEHIWO_GRANTED, calls[i].name);
        expect_told(&m, calls[i].code, TUPEHIWO_TOLD_YES, calls[i].name);
        expect(m.tallies[n].granted == before->tallies[n].granted + 1, calls[i].name);
    }
}

/* A wide level comes after the rows above its own, and before those below. */
static void check_rows_of_levels(const struct tupehiwo_monitor *before)
{
    const uint64_t level = 65536;
    struct tupehiwo_monitor m = *before;
    uint8_t given = tupehiwo_execute(&m, 0, 10, 11, level, 0);
    expect_refused(&m, given, TUPEHIWO_TAKEN, 0, before, "a wide level of a taken number");
    m = *before;
    given = tupehiwo_create(&m, 2, 0, 126, 10, level);
    expect_refused(&m, given, TUPEHIWO_HELD, 2, before, "a wide level without the access");
    m = *before;
    given = tupehiwo_execute(&m, 0, 127, 126, 3, level);
    expect_refused(&m, given, TUPEHIWO_SCALE, 0, before, "a wide level over the image");
}

int main(void)
{
    static struct tupehiwo_monitor m, zero;
    build(&m);
    m.told = zero.told = 99; /* what is left so is found */
    check_fit_numbers(&m);
    check_calls(&m, TUPEHIWO_NUMBER, TUPEHIWO_SCALE);
    check_codes(&m, TUPEHIWO_NUMBER);
    check_rows_of_levels(&m);
    m.order.count = 17; /* the bytes are sound, the order is not */
    check_calls(&m, TUPEHIWO_ORDER, TUPEHIWO_ORDER);
    check_codes(&m, TUPEHIWO_ORDER);
    check_calls(&zero, TUPEHIWO_STATE, TUPEHIWO_STATE);
    check_codes(&zero, TUPEHIWO_STATE);
    return failures != 0;
}
