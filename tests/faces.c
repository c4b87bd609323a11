/*
 * The inline functions of the header: each makes the request that it names, on
 * the memory of its monitor. A perform and a load of the test's own stand in for
 * the library and keep what they were lent. Compiled as C and as C++.
 */
#include "calls.h"

static struct {
    const void *bytes, *words, *tallies;
    size_t nbytes, nwords, ntallies;
    struct tupehiwo_order order;
    struct tupehiwo_request request;
    const void *text;
    size_t ntext;
    uint8_t verdict; /* what to answer */
    uint8_t told;    /* and what to tell, each time another */
} lent;

struct tupehiwo_answer tupehiwo_perform(uint8_t *bytes, size_t nbytes, uint64_t *words,
                                        size_t nwords, struct tupehiwo_tally *tallies,
                                        size_t ntallies, struct tupehiwo_order order,
                                        struct tupehiwo_request request)
{
    struct tupehiwo_answer answer = {lent.verdict, 99, ++lent.told};
    lent.bytes = bytes;
    lent.nbytes = nbytes;
    lent.words = words;
    lent.nwords = nwords;
    lent.tallies = tallies;
    lent.ntallies = ntallies;
    lent.order = order;
    lent.request = request;
    return answer;
}

struct tupehiwo_answer tupehiwo_load(uint8_t *bytes, size_t nbytes, uint64_t *words,
                                     size_t nwords, struct tupehiwo_tally *tallies,
                                     size_t ntallies, struct tupehiwo_order order,
                                     const uint8_t *text, size_t ntext)
{
    const struct tupehiwo_request none = {0, 0, 0, 0, 0, 0};
    lent.text = text;
    lent.ntext = ntext;
    return tupehiwo_perform(bytes, nbytes, words, nwords, tallies, ntallies, order, none);
}

struct tupehiwo_report tupehiwo_report(const uint8_t *bytes, size_t nbytes,
                                       const uint64_t *words, size_t nwords,
                                       struct tupehiwo_order order)
{
    struct tupehiwo_report report = {{1, 2}, 2, TUPEHIWO_GRANTED};
    lent.bytes = bytes;
    lent.nbytes = nbytes;
    lent.words = words;
    lent.nwords = nwords;
    lent.order = order;
    return report;
}

static int memory_of(const struct tupehiwo_monitor *m)
{
    return lent.bytes == m->bytes && lent.nbytes == 1024 && lent.words == m->words &&
           lent.nwords == 768 && memcmp(&lent.order, &m->order, sizeof m->order) == 0;
}

static int list_of(const struct tupehiwo_monitor *m)
{
    return lent.tallies == m->tallies && lent.ntallies == 128 &&
           sizeof m->tallies == 128 * sizeof m->tallies[0];
}

/* Verdict and word came back, and the request had this code and these arguments. */
static void expect_request(const struct tupehiwo_monitor *m, uint8_t verdict, const char *what,
                           uint16_t code, const uint64_t *numbers)
{
    const struct tupehiwo_request q = lent.request;
    const uint64_t given[MOST_NUMBERS] = {q.a, q.b, q.c, q.d, q.e};
    expect(memory_of(m) && list_of(m), what);
    expect(verdict == lent.verdict && q.code == code, what);
    expect(m->told == lent.told, what);
    expect(memcmp(given, numbers, sizeof given) == 0, what);
    lent.verdict++;
}

static void check_calls(struct tupehiwo_monitor *m)
{
    const uint64_t given[MOST_NUMBERS] = {101, 102, 103, 104, 105};
    for (unsigned i = 0; i < CALLS; i++) {
        uint64_t handed_on[MOST_NUMBERS] = {0, 0, 0, 0, 0};
        memcpy(handed_on, given, (calls[i].things + calls[i].levels) * sizeof given[0]);
        uint8_t verdict = calls[i].ask(m, given);
        expect_request(m, verdict, calls[i].name, calls[i].code, handed_on);
    }
}

/* What does not fit is handed on as 65,535, each number by itself; 65,535 fits. */
static void check_wide_numbers(struct tupehiwo_monitor *m)
{
    for (unsigned i = 0; i < CALLS; i++)
        for (unsigned place = 0; place < calls[i].things + calls[i].levels; place++) {
            uint64_t handed_on[MOST_NUMBERS];
            memcpy(handed_on, calls[i].fit, sizeof handed_on);
            handed_on[place] = 65535;
            for (unsigned which = 0; which < WIDE; which++) {
                uint64_t number = wide(which, calls[i].fit[place]);
                uint8_t verdict = ask_with(m, &calls[i], place, number);
                expect_request(m, verdict, calls[i].name, calls[i].code, handed_on);
            }
            uint8_t verdict = ask_with(m, &calls[i], place, 65535);
            expect_request(m, verdict, calls[i].name, calls[i].code, handed_on);
        }
}

static void check_spread_and_report(struct tupehiwo_monitor *m)
{
    const uint64_t none[MOST_NUMBERS] = {0, 0, 0, 0, 0};
    struct tupehiwo_answer answer = tupehiwo_spread(m);
    expect_request(m, answer.verdict, "spread", 15, none);
    expect(answer.rounds == 99 && answer.told == lent.told, "rounds and word");
    expect(tupehiwo_marked(m).ones == 2 && memory_of(m), "report");
}

/* Any call hands on its code and numbers; a code that does not fit becomes 65,535. */
static void check_any_call(struct tupehiwo_monitor *m)
{
    const uint64_t numbers[MOST_NUMBERS] = {1, 2, 3, 4, 5};
    uint8_t verdict = tupehiwo_do(m, 65534, 1, 2, 3, 4, 5).verdict;
    expect_request(m, verdict, "any call", 65534, numbers);
    for (unsigned which = 0; which < WIDE; which++) {
        verdict = tupehiwo_do(m, wide(which, 0), 1, 2, 3, 4, 5).verdict;
        expect_request(m, verdict, "a wide code", 65535, numbers);
    }
}

/* A granted start keeps its order, a refused one the old. */
static void check_start(struct tupehiwo_monitor *m)
{
    const struct tupehiwo_order first = {{3, 2}, 2, 1}, second = {{1}, 1, 0};
    const uint64_t none[MOST_NUMBERS] = {0, 0, 0, 0, 0};
    lent.verdict = TUPEHIWO_GRANTED;
    uint8_t verdict = tupehiwo_start(m, first);
    expect_request(m, verdict, "start", 0, none);
    expect(memcmp(&m->order, &first, sizeof first) == 0, "the order of a granted start");
    lent.verdict = TUPEHIWO_ORDER;
    expect(tupehiwo_start(m, second) == TUPEHIWO_ORDER, "refused start");
    expect(m->told == lent.told, "the word of a refused start");
    expect(memcmp(&lent.order, &second, sizeof second) == 0, "the order lent to a start");
    expect(memcmp(&m->order, &first, sizeof first) == 0, "the order after a refused start");
}

/* Of a load the monitor keeps the order, but where state or order was refused. */
static void check_load(struct tupehiwo_monitor *m)
{
    const struct tupehiwo_order orders[2] = {{{3, 2}, 2, 1}, {{1}, 1, 0}};
    const char text[] = "(object 10 driver 0 level 0)\n";
    for (uint8_t verdict = 0; verdict < 17; verdict++) {
        int kept = verdict == TUPEHIWO_STATE || verdict == TUPEHIWO_ORDER;
        m->order = orders[0];
        lent.verdict = verdict;
        expect(tupehiwo_monitor_load(m, orders[1], text, sizeof text - 1) == verdict, "load");
        expect(m->told == lent.told, "the word of a load");
        expect(memcmp(&lent.order, &orders[1], sizeof lent.order) == 0, "a load's order");
        expect(memcmp(&m->order, &orders[!kept], sizeof m->order) == 0, "order after a load");
        m->order = lent.order;
        expect(memory_of(m) && list_of(m), "the memory of a load");
        expect(lent.text == text && lent.ntext == sizeof text - 1, "the text of a load");
    }
}

static void expect_place(const char *text, size_t offset, size_t line, size_t column)
{
    struct tupehiwo_place place = tupehiwo_place_of(text, offset);
    expect(place.line == line && place.column == column, "a place in a text");
}

static void check_places(void)
{
    expect_place("", 0, 1, 1);
    expect_place("ab\ncd\n", 0, 1, 1);
    expect_place("ab\ncd\n", 2, 1, 3);
    expect_place("ab\ncd\n", 3, 2, 1);
    expect_place("ab\ncd\n", 5, 2, 3);
    expect_place("ab\ncd\n", 6, 3, 1);
    expect_place("\n\n\tx", 3, 3, 2);
}

static void check_words(void)
{
    static const char *const words[] = {"granted", "slipped", "state",  "order", "number",
                                        "taken",   "driver",  "place",  "held",  "scale",
                                        "path",    "rule",    "filled", "still", "form",
                                        "deep",    "feeding", "unknown"};
    for (uint8_t verdict = 0; verdict < 18; verdict++)
        expect(strcmp(tupehiwo_word(verdict), words[verdict]) == 0, words[verdict]);
    expect(strcmp(tupehiwo_word(256), "unknown") == 0, "the word of 256");
    expect(strcmp(tupehiwo_word((uint64_t)-1), "unknown") == 0, "the word of -1");
}

int main(void)
{
    static struct tupehiwo_monitor m;
    check_start(&m);
    check_calls(&m);
    check_wide_numbers(&m);
    check_spread_and_report(&m);
    check_any_call(&m);
    check_load(&m);
    check_places();
    check_words();
    return failures != 0;
}
