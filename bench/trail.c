/*
 * The script program in C over the plain monitor: the rival of trail. Written
 * for speed: it reads and writes in blocks, and goes through a line once.
 */
#include <string.h>
#include <unistd.h>

#include "baseline.h"

enum { BLOCK = 1 << 16, LONGEST_LINE = 16, MOST_NUMBER = 65535, MOST_DIGITS = 5 };

/* ------------------------------------------------------------------ output */

static struct {
    char bytes[BLOCK];
    size_t used;
} output;

static void flush(void)
{
    for (size_t sent = 0; sent < output.used;) {
        ssize_t n = write(STDOUT_FILENO, output.bytes + sent, output.used - sent);
        if (n <= 0)
            _exit(1);
        sent += (size_t)n;
    }
    output.used = 0;
}

static void print(const char *text, size_t length)
{
    memcpy(output.bytes + output.used, text, length);
    output.used += length;
}

/* A number up to 255. */
static void print_number(unsigned n)
{
    char digits[3];
    size_t first = sizeof digits;
    do
        digits[--first] = (char)('0' + n % 10);
    while (n /= 10);
    print(digits + first, sizeof digits - first);
}

/* ------------------------------------------------------------------- input */

/* What was read and is not yet a line, and a place for a line feed behind it. */
static struct {
    char bytes[BLOCK + 1];
    size_t begin, end;
    int ended; /* no more to read */
    int too_long /* the rest of a line that filled a block is passed over */;
} input;

/* What was answered goes out before the program waits for more. */
static void refill(void)
{
    flush();
    size_t kept = input.end - input.begin;
    memmove(input.bytes, input.bytes + input.begin, kept);
    ssize_t n = read(STDIN_FILENO, input.bytes + kept, BLOCK - kept);
    input.begin = 0;
    input.end = kept + (n > 0 ? (size_t)n : 0);
    input.ended = n <= 0;
}

/*
 * The next line, with a line feed behind it; none at the end. Of a line longer
 * than a block the first block is given: no call is so long, and a start of too
 * many levels is known by its beginning.
 */
static const char *next_line(void)
{
    for (;;) {
        char *line = input.bytes + input.begin;
        size_t length = input.end - input.begin;
        char *feed = memchr(line, '\n', length);
        int begins = !input.too_long;
        if (feed != NULL) {
            input.begin += (size_t)(feed - line) + 1;
            input.too_long = 0;
        } else if (input.ended || length == BLOCK) {
            line[length] = '\n';
            input.begin = input.end;
            input.too_long = length == BLOCK;
            if (length == 0)
                return NULL;
        } else {
            refill();
            continue;
        }
        if (begins)
            return line;
    }
}

/* ------------------------------------------------------------------- words */

/* A call's word, and how many numbers follow it. */
struct word {
    const char *text;
    uint16_t code, numbers;
};

static const struct word words[] = {
    {"start", TUPEHIWO_CODE_START, 2},   {"read", TUPEHIWO_CODE_READ, 3},
    {"write", TUPEHIWO_CODE_WRITE, 3},   {"run", TUPEHIWO_CODE_EXECUTE, 5},
    {"create", TUPEHIWO_CODE_CREATE, 5}, {"root", TUPEHIWO_CODE_CREATE_ROOT, 4},
    {"move", TUPEHIWO_CODE_MOVE, 5},     {"delete", TUPEHIWO_CODE_DELETE, 4},
    {"call", TUPEHIWO_CODE_CALL, 2},     {"invoke", TUPEHIWO_CODE_INVOKE, 2},
    {"pass", TUPEHIWO_CODE_PASS, 3},     {"post", TUPEHIWO_CODE_POST, 3},
    {"find", TUPEHIWO_CODE_FIND, 3},     {"mark", TUPEHIWO_CODE_MARK, 1},
    {"step", TUPEHIWO_CODE_STEP, 1},     {"spread", TUPEHIWO_CODE_SPREAD, 0},
};

enum { SLOTS = 74 }; /* the least number that divides all sixteen keys with other remainders */

static struct {
    uint64_t key;
    const struct word *word;
} slots[SLOTS];

/* The word's bytes as one number behind a one; 0 for a word longer than any of ours. */
static uint64_t key_of(const char **at)
{
    uint64_t key = 1;
    for (; **at != ' ' && **at != '\n'; ++*at) {
        if (key >> 56 != 0)
            return 0;
        key = key << 8 | (unsigned char)**at;
    }
    return key;
}

static void fill_slots(void)
{
    for (size_t i = 0; i < sizeof words / sizeof words[0]; i++) {
        char line[LONGEST_LINE];
        const char *at = line;
        strcpy(line, words[i].text);
        strcat(line, "\n");
        uint64_t key = key_of(&at);
        slots[key % SLOTS].key = key;
        slots[key % SLOTS].word = &words[i];
    }
}

/* A space and a number; false if there is none. */
static int number(const char **at, uint16_t *value)
{
    const char *first = *at + 1, *digit = first;
    unsigned n = 0;
    if (**at != ' ')
        return 0;
    for (; (unsigned)(*digit - '0') < 10 && digit - first < MOST_DIGITS + 1; digit++)
        n = 10 * n + (unsigned)(*digit - '0');
    *at = digit;
    *value = (uint16_t)n;
    return digit != first && digit - first <= MOST_DIGITS && n <= MOST_NUMBER;
}

static int numbers(const char **at, uint16_t *values, unsigned count)
{
    for (unsigned i = 0; i < count; i++)
        if (!number(at, &values[i]))
            return 0;
    return 1;
}

/* ------------------------------------------------------------------- calls */

static struct tupehiwo_monitor monitor;

static struct tupehiwo_answer ask(struct tupehiwo_order order, struct tupehiwo_request request)
{
    return baseline_perform(monitor.bytes, TUPEHIWO_BYTES, monitor.words, TUPEHIWO_WORDS,
                            monitor.tallies, TUPEHIWO_TALLIES, order, request);
}

enum outcome { BAD, DONE };

/* Count, top and as many rows; a count over sixteen is refused and the rest unread. */
static enum outcome start(const char *at, struct tupehiwo_answer *answer)
{
    struct tupehiwo_order order = {{0}, 0, 0};
    struct tupehiwo_request request = {TUPEHIWO_CODE_START, 0, 0, 0, 0, 0};
    if (!number(&at, &order.count) || (*at != ' ' && *at != '\n'))
        return BAD;
    if (order.count > TUPEHIWO_LEVELS) {
        answer->verdict = TUPEHIWO_ORDER;
        return DONE;
    }
    if (!number(&at, &order.top) || !numbers(&at, order.rows, order.count) || *at != '\n')
        return BAD;
    *answer = ask(order, request);
    if (answer->verdict == TUPEHIWO_GRANTED)
        monitor.order = order;
    return DONE;
}

static enum outcome call(const struct word *word, const char *at,
                         struct tupehiwo_answer *answer)
{
    uint16_t n[5] = {0};
    if (!numbers(&at, n, word->numbers) || *at != '\n')
        return BAD;
    struct tupehiwo_request request = {word->code, n[0], n[1], n[2], n[3], n[4]};
    *answer = ask(monitor.order, request);
    return DONE;
}

static void do_line(const char *line)
{
    struct tupehiwo_answer answer = {0, 0, 0};
    uint64_t key = key_of(&line);
    const struct word *word = slots[key % SLOTS].key == key ? slots[key % SLOTS].word : NULL;
    enum outcome outcome = word == NULL                        ? BAD
                           : word->code == TUPEHIWO_CODE_START ? start(line, &answer)
                                                               : call(word, line, &answer);
    if (outcome == BAD) {
        print("bad\n", 4);
        return;
    }
    print_number(answer.verdict);
    if (word->code == TUPEHIWO_CODE_SPREAD) {
        print(" ", 1);
        print_number(answer.rounds);
    }
    print("\n", 1);
}

static void print_marked(void)
{
    struct tupehiwo_report report = baseline_report(
        monitor.bytes, TUPEHIWO_BYTES, monitor.words, TUPEHIWO_WORDS, monitor.order);
    print("marked", 6);
    for (uint16_t n = baseline_next_marked(report, 0); n < TUPEHIWO_THINGS;
         n = baseline_next_marked(report, (uint16_t)(n + 1))) {
        print(" ", 1);
        print_number(n);
    }
    print("\n", 1);
}

int main(void)
{
    const char *line;
    fill_slots();
    while ((line = next_line()) != NULL) {
        do_line(line);
        if (output.used > BLOCK - LONGEST_LINE)
            flush();
    }
    flush(); /* room for the list */
    print_marked();
    flush();
    return 0;
}
