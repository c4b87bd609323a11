/*
 * Load a state, mark a captured task, spread the mark, read the list.
 *
 * An instrument has two levels, 0 for what came with a customer's module and 1
 * for what the shop has checked. The file server (task 2) turns out to be
 * captured: what may it have tainted?
 */
#include <stdio.h>

#include "tupehiwo.h"

enum { CUSTOMER = 0, SHOP = 1 };
enum { CORE = 0, GAUGE = 1, FILE_SERVER = 2, IMAGE = 10, DOWNLOAD = 20, TABLE = 21 };

static void say(const char *what, uint8_t verdict)
{
    printf("%-40s %2u %s\n", what, verdict, tupehiwo_word(verdict));
}

/* No both times: from the word alone the file server cannot learn that it was found out. */
static void read_download(struct tupehiwo_monitor *m)
{
    say("the gauge reads the download", tupehiwo_read(m, GAUGE, FILE_SERVER, DOWNLOAD));
    printf("    the file server is told %s\n", m->told == TUPEHIWO_TOLD_YES ? "yes" : "no");
}

static void load(struct tupehiwo_monitor *m)
{
    struct tupehiwo_order order = {{3, 2}, 2, SHOP}; /* 0 is at or below 1, the top */
    say("start", tupehiwo_start(m, order));
    say("an image", tupehiwo_create_root(m, CORE, CORE, IMAGE, SHOP));
    say("the gauge runs", tupehiwo_execute(m, CORE, IMAGE, GAUGE, SHOP, SHOP));
    say("the file server runs", tupehiwo_execute(m, CORE, IMAGE, FILE_SERVER, SHOP, SHOP));
    say("a download of the file server's",
        tupehiwo_create_root(m, CORE, FILE_SERVER, DOWNLOAD, CUSTOMER));
    say("a correction table", tupehiwo_create_root(m, CORE, CORE, TABLE, SHOP));
}

static void print_marked(const struct tupehiwo_monitor *m)
{
    struct tupehiwo_report report = tupehiwo_marked(m);
    printf("%u marked:", (unsigned)report.ones);
    for (uint16_t n = tupehiwo_next_marked(report, 0); n < TUPEHIWO_THINGS;
         n = tupehiwo_next_marked(report, (uint16_t)(n + 1)))
        printf(" %u", n);
    printf("\n");
}

/*
 * Whose calls there were: a refused one says whom to ring. Tally 0 has those of the core, and
 * start, mark and spread.
 */
static void print_tallies(const struct tupehiwo_monitor *m)
{
    for (unsigned n = 0; n < TUPEHIWO_TALLIES; n++) {
        struct tupehiwo_tally t = m->tallies[n];
        if ((t.granted | t.slipped | t.refused) != 0)
            printf("task %u: %u granted, %u slipped, %u refused\n", n, (unsigned)t.granted,
                   (unsigned)t.slipped, (unsigned)t.refused);
    }
}

int main(void)
{
    static struct tupehiwo_monitor m; /* zeros, as a monitor begins */
    load(&m);
    read_download(&m);
    say("the file server is marked", tupehiwo_mark(&m, FILE_SERVER));
    read_download(&m);
    say("the gauge writes the table", tupehiwo_write(&m, GAUGE, CORE, TABLE));

    struct tupehiwo_answer answer = tupehiwo_spread(&m);
    say("spread", answer.verdict);
    printf("%u rounds\n", answer.rounds);
    print_marked(&m);
    print_tallies(&m);
    return 0;
}
