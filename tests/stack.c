/*
 * How much stack a load and the check of a text take: less than 4 KiB for every
 * text. Each runs on a thread whose stack is painted before it; the lowest byte
 * that was painted over tells.
 */
#define _GNU_SOURCE
#include <pthread.h>
#include <stdio.h>
#include <stdlib.h>
#include <string.h>
#include <sys/mman.h>

#include "tupehiwo.h"

enum { STACK = 1 << 20, PAINT = 0xA5, MOST = 4096, KNOWN = 6000, LONGEST = 16400 };

static struct tupehiwo_monitor monitor;
static char text[LONGEST];
static size_t length;
static uint8_t verdict;
static int failures, measured;

/* ------------------------------------------------------------------- texts */

static void add(const char *words)
{
    memcpy(text + length, words, strlen(words));
    length += strlen(words);
}

static void add_object(unsigned number, unsigned level)
{
    char line[64];
    snprintf(line, sizeof line, "(object %u driver 0 level %u", number, level);
    add(line);
}

static void close_all(unsigned open)
{
    while (open-- > 0)
        add(")");
    add("\n");
}

/* Objects in each other, numbered from a number on or all alike. */
static void nested(unsigned levels, unsigned first, unsigned step)
{
    for (unsigned i = 0; i < levels; i++) {
        add(i > 0 ? "\n" : "");
        add_object(first + i * step, 0);
    }
    close_all(levels);
}

/* Objects beside each other in one. */
static void adjoining(unsigned count, unsigned step)
{
    add_object(1, 0);
    for (unsigned i = 1; i <= count; i++) {
        add("\n");
        add_object(1 + i * step, 0);
        add(")");
    }
    close_all(1);
}

/* Drawers of eight levels and tasks, as many as there are numbers. */
static void full(void)
{
    for (unsigned first = 1; first + 8 <= 127; first += 9) {
        char line[64];
        nested(8, first, 1);
        snprintf(line, sizeof line, "(task %u image %u level 0 reads 0)\n", first + 8, first);
        add(line);
    }
}

/* ------------------------------------------------------------------- stack */

/* Where the stack of what is measured begins. */
static volatile uintptr_t top;

static void *load_it(void *unused)
{
    const struct tupehiwo_order order = {{15, 10, 12, 8}, 4, 3};
    top = (uintptr_t)__builtin_frame_address(0);
    verdict = tupehiwo_monitor_load(&monitor, order, text, length);
    return unused;
}

static void *check_it(void *unused)
{
    top = (uintptr_t)__builtin_frame_address(0);
    verdict = tupehiwo_layout((const uint8_t *)text, length).verdict;
    return unused;
}

/* As much as is known, to show that the measure tells it. */
static void *take_known(void *unused)
{
    volatile uint8_t known[KNOWN];
    top = (uintptr_t)__builtin_frame_address(0);
    for (unsigned i = 0; i < KNOWN; i++)
        known[i] = 1;
    verdict = known[KNOWN - 1];
    return unused;
}

static size_t stack_of(void *(*work)(void *))
{
    uint8_t *stack = (uint8_t *)mmap(NULL, STACK, PROT_READ | PROT_WRITE,
                                     MAP_PRIVATE | MAP_ANONYMOUS, -1, 0);
    pthread_attr_t attributes;
    pthread_t thread;
    size_t lowest = 0;
    if (stack == MAP_FAILED)
        exit(2);
    memset(stack, PAINT, STACK);
    pthread_attr_init(&attributes);
    if (pthread_attr_setstack(&attributes, stack, STACK) != 0 ||
        pthread_create(&thread, &attributes, work, NULL) != 0)
        exit(2);
    pthread_join(thread, NULL);
    pthread_attr_destroy(&attributes);
    while (lowest < STACK && stack[lowest] == PAINT)
        lowest++;
    size_t used = top - (uintptr_t)(stack + lowest);
    munmap(stack, STACK);
    return used;
}

static void expect_little(const char *what, const char *name, void *(*work)(void *),
                          uint8_t expected)
{
    work(NULL); /* what the linker finds at a first call is not the monitor's */
    size_t used = stack_of(work);
    printf("%s, %s: verdict %u, %zu bytes\n", what, name, verdict, used);
    measured++;
    if (used >= MOST || verdict != expected) {
        printf("    not as it must be: verdict %u in less than %d bytes\n", expected, MOST);
        failures++;
    }
}

/* The verdict of the load, and that of the check, which comes to no call. */
static void measure(const char *name, uint8_t of_load)
{
    expect_little("load", name, load_it, of_load);
    expect_little("check", name, check_it, of_load < TUPEHIWO_FORM ? 0 : of_load);
    length = 0;
}

int main(void)
{
    nested(8, 1, 1);
    measure("8 levels", TUPEHIWO_GRANTED);
    nested(9, 1, 1);
    measure("9 levels", TUPEHIWO_DEEP);
    nested(585, 0, 0);
    measure("585 levels", TUPEHIWO_DEEP);
    nested(585, 0, 0);
    length--;
    measure("585 levels, unended", TUPEHIWO_FORM);
    adjoining(120, 1);
    measure("120 siblings", TUPEHIWO_GRANTED);
    adjoining(583, 0);
    measure("583 siblings", TUPEHIWO_TAKEN);
    full();
    measure("126 things, 8 levels", TUPEHIWO_GRANTED);
    for (unsigned i = 0; i < 585; i++) {
        add_object(1, 0);
        close_all(1);
    }
    measure("585 roots", TUPEHIWO_TAKEN);
    measure("nothing", TUPEHIWO_GRANTED);
    memset(text, '(', LONGEST);
    length = LONGEST;
    measure("too long", TUPEHIWO_FORM);
    size_t known = stack_of(take_known);
    printf("%d bytes known: %zu\n", KNOWN, known);
    if (known < KNOWN || known > KNOWN + 512 || measured != 20)
        failures++;
    return failures != 0;
}
