/*
 * The reader of a power-up layout that both C monitors share: a form is a line,
 * so the text is read line by line, with a count of the brackets that are open.
 */
#ifndef LAYOUT_H
#define LAYOUT_H

#include "baseline.h"

/* Where the reader stands, and how many objects are open there. */
struct reader {
    const uint8_t *at, *end;
    unsigned open;
};

/* A task or an object, and how many objects it lies in. */
struct form {
    int task;
    unsigned number, driver, image, level, reads, depth;
};

/* Each of these stops at the first byte that is not as it must be, and is then false. */
static inline int read_word(struct reader *r, const char *word)
{
    for (; *word != 0; word++, r->at++)
        if (r->at == r->end || *r->at != (uint8_t)*word)
            return 0;
    return 1;
}

static inline int is_digit(const struct reader *r)
{
    return r->at < r->end && *r->at >= '0' && *r->at <= '9';
}

/* At most three digits, and none behind a leading zero. */
static inline int read_number(struct reader *r, unsigned *number)
{
    if (!is_digit(r))
        return 0;
    *number = *r->at++ - '0';
    for (unsigned digits = 1; *number != 0 && digits < 3 && is_digit(r); digits++)
        *number = 10 * *number + (*r->at++ - '0');
    return 1;
}

static inline int read_field(struct reader *r, const char *word, unsigned *number)
{
    return read_word(r, word) && read_number(r, number);
}

static inline int read_task(struct reader *r, struct form *form)
{
    return read_field(r, "(task ", &form->number) && read_field(r, " image ", &form->image) &&
           read_field(r, " level ", &form->level) && read_field(r, " reads ", &form->reads) &&
           read_word(r, ")\n");
}

/* An object's line ends it, and as many of those around it as it has brackets more. */
static inline int read_object(struct reader *r, struct form *form)
{
    if (!read_field(r, "(object ", &form->number) ||
        !read_field(r, " driver ", &form->driver) || !read_field(r, " level ", &form->level))
        return 0;
    r->open++;
    for (; r->open > 0 && r->at < r->end && *r->at == ')'; r->at++)
        r->open--;
    return read_word(r, "\n");
}

static inline int read_form(struct reader *r, struct form *form)
{
    form->depth = r->open;
    form->task = r->open == 0 && r->end - r->at > 1 && r->at[1] == 't';
    return form->task ? read_task(r, form) : read_object(r, form);
}

static struct tupehiwo_checked checked_at(size_t offset, uint8_t verdict)
{
    struct tupehiwo_checked checked = {(uint32_t)offset, verdict};
    return checked;
}

/* The whole text is read for its form; where it is too deep is told if that is good. */
static struct tupehiwo_checked check_layout(const uint8_t *text, size_t ntext)
{
    struct reader r = {text, text + ntext, 0};
    const uint8_t *ninth = NULL;
    if (ntext > TUPEHIWO_LAYOUT_BYTES)
        return checked_at(TUPEHIWO_LAYOUT_BYTES, TUPEHIWO_FORM);
    while (r.at < r.end) {
        const uint8_t *begin = r.at;
        struct form form;
        if (!read_form(&r, &form))
            return checked_at((size_t)(r.at - text), TUPEHIWO_FORM);
        if (form.depth == TUPEHIWO_LAYOUT_DEPTH && ninth == NULL)
            ninth = begin;
    }
    if (r.open > 0)
        return checked_at(ntext, TUPEHIWO_FORM);
    return ninth != NULL ? checked_at((size_t)(ninth - text), TUPEHIWO_DEEP)
                         : checked_at(ntext, TUPEHIWO_GRANTED);
}

#endif
