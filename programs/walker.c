#include "walker.h"

#include <stdlib.h>
#include <string.h>

enum { MOST_SEGMENTS = 9999, MOST_ORDERS = 9999 };

int begin_walk(walker *w, slice file)
{
    *w = (walker){.file = file, .m = marks_of(file)};
    w->rows = malloc(MOST_SEGMENTS * sizeof *w->rows);
    w->starts = malloc(MOST_SEGMENTS * sizeof *w->starts);
    w->totals = malloc(MOST_ORDERS * sizeof *w->totals);
    if (w->rows != NULL && w->starts != NULL && w->totals != NULL)
        return 1;
    end_walk(w);
    say_trouble("not enough memory", "", "");
    return 0;
}

void end_walk(walker *w)
{
    free(w->rows);
    free(w->starts);
    free(w->totals);
}

void walk_again(walker *w)
{
    w->step = (twineherald_step){0};
    w->place = 0;
    w->strays_kept = 0;
}

/* Keeps where segments begin from position at up to the message that was found, or, if none is left, up to the UNZ. */
static void keep_strays(walker *w, size_t at)
{
    size_t end = w->step.found ? w->step.start : w->file.length;

    while (at < end && w->strays_kept < MOST_STRAYS) {
        size_t next = next_segment(w->file, at, w->m);
        if (next < w->file.length)
            w->strays[w->strays_kept++] = at;
        at = next;
    }
}

int next_message(walker *w)
{
    size_t first = first_segment(w->file);
    size_t from = w->place == 0 ? next_segment(w->file, first, w->m) : after_breaks(w->file, w->step.end);

    w->step = twineherald_walk(w->file.first, w->file.length, w->step.end, w->rows, MOST_SEGMENTS, w->starts, MOST_SEGMENTS, w->totals,
                               MOST_ORDERS);
    w->place += w->step.found;
    keep_strays(w, from);
    return w->step.found != 0;
}

int is_accepted(const walker *w)
{
    return w->step.report.number == TWINEHERALD_ACCEPTED;
}

slice message_of(const walker *w)
{
    return part_of(w->file, w->step.start, w->step.end);
}

int is_advice(const walker *w)
{
    if (is_accepted(w))
        return w->rows[w->step.report.segments - 1] == TWINEHERALD_DEBMUL_ROWS;
    return is_text(component(segment_at(message_of(w), 0, w->m), 2, 1, w->m), "DEBMUL", w->m);
}

const chart *chart_of(const walker *w)
{
    return is_advice(w) ? &advice_chart : &order_chart;
}

slice listed_segment(const walker *w, uint32_t k)
{
    return segment_at(message_of(w), w->starts[k], w->m);
}

uint32_t find_tag(const walker *w, uint32_t k, uint32_t end, const char *tag)
{
    const chart *c = chart_of(w);

    while (k < end && strcmp(c->rows[w->rows[k]].tag, tag) != 0)
        k++;
    return k;
}

slice currency_of(const walker *w, uint32_t k)
{
    uint32_t end = w->step.report.segments;
    uint32_t moa = find_tag(w, k, end, "MOA");

    return moa < end ? component(listed_segment(w, moa), 1, 3, w->m) : part_of(w->file, 0, 0);
}

size_t refused_start(const walker *w)
{
    slice message = message_of(w);
    size_t start = 0;

    for (size_t next = 0; next <= w->step.report.offset && next < message.length; next = next_segment(message, next, w->m))
        start = next;
    return start;
}
