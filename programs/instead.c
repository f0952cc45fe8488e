#include "instead.h"

#include <stdlib.h>
#include <string.h>

/* Messages to ask the library about, one after the other behind the file's own service characters. */
typedef struct {
    uint8_t *bytes;
    size_t length;
    size_t count;
    size_t positions[MOST_TAGS];
    const char *tags[MOST_TAGS];
} trials;

static void add_bytes(trials *t, const void *bytes, size_t length)
{
    memcpy(t->bytes + t->length, bytes, length);
    t->length += length;
}

/* The message up to the refused segment, then a segment of that tag, then a UNT. */
static void add_trial(trials *t, slice front, const char *tag, marks m)
{
    t->positions[t->count] = t->length;
    t->tags[t->count] = tag;
    t->count++;
    add_bytes(t, front.first, front.length);
    add_bytes(t, tag, 3);
    add_bytes(t, &m.terminator, 1);
    add_bytes(t, "UNT", 3);
    add_bytes(t, &m.terminator, 1);
}

/* The tags that the library lets stand; refused with 16 at this very segment, one cannot. What is too long to be told (13) is not. */
static size_t ask(const trials *t, uint32_t segment, const char **tags)
{
    twineherald_step answers[MOST_TAGS];
    size_t count = 0;

    if (twineherald_walk_each(t->bytes, t->length, t->positions, t->count, answers, MOST_TAGS) != TWINEHERALD_ACCEPTED)
        return 0;
    for (size_t k = 0; k < t->count; k++) {
        const twineherald_report *report = &answers[k].report;
        int cannot = report->number == TWINEHERALD_PLACEMENT && report->segment <= segment;
        if (!cannot && report->number != TWINEHERALD_SEGMENTS)
            tags[count++] = t->tags[k];
    }
    return count;
}

/* The tags of a chart, each once, in the chart's order; a UNH begins another message. */
static size_t tags_of(const chart *c, const char *tags[MOST_TAGS])
{
    size_t count = 0;

    for (uint16_t row = 2; row <= c->last && count < MOST_TAGS; row++) {
        size_t k = 0;
        while (k < count && strcmp(tags[k], c->rows[row].tag) != 0)
            k++;
        if (k == count)
            tags[count++] = c->rows[row].tag;
    }
    return count;
}

/* The tags of the chart that can stand after the front of a message, as many as fit asked about in one call. */
static size_t tags_after(const walker *w, slice front, const char *tags[MOST_TAGS])
{
    const char *all[MOST_TAGS];
    size_t every = tags_of(chart_of(w), all);
    size_t una = una_length(w->file);
    size_t count = 0;
    trials t = {.bytes = malloc(MOST_BYTES)};

    if (t.bytes == NULL || front.length + una + 8 > MOST_BYTES)
        every = 0;
    for (size_t k = 0; k < every; k++) {
        if (t.count == 0) {
            t.length = 0;
            add_bytes(&t, w->file.first, una);
        }
        add_trial(&t, front, all[k], w->m);
        if (k + 1 < every && t.length + front.length + 8 <= MOST_BYTES)
            continue;
        count += ask(&t, w->step.report.segment, tags + count);
        t.count = 0;
    }
    free(t.bytes);
    return count;
}

/* Where the front of a message leads on its chart. */
static position position_after(const chart *c, slice front, marks m)
{
    position p = {0};

    for (size_t at = 0; at < front.length; at = next_segment(front, at, m)) {
        slice value = component(segment_at(front, at, m), 0, 1, m);
        char tag[4] = "";
        size_t k = 0;
        for (size_t length = 0; length < 3 && k < value.length; length++)
            tag[length] = (char)next_byte(value, &k, m);
        if (k != value.length || !go_on(c, &p, tag))
            return (position){0};
    }
    return p;
}

/* Whether one of the tags is that one; it is then taken out. */
static int take_tag(const char **tags, size_t count, const char *tag)
{
    for (size_t k = 0; k < count; k++) {
        if (tags[k] == NULL || strcmp(tags[k], tag) != 0)
            continue;
        tags[k] = NULL;
        return 1;
    }
    return 0;
}

size_t segments_instead(const walker *w, instead found[MOST_TAGS])
{
    const chart *c = chart_of(w);
    slice front = part_of(message_of(w), 0, refused_start(w));
    const char *tags[MOST_TAGS];
    size_t asked = tags_after(w, front, tags);
    position p = position_after(c, front, w->m);
    uint16_t rows[MOST_NEXT];
    size_t named = next_rows(c, &p, rows);
    size_t count = 0;

    for (size_t n = 0; n < named; n++)
        if (take_tag(tags, asked, c->rows[rows[n]].tag))
            found[count++] = (instead){c->rows[rows[n]].tag, group_of(c, rows[n])};
    for (size_t k = 0; k < asked; k++)
        if (tags[k] != NULL)
            found[count++] = (instead){tags[k], ""};
    return count;
}
