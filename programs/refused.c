#include "refused.h"

#include <inttypes.h>
#include <stdio.h>

#include "html.h"
#include "instead.h"

enum { MOST_SHOWN = 400, SEGMENTS_BEFORE = 8, SEGMENTS_AFTER = 4 };

static void put_instead(const walker *w)
{
    instead found[MOST_TAGS];
    size_t count = segments_instead(w, found);

    if (count == 0)
        return;
    printf("<p class=\"instead\">Here could stand: ");
    for (size_t k = 0; k < count; k++) {
        const char *group = found[k].group;
        printf("%s<span class=\"row\">%s%s%s%s</span>", k == 0 ? "" : ", ", found[k].tag, *group == '\0' ? "" : " (", group,
               *group == '\0' ? "" : ")");
    }
    printf("</p>\n");
}

/* A segment with a place in it marked, or with none, if that is empty. */
static void put_segment(slice segment, slice place, uint32_t number)
{
    size_t at = (size_t)(place.first - segment.first);
    slice shown = shown_of(segment, at, MOST_SHOWN);
    size_t from = (size_t)(place.first - shown.first);
    size_t to = from + place.length < shown.length ? from + place.length : shown.length;

    printf("<li%s value=\"%" PRIu32 "\"><code>", place.length > 0 ? " class=\"here\"" : "", number);
    put_cut(shown.first > segment.first);
    put_bytes(part_of(shown, 0, from));
    if (place.length > 0) {
        printf("<mark>");
        put_bytes(part_of(shown, from, to));
        printf("</mark>");
    }
    put_bytes(part_of(shown, to, shown.length));
    put_cut(shown.first + shown.length < segment.first + segment.length);
    printf("</code></li>\n");
}

/* The segments around the refused one. */
static void put_segments(const walker *w)
{
    const twineherald_report *report = &w->step.report;
    slice message = message_of(w);
    size_t refused = refused_start(w);
    size_t at = 0;

    printf("<ol class=\"segments\">\n");
    for (uint32_t number = 1; at < message.length && number <= report->segment + SEGMENTS_AFTER; number++) {
        slice segment = segment_at(message, at, w->m);
        slice place = part_of(segment, 0, 0);
        if (at == refused)
            place = place_in(segment, report->offset - at, report->number == TWINEHERALD_BYTE, w->m);
        if (number + SEGMENTS_BEFORE >= report->segment)
            put_segment(segment, place, number);
        at = next_segment(message, at, w->m);
    }
    printf("</ol>\n");
}

void put_refused(const walker *w)
{
    const twineherald_report *report = &w->step.report;

    put_refusal(report->number);
    if (report->segment != 0) {
        printf("<p class=\"where\">Segment %" PRIu32 ", at byte offset %" PRIu32 " of the message, %zu of the file:</p>\n", report->segment,
               report->offset, (size_t)w->step.start + report->offset);
        put_segments(w);
    }
    if (report->number == TWINEHERALD_PLACEMENT)
        put_instead(w);
    put_advice(report->number);
}
