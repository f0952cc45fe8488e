#include <inttypes.h>
#include <stdio.h>
#include <string.h>

#include "commands.h"
#include "instead.h"
#include "print.h"
#include "walker.h"

enum { MOST_SHOWN = 90, MOST_OF_STRAY = 60, MOST_OF_EDGE = 60 };

static struct {
    uint32_t files_accepted, files_refused, files_unread;
    uint32_t messages_accepted, messages_refused;
} sum;

/* The order's line number, its total and its currency. */
static void print_order(const walker *w, uint32_t order, uint32_t lin)
{
    uint64_t total = w->totals[order];

    printf("    order ");
    print_value(component(listed_segment(w, lin), 1, 1, w->m), w->m);
    printf(": %" PRIu64 ".%03" PRIu64 " ", total / 1000, total % 1000);
    print_value(currency_of(w, lin), w->m);
    putchar('\n');
}

static void print_accepted(const walker *w)
{
    const twineherald_report *report = &w->step.report;
    int advice = is_advice(w);

    printf("  accepted: %s", advice ? "debit advice, " : "");
    print_count(report->segments, "segment");
    printf(", ");
    print_count(report->orders, advice ? "debit" : "order");
    printf(", ");
    print_count(report->payments, advice ? "transaction" : "payment");
    printf("\n");
    if (advice)
        return;
    uint32_t lin = find_tag(w, 0, report->segments, "LIN");
    for (uint32_t order = 0; order < report->orders && lin < report->segments; order++) {
        print_order(w, order, lin);
        lin = find_tag(w, lin + 1, report->segments, "LIN");
    }
}

/* The segment, and a mark under the place. */
static void print_marked(slice segment, slice place)
{
    slice shown = shown_of(segment, (size_t)(place.first - segment.first), MOST_SHOWN);
    size_t before = (size_t)(place.first - shown.first);
    size_t end = shown.length < before + place.length ? shown.length : before + place.length;
    const char *cut = shown.first > segment.first ? "..." : "";

    printf("    %s", cut);
    int from = print_bytes(part_of(shown, 0, before)) + (int)strlen(cut);
    int width = print_bytes(part_of(shown, before, end));
    print_bytes(part_of(shown, end, shown.length));
    printf("%s\n    %*s", shown.first + shown.length < segment.first + segment.length ? "..." : "", from, "");
    for (int k = 0; k < width; k++)
        putchar('^');
    putchar('\n');
}

static void print_instead(const walker *w)
{
    static const char begin[] = "    Here could stand:";
    instead found[MOST_TAGS];
    size_t count = segments_instead(w, found);
    size_t column = strlen(begin);

    if (count == 0)
        return;
    printf("%s", begin);
    for (size_t k = 0; k < count; k++) {
        char words[32];
        int in_group = *found[k].group != '\0';
        int length = snprintf(words, sizeof words, "%s%s%s%s%s", found[k].tag, in_group ? " (" : "", found[k].group, in_group ? ")" : "",
                              k + 1 < count ? "," : "");
        column = print_word(column, words, (size_t)length, 4);
    }
    putchar('\n');
}

/* Where the refused segment stands, and the segment itself. */
static void print_where(const walker *w)
{
    const twineherald_report *report = &w->step.report;
    slice message = message_of(w);
    size_t start = refused_start(w);
    slice segment = segment_at(message, start, w->m);
    int is_byte = report->number == TWINEHERALD_BYTE;

    printf("    ");
    if (is_byte) {
        printf("byte ");
        print_bytes(part_of(message, report->offset, report->offset + 1));
        printf(" in ");
    }
    printf("segment %" PRIu32 ", at byte offset %" PRIu32 " of the message, %zu of the file:\n", report->segment, report->offset,
           (size_t)w->step.start + report->offset);
    print_marked(segment, place_in(segment, report->offset - start, is_byte, w->m));
}

static void print_refused(const walker *w)
{
    print_refusal("  ", w->step.report.number, 4);
    if (w->step.report.segment != 0)
        print_where(w);
    if (w->step.report.number == TWINEHERALD_PLACEMENT)
        print_instead(w);
    print_advice(w->step.report.number, 4);
}

/* Tells every message; gives the number of refusals. */
static uint32_t check_messages(walker *w)
{
    uint32_t refusals = 0;

    while (next_message(w)) {
        printf("Message %" PRIu32 ", at byte offset %" PRIu32 " of the file, %" PRIu32 " bytes long\n", w->place, w->step.start,
               w->step.end - w->step.start);
        if (is_accepted(w)) {
            print_accepted(w);
            sum.messages_accepted++;
            continue;
        }
        print_refused(w);
        sum.messages_refused++;
        refusals++;
    }
    if (!is_accepted(w)) {
        print_refusal("The rest of the file is ", w->step.report.number, 0);
        print_advice(w->step.report.number, 0);
        refusals++;
    }
    return refusals;
}

/* The segments outside of messages, as far as the walk keeps them. */
static void print_strays(const walker *w, uint32_t strays)
{
    for (uint32_t k = 0; k < w->strays_kept; k++) {
        slice segment = segment_at(w->file, w->strays[k], w->m);
        slice shown = shown_of(segment, 0, MOST_OF_STRAY);
        printf("    at byte offset %zu of the file: ", w->strays[k]);
        print_bytes(shown);
        printf("%s\n", shown.length < segment.length ? "..." : "");
    }
    if (strays > w->strays_kept)
        printf("    and %" PRIu32 " more\n", strays - w->strays_kept);
}

/* Tells how the file ends; gives 1 if something was found there, otherwise 0. */
static uint32_t check_closing(const walker *w)
{
    twineherald_closing closing = twineherald_close(w->file.first, w->file.length);

    printf("The file holds ");
    print_count(closing.messages, "message");
    printf(" and ");
    print_count(closing.strays, "segment");
    printf(" outside of messages.\n");
    print_strays(w, closing.strays);
    if (closing.number == TWINEHERALD_ACCEPTED) {
        printf("Closing: nothing found, the end of the file agrees with its beginning and its messages.\n");
        return 0;
    }
    print_refusal("Closing: ", closing.number, 0);
    print_advice(closing.number, 0);
    return 1;
}

/* The beginning of a file that does not open, or its end, if that is what is wrong. */
static void print_edge(slice file, int at_end)
{
    slice shown = shown_of(file, at_end ? file.length : 0, MOST_OF_EDGE);

    if (file.length == 0)
        return;
    printf("The file %s", at_end ? "ends with: " : "begins with: ");
    printf("%s", shown.first > file.first ? "..." : "");
    print_bytes(shown);
    printf("%s\n", shown.first + shown.length < file.first + file.length ? "..." : "");
}

int check_file(const char *path, slice file)
{
    uint32_t number = twineherald_open(file.first, file.length);
    uint32_t refusals = 1;
    walker w;

    printf("File %s\n", name_of(path));
    if (number != TWINEHERALD_ACCEPTED) {
        print_refusal("The whole file is ", number, 0);
        print_edge(file, number == TWINEHERALD_UNFINISHED);
        print_advice(number, 0);
    } else {
        if (!begin_walk(&w, file))
            return TROUBLE;
        refusals = check_messages(&w) + check_closing(&w);
        end_walk(&w);
    }
    printf("\n");
    if (refusals == 0)
        sum.files_accepted++;
    else
        sum.files_refused++;
    return refusals == 0 ? ALL_ACCEPTED : REFUSED;
}

void count_unread(void)
{
    sum.files_unread++;
}

void say_summary(void)
{
    print_count(sum.files_accepted + sum.files_refused + sum.files_unread, "file");
    printf(": %" PRIu32 " accepted, %" PRIu32 " refused", sum.files_accepted, sum.files_refused);
    if (sum.files_unread > 0)
        printf(", %" PRIu32 " not read", sum.files_unread);
    printf(". ");
    print_count(sum.messages_accepted + sum.messages_refused, "message");
    printf(": %" PRIu32 " accepted, %" PRIu32 " refused.\n", sum.messages_accepted, sum.messages_refused);
}
