#include <inttypes.h>
#include <stdio.h>

#include "commands.h"
#include "html.h"
#include "refused.h"
#include "tree.h"

enum { MOST_SHOWN = 100 };

static const char style[] =
#include "style.inc"
    ;

static void put_message(const walker *w)
{
    const twineherald_report *report = &w->step.report;
    int accepted = is_accepted(w);
    int advice = is_advice(w);

    printf("<section class=\"message %s\" data-place=\"%" PRIu32 "\"", accepted ? "accepted" : "refused", w->place);
    if (accepted)
        printf(" data-kind=\"%s\">\n", advice ? "advice" : "order");
    else
        printf(" data-number=\"%" PRIu32 "\" data-segment=\"%" PRIu32 "\" data-offset=\"%" PRIu32 "\">\n", report->number, report->segment,
               report->offset);
    printf("<div class=\"head\"><h2>Message %" PRIu32 "%s</h2>\n<p class=\"word\">%s</p></div>\n<p class=\"counts\">", w->place,
           !accepted ? "" : advice ? ": debit advice" : ": payment orders", accepted ? "accepted" : "refused");
    printf("Reference ");
    put_value(component(segment_at(message_of(w), 0, w->m), 1, 1, w->m), w->m);
    if (accepted) {
        printf(", ");
        put_count(report->segments, "segment");
        printf(", ");
        put_count(report->orders, advice ? "debit" : "order");
        printf(", ");
        put_count(report->payments, advice ? "transaction" : "payment");
    }
    printf(", at byte offset %" PRIu32 " of the file</p>\n", w->step.start);
    if (accepted)
        put_tree(w);
    else
        put_refused(w);
    printf("</section>\n");
}

/* The segments outside of messages, as far as the walk keeps them. */
static void put_strays(const walker *w, uint32_t strays)
{
    if (w->strays_kept == 0)
        return;
    printf("<ul class=\"strays\">\n");
    for (uint32_t k = 0; k < w->strays_kept; k++) {
        printf("<li>At byte offset %zu of the file: ", w->strays[k]);
        put_shown(segment_at(w->file, w->strays[k], w->m), 0, MOST_SHOWN);
        printf("</li>\n");
    }
    if (strays > w->strays_kept)
        printf("<li>and %" PRIu32 " more</li>\n", strays - w->strays_kept);
    printf("</ul>\n");
}

static void put_closing(const walker *w, twineherald_closing closing)
{
    int accepted = closing.number == TWINEHERALD_ACCEPTED;

    printf("<footer class=\"closing %s\" data-messages=\"%" PRIu32 "\" data-strays=\"%" PRIu32 "\" data-number=\"%" PRIu32 "\">\n",
           accepted ? "accepted" : "refused", closing.messages, closing.strays, closing.number);
    printf("<div class=\"head\"><h2>The end of the file</h2>\n<p class=\"word\">%s</p></div>\n<p>The file holds ",
           accepted ? "accepted" : "refused");
    put_count(closing.messages, "message");
    printf(" and ");
    put_count(closing.strays, "segment");
    printf(" outside of messages.%s</p>\n", accepted ? " Its end agrees with its beginning and its messages." : "");
    put_strays(w, closing.strays);
    if (!accepted) {
        put_refusal(closing.number);
        put_advice(closing.number);
    }
    printf("</footer>\n");
}

static void put_fact(const char *label, slice value, marks m)
{
    printf("<div><dt>%s</dt>\n<dd>", label);
    put_value(value, m);
    printf("</dd></div>\n");
}

/* The UNB's date, six digits, and time, four, taken apart; as they are if they are something else. */
static void put_date_and_time(slice date, slice time, marks m)
{
    const char *d = (const char *)date.first;
    const char *t = (const char *)time.first;

    printf("<div><dt>Date (year first)</dt>\n<dd>");
    if (is_digits(date, 6) && is_digits(time, 4)) {
        printf("%.2s-%.2s-%.2s, %.2s:%.2s", d, d + 2, d + 4, t, t + 2);
    } else {
        put_value(date, m);
        putchar(' ');
        put_value(time, m);
    }
    printf("</dd></div>\n");
}

/* What the UNB says. */
static void put_envelope(slice file, marks m)
{
    slice unb = segment_at(file, first_segment(file), m);

    printf("<dl class=\"envelope\">\n");
    put_fact("From", component(unb, 2, 1, m), m);
    put_fact("To", component(unb, 3, 1, m), m);
    put_date_and_time(component(unb, 4, 1, m), component(unb, 4, 2, m), m);
    put_fact("Reference", component(unb, 5, 1, m), m);
    printf("</dl>\n");
}

static void put_head(const char *path, int accepted, const char *verdict)
{
    printf("<!DOCTYPE html>\n<html lang=\"en\">\n<head>\n<meta charset=\"utf-8\">\n"
           "<meta name=\"viewport\" content=\"width=device-width, initial-scale=1\">\n<title>");
    put_name(name_of(path));
    printf(": %s</title>\n<style>\n%s</style>\n</head>\n<body>\n<header class=\"file\">\n<h1>", accepted ? "accepted" : "refused", style);
    put_name(name_of(path));
    printf("</h1>\n<p class=\"verdict %s\">%s</p>\n", accepted ? "accepted" : "refused", verdict);
}

/* The beginning or the end of a file that does not open. */
static void put_unopened(const char *path, slice file, uint32_t number)
{
    int at_end = number == TWINEHERALD_UNFINISHED;

    put_head(path, 0, "Refused: the whole file.");
    printf("</header>\n<main>\n<section class=\"opening refused\" data-number=\"%" PRIu32 "\">\n<h2>The file does not open</h2>\n", number);
    put_refusal(number);
    if (file.length > 0) {
        printf("<p class=\"where\">The file %s ", at_end ? "ends with" : "begins with");
        put_shown(file, at_end ? file.length : 0, MOST_SHOWN);
        printf("</p>\n");
    }
    put_advice(number);
    printf("</section>\n</main>\n");
}

/* How many messages are refused, and whether the rest is. */
static uint32_t count_refused(walker *w)
{
    uint32_t refused = 0;

    while (next_message(w))
        refused += !is_accepted(w);
    return refused + !is_accepted(w);
}

static void put_verdict(const char *path, uint32_t messages, uint32_t refused, uint32_t closing)
{
    int accepted = refused == 0 && closing == TWINEHERALD_ACCEPTED;
    char verdict[160];

    if (accepted)
        snprintf(verdict, sizeof verdict, "Accepted: %s.",
                 messages == 0 ? "the file, which holds no message" : "every message, and the file as a whole");
    else if (refused == 0)
        snprintf(verdict, sizeof verdict, "Refused: the file as a whole, see its end.%s",
                 messages == 0 ? "" : " Each message by itself is accepted.");
    else
        snprintf(verdict, sizeof verdict, "Refused: %" PRIu32 " of %" PRIu32 " message%s%s.", refused, messages, messages == 1 ? "" : "s",
                 closing == TWINEHERALD_ACCEPTED ? "" : ", and the file as a whole, see its end");
    put_head(path, accepted, verdict);
}

/* The page of a file that opens; gives whether anything is refused. */
static int put_file(const char *path, walker *w)
{
    twineherald_closing closing = twineherald_close(w->file.first, w->file.length);
    uint32_t refused = count_refused(w);

    put_verdict(path, w->place, refused, closing.number);
    put_envelope(w->file, w->m);
    printf("</header>\n<main>\n");
    walk_again(w);
    while (next_message(w))
        put_message(w);
    if (!is_accepted(w)) {
        printf("<section class=\"rest refused\" data-number=\"%" PRIu32 "\">\n<h2>The rest of the file</h2>\n", w->step.report.number);
        put_refusal(w->step.report.number);
        put_advice(w->step.report.number);
        printf("</section>\n");
    }
    printf("</main>\n");
    put_closing(w, closing);
    return refused > 0 || closing.number != TWINEHERALD_ACCEPTED;
}

int page_file(const char *path, slice file)
{
    uint32_t number = twineherald_open(file.first, file.length);
    int is_refused = 1;
    walker w;

    if (number != TWINEHERALD_ACCEPTED) {
        put_unopened(path, file, number);
    } else {
        if (!begin_walk(&w, file))
            return TROUBLE;
        is_refused = put_file(path, &w);
        end_walk(&w);
    }
    printf("</body>\n</html>\n");
    return is_refused ? REFUSED : ALL_ACCEPTED;
}
