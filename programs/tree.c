#include "tree.h"

#include <inttypes.h>
#include <stdio.h>
#include <string.h>

#include "facts.h"
#include "html.h"

/* Whether what segment k says stands in a heading already: UNH and UNT, LIN and SEQ if they have only their number, and the amount of
 * a payment. */
static int is_told_above(const walker *w, uint32_t k, level of)
{
    const chart *c = chart_of(w);
    const char *tag = c->rows[w->rows[k]].tag;

    if (strcmp(tag, "MOA") == 0)
        return of == OF_PAYMENT && !is_advice(w) && depth_of(c, w->rows[k]) == 0;
    if (strcmp(tag, "LIN") == 0 || strcmp(tag, "SEQ") == 0)
        return !has_values(listed_segment(w, k), tag, w->m);
    return strcmp(tag, "UNH") == 0 || strcmp(tag, "UNT") == 0;
}

/* What the segments of a level say, from k on, until another level begins or the segments end. Gives where that is. */
static uint32_t put_facts(const walker *w, uint32_t k, uint32_t end, level of)
{
    const chart *c = chart_of(w);
    int is_open = 0;

    for (; k < end && level_of(c, w->rows[k]) == of; k++) {
        const char *tag = c->rows[w->rows[k]].tag;
        unsigned depth = depth_of(c, w->rows[k]);
        slice segment = listed_segment(w, k);
        if (is_told_above(w, k, of))
            continue;
        fputs(is_open ? "" : "<dl class=\"facts\">\n", stdout);
        is_open = 1;
        printf("<div class=\"in%u\"><dt>", depth < 3 ? depth : 3);
        put_label(segment, tag, w->m);
        printf("</dt>\n<dd>");
        put_values(segment, tag, w->m);
        printf("</dd></div>\n");
    }
    fputs(is_open ? "</dl>\n" : "", stdout);
    return k;
}

/* Where the order or the payment that begins with segment k ends. */
static uint32_t end_of(const walker *w, uint32_t k, uint32_t end, level of)
{
    const chart *c = chart_of(w);
    const char *tag = of == OF_ORDER ? "LIN" : "SEQ";

    for (k++; k < end && level_of(c, w->rows[k]) >= of; k++)
        if (strcmp(c->rows[w->rows[k]].tag, tag) == 0)
            break;
    return k;
}

/* The amount as it is written in the first MOA from segment k on, if there is one before end. */
static void put_first_amount(const walker *w, uint32_t k, uint32_t end)
{
    uint32_t moa = find_tag(w, k, end, "MOA");

    if (moa == end || component(listed_segment(w, moa), 1, 2, w->m).length == 0)
        return;
    printf(" <span class=\"amount\">");
    put_amount(listed_segment(w, moa), w->m);
    printf("</span>");
}

/* The total that the library gives for an order, with its currency. */
static void put_total(const walker *w, uint32_t k, uint32_t order)
{
    printf(" <span class=\"total\">%" PRIu64 ".%03" PRIu64 " ", w->totals[order] / 1000, w->totals[order] % 1000);
    put_value(currency_of(w, k), w->m);
    printf("</span>");
}

/* The payment whose SEQ is segment k. */
static void put_payment(const walker *w, uint32_t k, uint32_t end)
{
    slice number = component(listed_segment(w, k), 2, 1, w->m);

    printf("<li class=\"payment\"><h4><span>%s ", is_advice(w) ? "Transaction" : "Payment");
    put_value(number, w->m);
    printf("%s</span>", number.length == 0 ? "without a number" : "");
    put_first_amount(w, k, end);
    printf("</h4>\n");
    put_facts(w, k, end, OF_PAYMENT);
    printf("</li>\n");
}

/* The order whose LIN is segment k. */
static void put_order(const walker *w, uint32_t k, uint32_t end, uint32_t order)
{
    printf("<li class=\"order\"><h3><span>%s ", is_advice(w) ? "Debit" : "Order");
    put_value(component(listed_segment(w, k), 1, 1, w->m), w->m);
    printf("</span>");
    if (is_advice(w))
        put_first_amount(w, k, end);
    else
        put_total(w, k, order);
    printf("</h3>\n");
    k = put_facts(w, k, end, OF_ORDER);
    printf("<ol class=\"payments\">\n");
    while (k < end) {
        uint32_t next = end_of(w, k, end, OF_PAYMENT);
        put_payment(w, k, next);
        k = next;
    }
    printf("</ol>\n</li>\n");
}

void put_tree(const walker *w)
{
    const twineherald_report *report = &w->step.report;
    const chart *c = chart_of(w);
    uint32_t k = put_facts(w, 0, report->segments, OF_MESSAGE);

    printf("<ol class=\"orders\">\n");
    for (uint32_t order = 0; k < report->segments && level_of(c, w->rows[k]) == OF_ORDER; order++) {
        uint32_t next = end_of(w, k, report->segments, OF_ORDER);
        put_order(w, k, next, order);
        k = next;
    }
    printf("</ol>\n");
    put_facts(w, k, report->segments, OF_MESSAGE);
}
