#include "chart.h"

#include <string.h>

static const chart_row order_rows[] = {
    {"", "UNH", 0, 'M', 1},
#include "paymul.inc"
};

static const chart_row advice_rows[] = {
    {"", "UNH", 0, 'M', 1},
#include "debmul.inc"
};

const chart order_chart = {order_rows, sizeof order_rows / sizeof *order_rows - 1};
const chart advice_chart = {advice_rows, sizeof advice_rows / sizeof *advice_rows - 1};

static int is_group(const chart_row *row)
{
    return strcmp(row->name, row->tag) != 0;
}

level level_of(const chart *c, uint16_t row)
{
    for (uint16_t group = c->rows[row].parent; group != 0; group = c->rows[group].parent) {
        if (strcmp(c->rows[group].tag, "SEQ") == 0)
            return OF_PAYMENT;
        if (strcmp(c->rows[group].tag, "LIN") == 0)
            return OF_ORDER;
    }
    return OF_MESSAGE;
}

unsigned depth_of(const chart *c, uint16_t row)
{
    level own = level_of(c, row);
    uint16_t group = c->rows[row].parent;
    unsigned depth = group + 1 == row ? 0 : 1;

    for (; group != 0 && level_of(c, group) == own; group = c->rows[group].parent)
        depth++;
    return depth == 0 ? 0 : depth - 1;
}

const char *group_of(const chart *c, uint16_t row)
{
    return c->rows[c->rows[row].parent].name;
}

/* The next row after it in the same group, 0 if there is none. */
static uint16_t sibling_after(const chart *c, uint16_t row)
{
    for (uint16_t next = row + 1; next <= c->last; next++)
        if (c->rows[next].parent == c->rows[row].parent)
            return next;
    return 0;
}

/* The row of the segment that a row begins with. */
static uint16_t trigger_of(const chart *c, uint16_t row)
{
    return is_group(&c->rows[row]) ? row + 1 : row;
}

/* Rows that may come in place of another one of the open row at that depth, or after it in the same group: each, or only the first
 * segments of these rows, into rows. Gives their number, and whether a required one bars what comes after the group. */
static size_t next_at(const chart *c, const position *p, size_t depth, uint16_t *rows, int *is_barred)
{
    uint16_t row = p->rows[depth];
    size_t count = 0;

    *is_barred = 0;
    if (p->times[depth] < c->rows[row].repeats)
        rows[count++] = row;
    while (!*is_barred && (row = sibling_after(c, row)) != 0) {
        if (c->rows[row].status == 'N')
            continue;
        rows[count++] = row;
        *is_barred = c->rows[row].status == 'M' || c->rows[row].status == 'R';
    }
    return count;
}

size_t next_rows(const chart *c, const position *p, uint16_t rows[MOST_NEXT])
{
    size_t count = 0;
    int is_barred = 0;

    if (p->open == 0)
        rows[count++] = 1;
    for (size_t depth = p->open; depth > 0 && !is_barred; depth--)
        count += next_at(c, p, depth - 1, rows + count, &is_barred);
    for (size_t k = 0; k < count; k++)
        rows[k] = trigger_of(c, rows[k]);
    return count;
}

/* Opens a row at that depth, which ends what was open there and deeper. */
static void open_row(const chart *c, position *p, size_t depth, uint16_t row)
{
    int again = depth < p->open && p->rows[depth] == row;

    p->times[depth] = again ? p->times[depth] + 1 : 1;
    p->rows[depth] = row;
    p->open = depth + 1;
    if (is_group(&c->rows[row]) && p->open < MOST_OPEN)
        open_row(c, p, p->open, row + 1);
}

int go_on(const chart *c, position *p, const char *tag)
{
    uint16_t rows[MOST_NEXT];
    int is_barred = 0;

    if (p->open == 0) {
        open_row(c, p, 0, 1);
        return strcmp(tag, "UNH") == 0;
    }
    for (size_t depth = p->open; depth > 0 && !is_barred; depth--) {
        size_t count = next_at(c, p, depth - 1, rows, &is_barred);
        for (size_t k = 0; k < count; k++) {
            if (strcmp(c->rows[rows[k]].tag, tag) != 0)
                continue;
            open_row(c, p, depth - 1, rows[k]);
            return 1;
        }
    }
    return 0;
}
