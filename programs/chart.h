/* The published charts of an order (PAYMUL) and of an advice (DEBMUL), to name rows of them. Where a segment lies, the library says. */
#ifndef CHART_H
#define CHART_H

#include <stddef.h>
#include <stdint.h>

typedef struct {
    const char *name; /* of a group SG and its number, otherwise the tag */
    const char *tag;
    uint16_t parent; /* the row of the group that it stands in; 0 is the message */
    char status;
    uint16_t repeats;
} chart_row;

/* Rows are numbered from 1, as in the library's lists; entry 0 is the message. */
typedef struct {
    const chart_row *rows;
    uint16_t last;
} chart;

extern const chart order_chart;
extern const chart advice_chart;

/* What a row belongs to: the message itself, an order (or a debit), a payment (or a transaction). */
typedef enum { OF_MESSAGE, OF_ORDER, OF_PAYMENT } level;

level level_of(const chart *c, uint16_t row);

/* How many groups stand between a row and the order, the payment or the message that it belongs to; the first segment of a group
 * stands for the group. */
unsigned depth_of(const chart *c, uint16_t row);

/* The name of the group that a row stands in, empty in the message itself. */
const char *group_of(const chart *c, uint16_t row);

enum { MOST_OPEN = 12, MOST_NEXT = 256 };

/* Where a message has come to: the rows that are open, the last segment's own included, and how often each has come. */
typedef struct {
    size_t open;
    uint16_t rows[MOST_OPEN];
    uint16_t times[MOST_OPEN];
} position;

/* The rows of segments that may come next, of the innermost group first; gives their number. At an empty position that is the UNH. */
size_t next_rows(const chart *c, const position *p, uint16_t rows[MOST_NEXT]);

/* Goes on by a segment of that tag; 0 if no row of it may come next. On these charts at most one may. */
int go_on(const chart *c, position *p, const char *tag);

#endif
