/* The walk over the messages of a file, with the lists that the library fills for an accepted one. */
#ifndef WALKER_H
#define WALKER_H

#include "../include/twineherald.h"
#include "chart.h"
#include "segments.h"

enum { MOST_STRAYS = 10 };

typedef struct {
    slice file;
    marks m;
    uint16_t *rows;
    uint32_t *starts;
    uint64_t *totals;
    uint32_t place; /* of the message that was found last; the first is 1 */
    twineherald_step step;
    uint32_t strays_kept;
    size_t strays[MOST_STRAYS]; /* where the first segments begin that the walk found outside of messages */
} walker;

/* At the front of a file that opens. 0, with a word on standard error, if there is no memory for the lists. */
int begin_walk(walker *w, slice file);
void end_walk(walker *w);

/* Goes back to the front. */
void walk_again(walker *w);

/* Finds the next message; 0 if none is left, or if the rest is refused (step.report.number). */
int next_message(walker *w);

int is_accepted(const walker *w);

/* The message that was found. */
slice message_of(const walker *w);

/* Its chart: of an accepted message by its last row, of a refused one by the type in its UNH. */
const chart *chart_of(const walker *w);
int is_advice(const walker *w);

/* Segment k of an accepted message, from 0 on. */
slice listed_segment(const walker *w, uint32_t k);

/* The first segment of that tag from k on and before end, of an accepted message; end if there is none. */
uint32_t find_tag(const walker *w, uint32_t k, uint32_t end, const char *tag);

/* The currency of the order whose LIN is segment k: that of the order's own amount, its first MOA. */
slice currency_of(const walker *w, uint32_t k);

/* Where the refused segment begins in its message. */
size_t refused_start(const walker *w);

#endif
