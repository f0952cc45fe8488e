/* What a segment of an accepted message says, in words: a label and its values. */
#ifndef FACTS_H
#define FACTS_H

#include "segments.h"

/* The label of a segment, by its tag and, where that has one, its qualifier. */
void put_label(slice segment, const char *tag, marks m);

/* Whether a segment has values to show. */
int has_values(slice segment, const char *tag, marks m);

/* The values of a segment, each with what goes before it or what it means; 'not given' if there are none. */
void put_values(slice segment, const char *tag, marks m);

/* The amount and the currency of an MOA. */
void put_amount(slice segment, marks m);

#endif
