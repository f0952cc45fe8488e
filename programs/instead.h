/* Which segments could stand where a message leaves its chart (16). */
#ifndef INSTEAD_H
#define INSTEAD_H

#include "walker.h"

enum { MOST_TAGS = 64 };

/* A segment that could stand there: its tag, and the group of the guide that it would stand in, empty in the message itself. */
typedef struct {
    const char *tag;
    const char *group;
} instead;

/* Of the message that was found last, refused with 16; gives their number. Which tags can stand there the library says: for each tag
 * of the chart it is asked about the message up to that place with such a segment. Only the group's name is from the chart. */
size_t segments_instead(const walker *w, instead found[MOST_TAGS]);

#endif
