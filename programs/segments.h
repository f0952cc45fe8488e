/* Segments of a file and the values in them. What is a message, and which row a segment lies in, only the library says. */
#ifndef SEGMENTS_H
#define SEGMENTS_H

#include "file.h"

/* The service characters. */
typedef struct {
    uint8_t component;
    uint8_t element;
    int has_release;
    uint8_t release;
    uint8_t terminator;
} marks;

/* Of a file whose service characters the library takes. */
marks marks_of(slice file);

/* How many bytes of the file are UNA with its characters: 9 or none. */
size_t una_length(slice file);

/* The position after CR and LF. */
size_t after_breaks(slice text, size_t at);

/* Where the first segment of a file begins. */
size_t first_segment(slice file);

/* The segment that begins at position at, its terminator included. */
slice segment_at(slice text, size_t at, marks m);

/* Where the next segment begins after the one that begins at position at. */
size_t next_segment(slice text, size_t at, marks m);

/* The components of a segment, one after the other. Elements are counted after the tag's own, which is 0, components from 1. */
typedef struct {
    slice segment;
    marks m;
    size_t next;
    uint32_t element;
    uint32_t component;
    slice found; /* as it stands there, releases included */
    uint8_t ended_by;
    int is_over;
} components;

components components_of(slice segment, marks m);

/* Goes on to the next component; 0 if there is none. */
int next_component(components *c);

/* The component of that place, empty if there is none. */
slice component(slice segment, uint32_t element, uint32_t number, marks m);

/* The next byte of a value, without its release, from *at on; -1 at the end. */
int next_byte(slice value, size_t *at, marks m);

/* Whether the value is that text. */
int is_text(slice value, const char *text, marks m);

/* Whether the value is so many digits. */
int is_digits(slice value, size_t count);

/* The bytes of a refused segment that are marked: the byte itself for a byte that may not stand there, otherwise the tag. */
slice place_in(slice segment, size_t place, int is_byte, marks m);

/* The part of a segment around a place in it that is shown: all of it, unless it is longer than most. */
slice shown_of(slice segment, size_t place, size_t most);

#endif
