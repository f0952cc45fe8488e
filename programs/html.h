/* Text for a page: plain ASCII, everything from a file escaped. */
#ifndef HTML_H
#define HTML_H

#include "segments.h"

/* Bytes as they stand in the file: as Latin 1 where that has a letter for one, otherwise as \xNN. */
void put_bytes(slice bytes);

/* A value, without its releases. */
void put_value(slice value, marks m);

/* Words of the program itself. */
void put_words(const char *words);

/* The name of a file: UTF-8 as its letters, any other byte as \xNN. */
void put_name(const char *name);

/* So many of these. */
void put_count(uint32_t count, const char *what);

/* What is wrong by a refusal's number, and what to do about it, a paragraph each. */
void put_refusal(uint32_t number);
void put_advice(uint32_t number);

/* Dots where something was cut off. */
void put_cut(int is_cut);

/* Some bytes, cut around a place in them if they are more than most. */
void put_shown(slice bytes, size_t place, size_t most);

#endif
