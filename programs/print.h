/* Words and bytes on a terminal. */
#ifndef PRINT_H
#define PRINT_H

#include "segments.h"

/* So many of these. */
void print_count(uint32_t count, const char *what);

/* A word after a blank, on a new line of indent blanks if it does not fit on this one; gives the column after it. */
size_t print_word(size_t column, const char *word, size_t length, size_t indent);

/* What is wrong by a refusal's number, after these words, and what to do about it. */
void print_refusal(const char *begin, uint32_t number, size_t indent);

void print_advice(uint32_t number, size_t indent);

/* The bytes, those outside plain text as \xNN; gives how many columns they take. */
int print_bytes(slice bytes);

/* A value, without its releases. */
void print_value(slice value, marks m);

#endif
