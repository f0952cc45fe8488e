/* What the program can be asked for. Each gives an exit status. */
#ifndef COMMANDS_H
#define COMMANDS_H

#include "file.h"

/* Says in words what is found in one file. */
int check_file(const char *path, slice file);

/* Says how many files and messages were accepted and refused so far. */
void say_summary(void);

/* Counts a file that could not be read. */
void count_unread(void);

/* Writes the file as one page to read in a browser or on paper. */
int page_file(const char *path, slice file);

/* Writes the file in plain service characters. */
int rewrite_file(const char *path, slice file);

#endif
