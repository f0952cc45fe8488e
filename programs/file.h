/* The file that is looked at, and parts of it. */
#ifndef FILE_H
#define FILE_H

#include <stddef.h>
#include <stdint.h>

/* Some bytes: a whole file, a message, a segment or a value. */
typedef struct {
    const uint8_t *first;
    size_t length;
} slice;

/* The most bytes that a file may have. */
enum { MOST_BYTES = 1048576 };

/* Exit statuses. */
enum { ALL_ACCEPTED = 0, REFUSED = 1, TROUBLE = 2 };

/* What a file is called in words: by its path, or standard input. */
const char *name_of(const char *path);

/* Reads the file at path, standard input for "-": no more than one byte above MOST_BYTES, which is enough to be refused for. Gives 0,
 * with a word on standard error, if that fails; otherwise the bytes are the caller's to free. */
int read_file(const char *path, slice *file);

/* A word of trouble on standard error, after what was said so far. */
void say_trouble(const char *what, const char *of, const char *why);

slice part_of(slice whole, size_t start, size_t end);

#endif
