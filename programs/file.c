#include "file.h"

#include <errno.h>
#include <stdio.h>
#include <stdlib.h>
#include <string.h>

const char *name_of(const char *path)
{
    return strcmp(path, "-") == 0 ? "standard input" : path;
}

void say_trouble(const char *what, const char *of, const char *why)
{
    fflush(stdout);
    fprintf(stderr, "twineherald: %s%s%s%s%s\n", what, *of == '\0' ? "" : " ", of, *why == '\0' ? "" : ": ", why);
}

static const char *reason(void)
{
    return errno != 0 ? strerror(errno) : "it cannot be read";
}

int read_file(const char *path, slice *file)
{
    uint8_t *bytes = malloc(MOST_BYTES + 1);
    int is_input = strcmp(path, "-") == 0;

    if (bytes == NULL) {
        say_trouble("not enough memory", "", "");
        return 0;
    }
    errno = 0;
    FILE *in = is_input ? stdin : fopen(path, "rb");
    size_t length = in == NULL ? 0 : fread(bytes, 1, MOST_BYTES + 1, in);
    int is_read = in != NULL && !ferror(in);
    if (!is_read) {
        say_trouble("cannot read", name_of(path), reason());
        free(bytes);
    }
    if (in != NULL && !is_input)
        fclose(in);
    if (is_read)
        *file = (slice){bytes, length};
    return is_read;
}

slice part_of(slice whole, size_t start, size_t end)
{
    return (slice){whole.first + start, end - start};
}
