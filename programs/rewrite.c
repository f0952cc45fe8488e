#include <inttypes.h>
#include <stdio.h>
#include <stdlib.h>

#include "../include/twineherald.h"
#include "commands.h"
#include "refusals.h"

int rewrite_file(const char *path, slice file)
{
    uint8_t *room = malloc(MOST_BYTES);

    if (room == NULL) {
        say_trouble("not enough memory", "", "");
        return TROUBLE;
    }
    twineherald_rewriting done = twineherald_rewrite(file.first, file.length, room, MOST_BYTES);
    if (done.number == TWINEHERALD_ACCEPTED)
        fwrite(room, 1, done.length, stdout);
    else
        fprintf(stderr, "twineherald: %s: refused, number %" PRIu32 ": %s %s\n", name_of(path), done.number, says(done.number),
                advice_on(done.number));
    free(room);
    return done.number == TWINEHERALD_ACCEPTED ? ALL_ACCEPTED : REFUSED;
}
