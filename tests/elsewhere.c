/* The calls that the desk's program makes, for a machine that cannot run the library itself: each call is made by the
 * comparison's driver in a process of its own. TWINEHERALD_DRIVER is the command that starts it. So the program runs under this
 * machine's own sanitizers, which also see every byte that is read or written here of what the program lent. */
#define _POSIX_C_SOURCE 200809L
#include <fcntl.h>
#include <stdio.h>
#include <stdlib.h>
#include <string.h>
#include <sys/wait.h>
#include <unistd.h>

#include "../include/twineherald.h"

enum { LETTER = 1, NUMBER = 4, REPORT = 6 };

static void fail(const char *what)
{
    fprintf(stderr, "elsewhere: %s\n", what);
    abort();
}

/* A call under way: a request is written to ask, then the answer is read from told. */
typedef struct {
    FILE *ask;
    FILE *told;
    pid_t process;
} call;

static void put_number(FILE *f, uint64_t number, int size)
{
    for (int i = 0; i < size; i++)
        putc((int)(number >> 8 * i & 0xFF), f);
}

static void put_bytes(FILE *f, const uint8_t *bytes, size_t length)
{
    if (length > 0 && fwrite(bytes, 1, length, f) != length)
        fail("cannot write");
}

/* Looks at all that the program says it lends for output: a pointer that is not valid for its length is seen here. */
static void lent(const void *list, size_t size)
{
    const volatile uint8_t *bytes = list;
    for (size_t i = 0; i < size; i++)
        (void)bytes[i];
}

static void lent_lists(const uint16_t *rows, size_t r, const uint32_t *starts, size_t s, const uint64_t *totals, size_t t)
{
    lent(rows, r * sizeof *rows);
    lent(starts, s * sizeof *starts);
    lent(totals, t * sizeof *totals);
}

/* A pipe whose ends are none of the standard streams, of which one may be closed. */
static void open_pipe(int ends[2])
{
    if (pipe(ends) != 0)
        fail("no pipe");
    for (int i = 0; i < 2; i++) {
        int end = fcntl(ends[i], F_DUPFD, 3);
        close(ends[i]);
        ends[i] = end;
    }
    if (ends[0] < 0 || ends[1] < 0)
        fail("no pipe");
}

/* Starts a call; the bytes are lent first. */
static call begin(const uint8_t *bytes, size_t length)
{
    int in[2], out[2];
    open_pipe(in);
    open_pipe(out);
    call c = {NULL, NULL, fork()};
    if (c.process < 0)
        fail("no process");
    if (c.process == 0) {
        const char *driver = getenv("TWINEHERALD_DRIVER");
        dup2(in[0], 0);
        dup2(out[1], 1);
        close(in[0]), close(in[1]), close(out[0]), close(out[1]);
        if (driver != NULL)
            execl("/bin/sh", "sh", "-c", driver, (char *)NULL);
        _exit(127);
    }
    close(in[0]), close(out[1]);
    c.ask = fdopen(in[1], "wb");
    c.told = fdopen(out[0], "rb");
    if (c.ask == NULL || c.told == NULL)
        fail("no stream");
    putc('B', c.ask), putc(0, c.ask);
    put_number(c.ask, length, NUMBER);
    put_bytes(c.ask, bytes, length);
    return c;
}

static uint64_t take_number(call c, int size)
{
    uint64_t number = 0;
    for (int i = 0; i < size; i++) {
        int byte = getc(c.told);
        if (byte == EOF)
            fail("no answer");
        number |= (uint64_t)byte << 8 * i;
    }
    return number;
}

/* The request is whole: the answer begins with its letter. */
static void ask(call c, char letter)
{
    if (fclose(c.ask) != 0)
        fail("cannot ask");
    if (take_number(c, LETTER) != (uint64_t)letter)
        fail("another answer");
}

static void end(call c)
{
    int status = 0;
    if (getc(c.told) != EOF)
        fail("more than an answer");
    fclose(c.told);
    if (waitpid(c.process, &status, 0) != c.process || status != 0)
        fail("the call ended badly");
}

static void take(call c, void *list, size_t size)
{
    if (size > 0 && fread(list, 1, size, c.told) != size)
        fail("an answer is cut short");
}

/* Whether what was lent for output changed; the driver fills it with a pattern of its own, so a list is taken over only as far
 * as the answer counts. */
static int changed(call c)
{
    uint64_t flag = take_number(c, LETTER);
    if (flag > 1)
        fail("bytes beside a list changed");
    return flag == 1;
}

static twineherald_report take_report(call c)
{
    uint32_t n[REPORT];
    for (int i = 0; i < REPORT; i++)
        n[i] = (uint32_t)take_number(c, NUMBER);
    return (twineherald_report){n[0], n[1], n[2], n[3], n[4], n[5]};
}

/* Takes a list of which the first count entries were written. */
static void take_list(call c, void *list, size_t size, size_t length, size_t count)
{
    uint8_t *all = malloc(size * length + 1);
    if (all == NULL || count > length)
        fail("a list is too short");
    take(c, all, size * length);
    if (count > 0)
        memcpy(list, all, size * count);
    free(all);
}

static void take_lists(call c, twineherald_report report, uint16_t *rows, size_t r, uint32_t *starts, size_t s, uint64_t *totals, size_t t)
{
    if (!changed(c))
        return;
    take_list(c, rows, sizeof *rows, r, report.segments);
    take_list(c, starts, sizeof *starts, s, report.segments);
    take_list(c, totals, sizeof *totals, t, report.orders);
}

uint32_t twineherald_open(const uint8_t *bytes, size_t length)
{
    call c = begin(bytes, length);
    putc('o', c.ask);
    ask(c, 'o');
    uint32_t number = (uint32_t)take_number(c, NUMBER);
    end(c);
    return number;
}

twineherald_step twineherald_walk(const uint8_t *bytes, size_t length, size_t at, uint16_t *rows, size_t rows_length, uint32_t *starts,
                                  size_t starts_length, uint64_t *totals, size_t totals_length)
{
    lent_lists(rows, rows_length, starts, starts_length, totals, totals_length);
    call c = begin(bytes, length);
    putc('w', c.ask), putc(0, c.ask);
    put_number(c.ask, at, 8);
    put_number(c.ask, rows_length, NUMBER), put_number(c.ask, starts_length, NUMBER), put_number(c.ask, totals_length, NUMBER);
    ask(c, 'w');
    uint32_t found = (uint32_t)take_number(c, NUMBER), start = (uint32_t)take_number(c, NUMBER), stop = (uint32_t)take_number(c, NUMBER);
    twineherald_step step = {found, start, stop, take_report(c)};
    take_lists(c, step.report, rows, rows_length, starts, starts_length, totals, totals_length);
    end(c);
    return step;
}

uint32_t twineherald_walk_each(const uint8_t *bytes, size_t length, const size_t *positions, size_t positions_length, twineherald_step *answers,
                               size_t answers_length)
{
    lent(answers, answers_length * sizeof *answers);
    call c = begin(bytes, length);
    putc('e', c.ask), putc(0, c.ask);
    put_number(c.ask, positions_length, NUMBER), put_number(c.ask, answers_length, NUMBER);
    for (size_t i = 0; i < positions_length; i++)
        put_number(c.ask, positions[i], 8);
    ask(c, 'e');
    uint32_t number = (uint32_t)take_number(c, NUMBER);
    if (changed(c))
        take_list(c, answers, sizeof *answers, answers_length, positions_length);
    end(c);
    return number;
}

twineherald_closing twineherald_close(const uint8_t *bytes, size_t length)
{
    call c = begin(bytes, length);
    putc('c', c.ask);
    ask(c, 'c');
    uint32_t number = (uint32_t)take_number(c, NUMBER), messages = (uint32_t)take_number(c, NUMBER), strays = (uint32_t)take_number(c, NUMBER);
    end(c);
    return (twineherald_closing){number, messages, strays};
}

twineherald_rewriting twineherald_rewrite(const uint8_t *bytes, size_t length, uint8_t *room, size_t room_length)
{
    lent(room, room_length);
    call c = begin(bytes, length);
    putc('r', c.ask), putc(0, c.ask);
    put_number(c.ask, room_length, NUMBER);
    ask(c, 'r');
    uint32_t number = (uint32_t)take_number(c, NUMBER), written = (uint32_t)take_number(c, NUMBER);
    if (changed(c))
        take_list(c, room, 1, room_length, written);
    end(c);
    return (twineherald_rewriting){number, written};
}
