/* A small sending program over Twineherald, C11 and C++17: host FILE
 *
 * Says of each message of the file whether it is accepted, and how the file closes.
 * Exit status: 0 if everything was accepted, 1 if anything was refused, 2 if the program was called wrongly,
 * the file was not read or the answer not written.
 */
#include <inttypes.h>
#include <stdint.h>
#include <stdio.h>

#include <twineherald.h>

enum { ACCEPTED = 0, REFUSED = 1, TROUBLE = 2 };

/* The most that an interchange and an accepted message have. */
enum { MOST_BYTES = 1048576, MOST_SEGMENTS = 9999, MOST_ORDERS = 9999 };

static uint8_t bytes[MOST_BYTES + 1]; /* one more, so that a longer file is refused and not cut */
static uint16_t rows[MOST_SEGMENTS];
static uint32_t starts[MOST_SEGMENTS];
static uint64_t totals[MOST_ORDERS];

/* Reads the file into bytes; gives 1 if that went well. */
static int read_file(const char *path, size_t *length)
{
    FILE *in = fopen(path, "rb");

    if (in == NULL)
        return 0;
    *length = fread(bytes, 1, sizeof bytes, in);
    int well = !ferror(in);
    fclose(in);
    return well;
}

static void print_accepted(const twineherald_report *report)
{
    /* The last segment is the UNT, in the last row of the chart of an order or of an advice. */
    int advice = rows[report->segments - 1] == TWINEHERALD_DEBMUL_ROWS;

    printf("accepted %s, %" PRIu32 " segments, %" PRIu32 " LIN, %" PRIu32 " SEQ%s",
           advice ? "advice" : "order", report->segments, report->orders, report->payments, advice ? "" : ", totals");
    for (uint32_t k = 0; !advice && k < report->orders; k++) /* of an advice no totals are written */
        printf(" %" PRIu64 ".%03" PRIu64, totals[k] / 1000, totals[k] % 1000);
    printf("\n");
}

/* A line for each message; gives ACCEPTED if all of them are. */
static int check_messages(size_t length)
{
    int status = ACCEPTED;
    size_t at = 0;

    for (int place = 1;; place++) {
        twineherald_step step = twineherald_walk(bytes, length, at, rows, MOST_SEGMENTS,
                                                 starts, MOST_SEGMENTS, totals, MOST_ORDERS);
        if (step.found == 0) /* no message is left, or the walk itself is refused */
            return step.report.number == 0 ? status : REFUSED;
        printf("message %d: ", place);
        if (step.report.number == 0) {
            print_accepted(&step.report);
        } else {
            printf("refused, number %" PRIu32 ", segment %" PRIu32 ", offset %" PRIu32 "\n",
                   step.report.number, step.report.segment, step.report.offset);
            status = REFUSED;
        }
        at = step.end;
    }
}

static int check(size_t length)
{
    uint32_t opening = twineherald_open(bytes, length);

    if (opening != 0) {
        printf("file: refused, number %" PRIu32 "\n", opening);
        return REFUSED;
    }
    int status = check_messages(length);
    twineherald_closing closing = twineherald_close(bytes, length);
    printf("closing: %" PRIu32 " messages, %" PRIu32 " strays, number %" PRIu32 "\n",
           closing.messages, closing.strays, closing.number);
    return closing.number == 0 ? status : REFUSED;
}

int main(int argc, char **argv)
{
    size_t length = 0;

    if (argc != 2 || !read_file(argv[1], &length)) {
        fprintf(stderr, "%s\n", argc != 2 ? "usage: host FILE" : "host: cannot read the file");
        return TROUBLE;
    }
    int status = check(length);
    if (!ferror(stdout) && fclose(stdout) == 0)
        return status;
    fprintf(stderr, "host: cannot write the answer\n");
    return TROUBLE;
}
