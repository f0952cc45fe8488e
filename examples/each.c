/* A sending program over Twineherald that puts its file together itself, C11 and C++17: each
 *
 * It knows where its messages begin, so it asks for all of them in one call before it sends anything. The
 * second is refused here: the order says 310, and its payments add up to 310.5.
 * Exit status: 0 if everything was accepted, 1 if anything was refused, 2 if the answer was not written.
 */
#include <inttypes.h>
#include <stdint.h>
#include <stdio.h>
#include <stdlib.h>
#include <string.h>

#include <twineherald.h>

#define ORDER "BGM+452+KWT71+9'DTM+137:20240320:102'LIN+1'DTM+203:20240322:102'RFF+AEK:KWT71'"
#define FUND "FII+OR+DE00400500600700800900:KISIMA WATER TRUST'"
#define DIGGERS "FII+BF+DE00500600700800900100:HILL WELL DIGGERS'"
#define MASONS "FII+BF+DE00700800900100200300:STONE MASONS GUILD'"

enum { MESSAGES = 3 };

static const char *const messages[MESSAGES] = {
    "UNH+1+PAYMUL:D:96A:UN'" ORDER "MOA+9:640:EUR'" FUND
    "SEQ++1'MOA+9:640:EUR'RFF+CR:KWT71-1'" DIGGERS "CNT+2:1'UNT+14+1'",
    "UNH+2+PAYMUL:D:96A:UN'" ORDER "MOA+9:310:EUR'" FUND
    "SEQ++1'MOA+9:300:EUR'RFF+CR:KWT71-2'" DIGGERS
    "SEQ++2'MOA+9:10,5:EUR'RFF+CR:KWT71-3'" MASONS "CNT+2:1'UNT+18+2'",
    "UNH+3+PAYMUL:D:96A:UN'" ORDER "MOA+9:75,25:EUR'" FUND
    "SEQ++1'MOA+9:75,25:EUR'RFF+CR:KWT71-4'" MASONS "CNT+2:1'UNT+14+3'",
};

static uint8_t bytes[4096];
static size_t length;

/* Puts a text at the end of the file; gives the position where it begins. */
static size_t add(const char *text)
{
    size_t at = length;

    if (strlen(text) > sizeof bytes - length)
        abort(); /* cannot be: all texts together are shorter */
    memcpy(bytes + at, text, strlen(text));
    length += strlen(text);
    return at;
}

int main(void)
{
    size_t positions[MESSAGES];
    twineherald_step answers[MESSAGES];
    int refused = 0;

    add("UNB+UNOC:3+CLEANWELLS+ORDERBANK+240320:0705+KWT71'");
    for (int k = 0; k < MESSAGES; k++)
        positions[k] = add(messages[k]);
    add("UNZ+3+KWT71'");
    /* never refused: there are as many answers as positions */
    twineherald_walk_each(bytes, length, positions, MESSAGES, answers, MESSAGES);
    for (int k = 0; k < MESSAGES; k++) {
        twineherald_report told = answers[k].report;
        if (told.number == 0)
            printf("message %d: accepted, %" PRIu32 " segments, %" PRIu32 " LIN, %" PRIu32 " SEQ\n",
                   k + 1, told.segments, told.orders, told.payments);
        else
            printf("message %d: refused, number %" PRIu32 ", segment %" PRIu32 ", offset %" PRIu32 "\n",
                   k + 1, told.number, told.segment, told.offset);
        refused += told.number != 0 || answers[k].start != positions[k];
    }
    refused += twineherald_close(bytes, length).number != 0; /* opening is looked at again in it */
    printf("%s\n", refused == 0 ? "to be sent" : "not to be sent");
    if (!ferror(stdout) && fclose(stdout) == 0)
        return refused == 0 ? 0 : 1;
    fprintf(stderr, "each: cannot write the answer\n");
    return 2;
}
