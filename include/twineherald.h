/* Twineherald: checks PAYMUL D.96A payment files before a bank sees them, and the bank's debit advices,
 * DEBMUL D.96A, that come back.
 *
 * A message is an order (PAYMUL) or an advice (DEBMUL) by the type that its UNH names. Each has its own
 * chart; both are walked, checked and rewritten by the same calls. An advice says what the bank has
 * debited: its LIN are the debits, counted as orders, and its SEQ the transactions behind them, counted as
 * payments. It is checked by numbers 10 to 20, 30 and 31. Its amounts are not read: no totals are written.
 *
 * Every call answers, for all bytes and for any lengths and positions. Nothing has to be checked
 * before calling. What the host owes is this and no more:
 *
 *  - a pointer is valid for as many bytes or numbers as the length beside it says, for the time of
 *    the call; with a length of 0 it is not read and may be anything, NULL too;
 *  - a list of numbers or of steps is aligned for them, as any C array of them is;
 *  - what is lent for output overlaps neither what is lent for reading nor another output;
 *  - 3 KiB of stack are left for a call: none uses more (on x86-64; this is measured and not proved).
 *
 * Nothing is kept after a call returns. There is no state, no allocation and no input or output, so
 * calls may be made from several threads at once.
 *
 * A refusal is a number of the table below, the segment it speaks of (the UNH is 1; 0 for the whole
 * interchange) and the offset of a byte, counted from the UNH's first byte. On a refusal every list
 * and every room lent for output is unchanged. On success, entries past those that the answer counts
 * are unchanged.
 */
#ifndef TWINEHERALD_H
#define TWINEHERALD_H

#include <stddef.h>
#include <stdint.h>

#ifdef __cplusplus
extern "C" {
#endif

/* The refusals. 15 and 19 do not exist. */
enum {
    TWINEHERALD_ACCEPTED = 0,        /* no refusal */
    TWINEHERALD_TOO_LONG = 1,        /* more than 1,048,576 bytes */
    TWINEHERALD_SERVICE = 2,         /* the service characters (UNA) are unfit or cut short */
    TWINEHERALD_HEADER = 3,          /* the first segment is no UNB of syntax version 3 with a reference */
    TWINEHERALD_UNFINISHED = 4,      /* the end is no finished UNZ; walking: an unfinished segment */
    TWINEHERALD_CLOSING_COUNT = 5,   /* UNZ's count is not the number of messages */
    TWINEHERALD_CLOSING_REFERENCE = 6, /* UNZ's reference is not UNB's */
    TWINEHERALD_STRAYS = 7,          /* segments outside every message */
    TWINEHERALD_POSITION = 8,        /* a position past the end of the bytes */
    TWINEHERALD_ROOM = 9,            /* rewriting: the result is longer than the room or than 1,048,576 */
    TWINEHERALD_BYTE = 10,           /* a byte outside 0x20..0x7E and 0xA0..0xFF in a value */
    TWINEHERALD_UNCLOSED = 11,       /* the message has no UNT */
    TWINEHERALD_TYPE = 12,           /* UNH: reference not 1 to 14 bytes, or not PAYMUL or DEBMUL D 96A UN */
    TWINEHERALD_SEGMENTS = 13,       /* more than 9,999 segments */
    TWINEHERALD_LISTS = 14,          /* a lent list is too short; an advice needs no list of totals; walking
                                      * from several positions: fewer answers than positions */
    TWINEHERALD_PLACEMENT = 16,      /* here the segments leave the chart */
    TWINEHERALD_UNT_COUNT = 17,      /* UNT's count is not the number of segments */
    TWINEHERALD_UNT_REFERENCE = 18,  /* UNT's reference is not UNH's */
    TWINEHERALD_LIN_NUMBER = 20,     /* LIN numbers run 1, 2, 3 over the message */
    TWINEHERALD_SEQ_NUMBER = 21,     /* SEQ numbers run 1, 2, 3 under each LIN */
    TWINEHERALD_AMOUNT = 22,         /* an amount is 1 to 12 digits, or at most 12, a mark and 1 to 3 digits */
    TWINEHERALD_QUALIFIER = 23,      /* an amount's qualifier is not 9 or 57, or not that of its order */
    TWINEHERALD_CURRENCY = 24,       /* a currency is not three capitals, or not that of its order */
    TWINEHERALD_EXCHANGE = 25,       /* CUX is missing, not wanted, or wrong */
    TWINEHERALD_TOTAL = 26,          /* an order's amount is not the sum of its payments */
    TWINEHERALD_PARTIES = 27,        /* the parties of an order or of a payment */
    TWINEHERALD_DETAILS = 28,        /* the remittance details (PRC) of a payment */
    TWINEHERALD_CONTROL = 29,        /* CNT+2 is not the number of orders */
    TWINEHERALD_ADVICE_DATE = 30,    /* advice: a LIN's date is not 202 or 209, nor 455 with 342 in BGM */
    TWINEHERALD_ADVICE_REFERENCE = 31 /* advice: a SEQ has references (SG11) under LIN 106, or none elsewhere */
};

/* The number of rows of each chart. The last row is the UNT's, so the last row of an accepted message tells
 * whether it is an order or an advice. */
enum {
    TWINEHERALD_PAYMUL_ROWS = 112,
    TWINEHERALD_DEBMUL_ROWS = 124
};

/* The report of one message. Accepted: number is 0, and segments, orders (LIN) and payments (SEQ) are
 * counted, in an advice its debits and their transactions. Refused: number, segment and offset say why and
 * where, and the counts are 0. */
typedef struct {
    uint32_t number;
    uint32_t segment;
    uint32_t offset;
    uint32_t segments;
    uint32_t orders;
    uint32_t payments;
} twineherald_report;

/* A step of the walk. found is 1 if a message was found, refused or not; it lies from start up to but
 * excluding end, end is the position to go on from, and report is the message's. With found 0, start and
 * end are 0, and report's number tells why: 0, no message is left; 1, 2, 8 or 4, the walk itself is
 * refused. */
typedef struct {
    uint32_t found;
    uint32_t start;
    uint32_t end;
    twineherald_report report;
} twineherald_step;

/* What closing found: number is 0, or 1 to 4 as opening gives it (then messages and strays are 0), or
 * 5, 6 or 7. */
typedef struct {
    uint32_t number;
    uint32_t messages;
    uint32_t strays;
} twineherald_closing;

/* What rewriting did: number is 0 and length bytes were written, or number is 1 to 4 or 9 and none was. */
typedef struct {
    uint32_t number;
    uint32_t length;
} twineherald_rewriting;

/* Whether the bytes are an interchange that opens: 0, or the refusal 1, 2, 3 or 4. */
uint32_t twineherald_open(const uint8_t *bytes, size_t length);

/* Finds the next message from position at, checks it, and gives its place and its report. Start with
 * position 0, go on with the end of each answer, until nothing is found. If the message is accepted,
 * rows and starts receive the chart row and the first byte (from the UNH's) of each of its segments,
 * and totals the total of each of its orders in thousandths. Of an advice no totals are written: that list
 * may be empty and keeps its content. */
twineherald_step twineherald_walk(const uint8_t *bytes, size_t length, size_t at,
                                  uint16_t *rows, size_t rows_length,
                                  uint32_t *starts, size_t starts_length,
                                  uint64_t *totals, size_t totals_length);

/* Several messages at once: answers[i] is the step that twineherald_walk gives at positions[i] with lists as
 * long as the message needs, so 14 is in no answer. A position may be named twice, in any order, and may be
 * any number at all: past the end of the bytes the answer is 8, as from the walk. Gives 0 when every position
 * is answered, also when there is none, or 14 if there are fewer answers than positions: then no answer is
 * written, whatever the bytes are. Answers past the positions keep their content. */
uint32_t twineherald_walk_each(const uint8_t *bytes, size_t length,
                               const size_t *positions, size_t positions_length,
                               twineherald_step *answers, size_t answers_length);

/* Checks the bytes of one message, as the walk does with what it found. head is the interchange that
 * the message comes from, or its first nine bytes: the service characters are read there (refusal 2 if
 * they are unfit). Lists as for the walk. */
twineherald_report twineherald_check(const uint8_t *head, size_t head_length,
                                     const uint8_t *message, size_t message_length,
                                     uint16_t *rows, size_t rows_length,
                                     uint32_t *starts, size_t starts_length,
                                     uint64_t *totals, size_t totals_length);

/* Counts messages and strays and compares the UNZ with them and with the UNB. */
twineherald_closing twineherald_close(const uint8_t *bytes, size_t length);

/* Writes the interchange in the plain service characters : + ? ' to room: no UNA, no CR or LF between
 * segments, no trailing empty components or elements. Every value is kept. */
twineherald_rewriting twineherald_rewrite(const uint8_t *bytes, size_t length,
                                          uint8_t *room, size_t room_length);

#ifdef __cplusplus
}
#endif

#endif
