/* Makes the calls of include/twineherald.h that standard input asks for, and writes what they answered.
 *
 * Whatever is lent lies in memory of its own with forbidden pages on both sides: it ends directly before
 * one, or begins directly after one, so that a read or write outside what was lent ends the program. Bytes
 * lent for reading lie in memory that cannot be written. What is lent for output is filled with a known
 * pattern before each call; the answer says whether it changed, and if so sends it back whole. The bytes
 * next to it on the other side are looked at too.
 *
 * Requests (numbers little-endian, u32 unless said otherwise):
 *   B place(u8) length bytes     lends these bytes as the interchange
 *   o                            open
 *   c                            close
 *   w place(u8) at(u64) r s t    walk from at, with lists of r, s and t entries
 *   a place(u8) from to r s t    walk from every position from..to, both included
 *   e place(u8) n m at(u64)..    walk from each of n positions in one call, with room for m answers
 *   k place(u8) whole(u8) [length bytes] from-inside(u8) [offset length | length bytes] r s t
 *                                check: head is the interchange (whole 1) or the bytes that follow; the
 *                                message is a part of the interchange, in place (1) or copied (2), or the
 *                                bytes that follow (0)
 *   r place(u8) room             rewrite
 * Answers: the call's letter (w for a too), its numbers, and for calls with outputs a flag byte: 1 if
 * what was lent for output changed (then it follows), 2 if bytes beside it changed. */
#define _DEFAULT_SOURCE
#include <signal.h>
#include <stdio.h>
#include <stdlib.h>
#include <string.h>
#include <sys/mman.h>
#include <unistd.h>

#include "../include/twineherald.h"

#define GUARD ((size_t)65536)
#define BESIDE ((size_t)128)

/* Requests and answers. */
static uint8_t *request;
static size_t request_length, request_at;
static uint8_t *answer;
static size_t answer_length, answer_size;

static void flush(void) {
    size_t done = 0;
    while (done < answer_length) {
        ssize_t count = write(1, answer + done, answer_length - done);
        if (count <= 0) _exit(2);
        done += (size_t)count;
    }
    answer_length = 0;
}

static void stop(const char *why) {
    flush();
    fprintf(stderr, "driver: %s\n", why);
    exit(2);
}

/* Memory with a forbidden page on each side. */
struct room {
    uint8_t *base;
    size_t size;
};

static struct room new_room(size_t size) {
    struct room room;
    size = (size + BESIDE + GUARD - 1) / GUARD * GUARD;
    uint8_t *all = mmap(NULL, size + 3 * GUARD, PROT_NONE, MAP_PRIVATE | MAP_ANONYMOUS, -1, 0);
    if (all == MAP_FAILED) stop("no memory");
    room.base = (uint8_t *)(((uintptr_t)all + 2 * GUARD - 1) / GUARD * GUARD);
    room.size = size;
    if (mprotect(room.base, size, PROT_READ | PROT_WRITE) != 0) stop("mprotect");
    return room;
}

/* Places: 0 ends at the forbidden page, 1 begins after one; 2 and 3 as 0, but with a length of 0 the
 * pointer is NULL or points nowhere. */
static uint8_t *lend(struct room room, size_t length, int place) {
    if (length > room.size) stop("too much is asked for");
    if (length == 0 && place == 2) return NULL;
    if (length == 0 && place == 3) return (uint8_t *)(uintptr_t)1;
    return place == 1 ? room.base : room.base + room.size - length;
}

static struct room bytes_room, head_room, message_room, out_room, rows_room, starts_room, totals_room, positions_room, answers_room;

/* Puts bytes where they can be read and not written. */
static const uint8_t *lend_bytes(struct room room, const uint8_t *bytes, size_t length, int place) {
    if (length > room.size) stop("too many bytes");
    if (mprotect(room.base, room.size, PROT_READ | PROT_WRITE) != 0) stop("mprotect");
    uint8_t *lent = lend(room, length, place);
    if (length > 0) memcpy(lent, bytes, length);
    if (mprotect(room.base, room.size, PROT_READ) != 0) stop("mprotect");
    return lent;
}

/* The bytes beside a lent output, on the side that has no forbidden page. */
static uint8_t *beside(struct room room, size_t bytes, int place) {
    if (bytes + BESIDE > room.size) return NULL;
    return place == 1 ? room.base + bytes : room.base + room.size - bytes - BESIDE;
}

static void fill_beside(struct room room, size_t bytes, int place) {
    uint8_t *at = beside(room, bytes, place);
    if (at != NULL) memset(at, 0xB7, BESIDE);
}

static int beside_changed(struct room room, size_t bytes, int place) {
    uint8_t *at = beside(room, bytes, place);
    for (size_t i = 0; at != NULL && i < BESIDE; i++) {
        if (at[i] != 0xB7) return 1;
    }
    return 0;
}

static const uint8_t *take(size_t length) {
    if (request_length - request_at < length) stop("the request is cut short");
    const uint8_t *at = request + request_at;
    request_at += length;
    return at;
}

static uint64_t take_number(int size) {
    const uint8_t *at = take((size_t)size);
    uint64_t number = 0;
    for (int i = size; i > 0; i--) number = number * 256 + at[i - 1];
    return number;
}

static void give(const void *bytes, size_t length) {
    if (answer_size - answer_length < length) flush();
    if (answer_size < length) stop("an answer is too long");
    if (length > 0) memcpy(answer + answer_length, bytes, length);
    answer_length += length;
}

static void give_letter(char letter) {
    give(&letter, 1);
}

static void give_number(uint32_t number) {
    uint8_t bytes[4] = {(uint8_t)number, (uint8_t)(number >> 8), (uint8_t)(number >> 16), (uint8_t)(number >> 24)};
    give(bytes, 4);
}

static void crashed(int which) {
    static char text[] = "driver: signal 00 in a call\n";
    text[15] = (char)('0' + which / 10);
    text[16] = (char)('0' + which % 10);
    flush();
    if (write(2, text, sizeof text - 1) < 0) _exit(2);
    _exit(3);
}

/* The lists lent to walk and check. */
struct lists {
    uint16_t *rows;
    uint32_t *starts;
    uint64_t *totals;
    size_t r, s, t;
    int place;
};

static uint16_t row_pattern(size_t i) { return (uint16_t)(0xA5C3u + 7u * i); }
static uint32_t start_pattern(size_t i) { return (uint32_t)(0xFEED0000u + 13u * i); }
static uint64_t total_pattern(size_t i) { return (uint64_t)0xC0FFEE0000000000u + 31u * (uint64_t)i; }
static uint8_t byte_pattern(size_t i) { return (uint8_t)(0x5Au + 3u * i); }
static uint32_t answer_pattern(size_t i) { return (uint32_t)(0xD1CE0000u + 19u * i); }

static struct lists lend_lists(size_t r, size_t s, size_t t, int place) {
    struct lists lists;
    lists.rows = (uint16_t *)(void *)lend(rows_room, r * 2, place);
    lists.starts = (uint32_t *)(void *)lend(starts_room, s * 4, place);
    lists.totals = (uint64_t *)(void *)lend(totals_room, t * 8, place);
    lists.r = r;
    lists.s = s;
    lists.t = t;
    lists.place = place;
    for (size_t i = 0; i < r; i++) lists.rows[i] = row_pattern(i);
    for (size_t i = 0; i < s; i++) lists.starts[i] = start_pattern(i);
    for (size_t i = 0; i < t; i++) lists.totals[i] = total_pattern(i);
    fill_beside(rows_room, r * 2, place);
    fill_beside(starts_room, s * 4, place);
    fill_beside(totals_room, t * 8, place);
    return lists;
}

/* Sends the flag and, if they changed, the lists. Leaves them filled as before. */
static void give_lists(struct lists lists) {
    int changed = 0, outside = 0;
    for (size_t i = 0; i < lists.r; i++) changed |= lists.rows[i] != row_pattern(i);
    for (size_t i = 0; i < lists.s; i++) changed |= lists.starts[i] != start_pattern(i);
    for (size_t i = 0; i < lists.t; i++) changed |= lists.totals[i] != total_pattern(i);
    outside |= beside_changed(rows_room, lists.r * 2, lists.place);
    outside |= beside_changed(starts_room, lists.s * 4, lists.place);
    outside |= beside_changed(totals_room, lists.t * 8, lists.place);
    give_letter((char)(changed + 2 * outside));
    if (changed) {
        give(lists.rows, lists.r * 2);
        give(lists.starts, lists.s * 4);
        give(lists.totals, lists.t * 8);
    }
}

static struct lists take_lists(int place) {
    size_t r = (size_t)take_number(4), s = (size_t)take_number(4), t = (size_t)take_number(4);
    return lend_lists(r, s, t, place);
}

static void give_report(twineherald_report report) {
    give_number(report.number);
    give_number(report.segment);
    give_number(report.offset);
    give_number(report.segments);
    give_number(report.orders);
    give_number(report.payments);
}

static void walk(const uint8_t *bytes, size_t length, size_t at, struct lists lists) {
    twineherald_step step = twineherald_walk(bytes, length, at, lists.rows, lists.r, lists.starts, lists.s, lists.totals, lists.t);
    give_letter('w');
    give_number(step.found);
    give_number(step.start);
    give_number(step.end);
    give_report(step.report);
    give_lists(lists);
}

/* The numbers of a step: an answer is these and nothing else. */
enum { STEP = 9 };
_Static_assert(sizeof(twineherald_step) == STEP * sizeof(uint32_t), "a step is its numbers");

static void walk_each(const uint8_t *bytes, size_t length) {
    int place = (int)take_number(1);
    size_t count = (size_t)take_number(4), room = (size_t)take_number(4);
    const uint8_t *at = take(count * 8);
    const size_t *positions = (const size_t *)(const void *)lend_bytes(positions_room, at, count * 8, place);
    uint32_t *answers = (uint32_t *)(void *)lend(answers_room, room * STEP * 4, place);
    for (size_t i = 0; i < room * STEP; i++) answers[i] = answer_pattern(i);
    fill_beside(answers_room, room * STEP * 4, place);
    uint32_t number = twineherald_walk_each(bytes, length, positions, count, (twineherald_step *)(void *)answers, room);
    int changed = 0;
    for (size_t i = 0; i < room * STEP; i++) changed |= answers[i] != answer_pattern(i);
    give_letter('e');
    give_number(number);
    give_letter((char)(changed + 2 * beside_changed(answers_room, room * STEP * 4, place)));
    if (changed) give(answers, room * STEP * 4);
}

static void check(const uint8_t *bytes, size_t length) {
    int place = (int)take_number(1);
    const uint8_t *head = bytes;
    size_t head_length = length;
    if (take_number(1) == 0) {
        head_length = (size_t)take_number(4);
        head = lend_bytes(head_room, take(head_length), head_length, place);
    }
    uint64_t inside = take_number(1);
    const uint8_t *message;
    size_t message_length;
    if (inside == 0) {
        message_length = (size_t)take_number(4);
        message = lend_bytes(message_room, take(message_length), message_length, place);
    } else {
        size_t offset = (size_t)take_number(4);
        message_length = (size_t)take_number(4);
        if (offset > length || length - offset < message_length) stop("no such part");
        message = message_length == 0 ? bytes : bytes + offset;
        if (inside == 2) message = lend_bytes(message_room, message, message_length, place);
    }
    struct lists lists = take_lists(place);
    twineherald_report report = twineherald_check(head, head_length, message, message_length, lists.rows, lists.r, lists.starts, lists.s, lists.totals, lists.t);
    give_letter('k');
    give_report(report);
    give_lists(lists);
}

static void rewrite(const uint8_t *bytes, size_t length) {
    int place = (int)take_number(1);
    size_t room_length = (size_t)take_number(4);
    uint8_t *room = lend(out_room, room_length, place);
    for (size_t i = 0; i < room_length; i++) room[i] = byte_pattern(i);
    fill_beside(out_room, room_length, place);
    twineherald_rewriting rewriting = twineherald_rewrite(bytes, length, room, room_length);
    int changed = 0;
    for (size_t i = 0; i < room_length; i++) changed |= room[i] != byte_pattern(i);
    give_letter('r');
    give_number(rewriting.number);
    give_number(rewriting.length);
    give_letter((char)(changed + 2 * beside_changed(out_room, room_length, place)));
    if (changed) give(room, room_length);
}

static void read_requests(void) {
    size_t size = 1 << 20;
    request = malloc(size);
    while (request != NULL) {
        size_t count = fread(request + request_length, 1, size - request_length, stdin);
        if (count == 0) break;
        request_length += count;
        if (request_length == size) {
            size *= 2;
            request = realloc(request, size);
        }
    }
    if (request == NULL) stop("no memory");
}

int main(void) {
    const int signals[] = {SIGSEGV, SIGBUS, SIGILL, SIGFPE, SIGABRT, SIGTRAP, SIGALRM};
    stack_t other = {0};
    struct sigaction action = {0};
    other.ss_size = 65536;
    other.ss_sp = malloc(other.ss_size);
    if (other.ss_sp == NULL || sigaltstack(&other, NULL) != 0) stop("sigaltstack");
    action.sa_handler = crashed;
    action.sa_flags = SA_ONSTACK;
    for (size_t i = 0; i < sizeof signals / sizeof signals[0]; i++) sigaction(signals[i], &action, NULL);

    answer_size = 8 << 20;
    answer = malloc(answer_size);
    if (answer == NULL) stop("no memory");
    bytes_room = new_room(3 << 20);
    head_room = new_room(3 << 20);
    message_room = new_room(3 << 20);
    out_room = new_room(3 << 20);
    rows_room = new_room(1 << 20);
    starts_room = new_room(1 << 20);
    totals_room = new_room(1 << 20);
    positions_room = new_room(1 << 20);
    answers_room = new_room(2 << 20);
    read_requests();

    const uint8_t *bytes = lend_bytes(bytes_room, NULL, 0, 0);
    size_t length = 0;
    while (request_at < request_length) {
        /* no call takes so long */
        alarm(120);
        int letter = (int)take_number(1);
        if (letter == 'B') {
            int place = (int)take_number(1);
            length = (size_t)take_number(4);
            bytes = lend_bytes(bytes_room, take(length), length, place);
        } else if (letter == 'o') {
            uint32_t number = twineherald_open(bytes, length);
            give_letter('o');
            give_number(number);
        } else if (letter == 'c') {
            twineherald_closing closing = twineherald_close(bytes, length);
            give_letter('c');
            give_number(closing.number);
            give_number(closing.messages);
            give_number(closing.strays);
        } else if (letter == 'w') {
            int place = (int)take_number(1);
            size_t at = (size_t)take_number(8);
            walk(bytes, length, at, take_lists(place));
        } else if (letter == 'a') {
            int place = (int)take_number(1);
            size_t from = (size_t)take_number(4), to = (size_t)take_number(4);
            size_t r = (size_t)take_number(4), s = (size_t)take_number(4), t = (size_t)take_number(4);
            for (size_t at = from; at <= to; at++) walk(bytes, length, at, lend_lists(r, s, t, place));
        } else if (letter == 'e') {
            walk_each(bytes, length);
        } else if (letter == 'k') {
            check(bytes, length);
        } else if (letter == 'r') {
            rewrite(bytes, length);
        } else {
            stop("no such request");
        }
    }
    flush();
    return 0;
}
