/* Times the check of an interchange beside a plain scan of its bytes, and one call for all messages beside the walk; measures the
 * stack that they use.
 * Usage: bench ORDER ADVICE FILE...: ORDER and ADVICE hold a message that goes as deep as its chart does; each FILE is an interchange,
 * those of one kind one after the other, the shortest first. All take turns, and the least processor time of each counts. */
#define _POSIX_C_SOURCE 200809L
#include <inttypes.h>
#include <pthread.h>
#include <stdio.h>
#include <stdlib.h>
#include <string.h>
#include <time.h>
#include "../include/twineherald.h"

/* How many times each is timed. */
#ifndef ROUNDS
#define ROUNDS 60
#endif

enum { LISTS = 9999, STACK = 1 << 20, MOST_STACK = 2900, MESSAGES = 1000 };

typedef struct {
    const uint8_t *bytes;
    size_t length;
    uint16_t *rows;
    uint32_t *starts;
    uint64_t *totals;
    uint64_t accepted;
    /* where the walk finds its messages, and how many */
    size_t positions[MESSAGES];
    size_t messages;
    twineherald_step answers[MESSAGES];
    uint64_t answered;
    /* where the first message lies */
    size_t start, end;
} work;

/* What a check uses of the stack: of one message, of a file by walking, of a file by one call. */
typedef struct {
    size_t check, walk, once;
} stacks;

/* Processor time of this thread. */
static double now(void)
{
    struct timespec t;
    clock_gettime(CLOCK_THREAD_CPUTIME_ID, &t);
    return (double)t.tv_sec + (double)t.tv_nsec / 1e9;
}

/* One plain scan: counts the unreleased terminators. */
static uint64_t scan(const uint8_t *bytes, size_t length)
{
    uint64_t ends = 0;
    int released = 0;
    for (size_t i = 0; i < length; i++) {
        if (released)
            released = 0;
        else if (bytes[i] == '?')
            released = 1;
        else if (bytes[i] == '\'')
            ends++;
    }
    return ends;
}

/* Opens, walks through every message and closes. */
static void check_all(work *w)
{
    size_t at = 0;
    w->accepted = 0;
    if (twineherald_open(w->bytes, w->length) != 0)
        return;
    for (;;) {
        twineherald_step step = twineherald_walk(w->bytes, w->length, at, w->rows, LISTS, w->starts, LISTS, w->totals, LISTS);
        if (!step.found)
            break;
        if (step.report.number == 0)
            w->accepted++;
        at = step.end;
    }
    (void)twineherald_close(w->bytes, w->length);
}

static void walk_all(work *w)
{
    size_t at = 0;
    for (w->messages = 0; w->messages < MESSAGES; w->messages++) {
        twineherald_step step = twineherald_walk(w->bytes, w->length, at, w->rows, LISTS, w->starts, LISTS, w->totals, LISTS);
        if (!step.found)
            return;
        w->positions[w->messages] = at;
        at = step.end;
        if (w->messages == 0) {
            w->start = step.start;
            w->end = step.end;
        }
    }
}

/* The same messages by one call. */
static void answer_all(work *w)
{
    w->answered = 0;
    if (twineherald_walk_each(w->bytes, w->length, w->positions, w->messages, w->answers, MESSAGES) != 0)
        return;
    for (size_t k = 0; k < w->messages; k++)
        w->answered += w->answers[k].found && w->answers[k].report.number == 0;
}

/* The first message alone. */
static void check_first(work *w)
{
    twineherald_report report = twineherald_check(w->bytes, w->length, w->bytes + w->start, w->end - w->start, w->rows, LISTS, w->starts, LISTS, w->totals, LISTS);
    w->accepted = report.number == 0;
}

static volatile uint64_t sink;
static void scan_all(work *w) { sink = scan(w->bytes, w->length); }

static void time_once(void (*run)(work *), work *w, double *least)
{
    double from = now();
    run(w);
    double took = now() - from;
    if (took < *least)
        *least = took;
}

static void *nothing(void *unused) { return unused; }
static void *on_thread(void *p)
{
    check_all(p);
    return p;
}
static void *answers_on_thread(void *p)
{
    answer_all(p);
    return p;
}
static void *check_on_thread(void *p)
{
    check_first(p);
    return p;
}

/* How many bytes of a painted stack a thread touched. */
static size_t touched(void *(*run)(void *), void *p)
{
    unsigned char *stack = NULL;
    if (posix_memalign((void **)&stack, 65536, STACK) != 0)
        exit(2);
    memset(stack, 0xA5, STACK);
    pthread_attr_t attr;
    pthread_t thread;
    if (pthread_attr_init(&attr) != 0 || pthread_attr_setstack(&attr, stack, STACK) != 0 || pthread_create(&thread, &attr, run, p) != 0)
        exit(2);
    pthread_join(thread, NULL);
    size_t clean = 0;
    while (clean < STACK && stack[clean] == 0xA5)
        clean++;
    free(stack);
    return STACK - clean;
}

static uint8_t *read_file(const char *path, size_t *length)
{
    FILE *f = fopen(path, "rb");
    if (f == NULL)
        exit(2);
    fseek(f, 0, SEEK_END);
    *length = (size_t)ftell(f);
    rewind(f);
    uint8_t *bytes = malloc(*length + 1);
    if (bytes == NULL || fread(bytes, 1, *length, f) != *length)
        exit(2);
    fclose(f);
    return bytes;
}

/* A FILE: two lines of figures; gives the cost of a byte, and whether one call was answered as the walk and took no longer. */
static double measure(const char *path, work *w, int *at_once)
{
    double plain = 1e9, whole = 1e9, walk = 1e9, once = 1e9;
    uint8_t *bytes = read_file(path, &w->length);
    w->bytes = bytes;
    for (int k = 0; k < ROUNDS; k++) {
        time_once(scan_all, w, &plain);
        time_once(check_all, w, &whole);
        time_once(walk_all, w, &walk);
        time_once(answer_all, w, &once);
    }
    printf("%8zu bytes, %4" PRIu64 " messages accepted: plain scan %.3f ms, open, walk and close %.3f ms (%.1f scans), walk alone %.3f ms (%.1f scans)\n",
           w->length, w->accepted, plain * 1e3, whole * 1e3, whole / plain, walk * 1e3, walk / plain);
    printf("         one call for its %zu messages, %" PRIu64 " accepted: %.3f ms (%.1f scans), %.2f of the walk alone\n", w->messages, w->answered,
           once * 1e3, once / plain, once / walk);
    *at_once = *at_once && w->answered == w->accepted && once <= walk;
    double cost = whole / (double)w->length;
    free(bytes);
    return cost;
}

static stacks used_by(const char *path, work *w, size_t empty)
{
    stacks used;
    uint8_t *bytes = read_file(path, &w->length);
    w->bytes = bytes;
    walk_all(w);
    used.check = touched(check_on_thread, w) - empty;
    used.once = touched(answers_on_thread, w) - empty;
    used.walk = touched(on_thread, w) - empty;
    free(bytes);
    return used;
}

static size_t most_of(stacks used)
{
    size_t most = used.check > used.walk ? used.check : used.walk;
    return most > used.once ? most : used.once;
}

int main(int count, char **files)
{
    static work w;
    w.rows = calloc(LISTS, sizeof *w.rows);
    w.starts = calloc(LISTS, sizeof *w.starts);
    w.totals = calloc(LISTS, sizeof *w.totals);
    if (count < 4 || w.rows == NULL || w.starts == NULL || w.totals == NULL)
        return 2;
    size_t empty = touched(nothing, NULL), stack = 0;
    for (int k = 1; k < count; k++) {
        stacks used = used_by(files[k], &w, empty);
        if (k < 3)
            printf("stack besides the lists at the deepest %s (%" PRIu64 " accepted): check %zu bytes, walk %zu, one call %zu\n", k == 1 ? "order" : "advice", w.accepted,
                   used.check, used.walk, used.once);
        if (most_of(used) > stack)
            stack = most_of(used);
    }
    printf("stack: %zu bytes besides the lists at most\n", stack);
    int linear = 1, at_once = 1;
    double first = 0;
    size_t before = 0;
    for (int k = 3; k < count; k++) {
        double cost = measure(files[k], &w, &at_once);
        if (w.length < before || k == 3)
            first = cost;
        else
            printf("cost of a byte against the shortest file of its kind: %.2f\n", cost / first);
        linear = linear && cost < 2 * first;
        before = w.length;
    }
    free(w.rows);
    free(w.starts);
    free(w.totals);
    return linear && at_once && stack <= MOST_STACK ? 0 : 1;
}
