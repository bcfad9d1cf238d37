/* A day at a gauge, whoever keeps its readings: they come in batches, the newest are asked for, and what is older than a window is
 * forgotten. window.c keeps them by livevec, window_plain.c by an array, and both print the same. */
#ifndef WINDOW_H
#define WINDOW_H

#include <inttypes.h>
#include <stdint.h>
#include <stdio.h>

enum { BATCHES = 40, BATCH = 6000, WINDOW = 80000, RECENT = 2500 };

/* What some readings come to. */
typedef struct report {
    int64_t sum, least, greatest;
} report;

/* Who keeps the readings: each has an index, and keeps it for as long as it is kept. */
void take(const int64_t *readings, size_t many);
void correct(uint64_t index, int64_t reading);
void forget_before(uint64_t index);
report look(uint64_t lo, uint64_t hi);
uint64_t kept(void);

static uint64_t below(uint64_t bound)
{
    static uint64_t state = 7;
    state = state * 6364136223846793005u + 1442695040888963407u;
    return (state >> 33) % bound;
}

static void show(const char *what, uint64_t lo, uint64_t hi)
{
    report r = look(lo, hi);
    printf("  %s, from %" PRIu64 " to %" PRIu64 ": mean %" PRId64 ", least %" PRId64 ", greatest %" PRId64 "\n", what, lo, hi, r.sum / (int64_t)(hi - lo), r.least, r.greatest);
}

static void day(void)
{
    static int64_t readings[BATCH];
    uint64_t size = 0, first = 0;
    for (int batch = 1; batch <= BATCHES; batch++) {
        for (int i = 0; i < BATCH; i++)
            readings[i] = batch * 20 + (int64_t)below(2001) - 1000;
        take(readings, BATCH);
        size += BATCH;
        correct(size - 1 - below(size - first), (int64_t)below(4001) - 2000);
        if (size - first > WINDOW)
            forget_before(first = size - WINDOW);
        if (batch % 8)
            continue;
        printf("after %" PRIu64 " readings, of which %" PRIu64 " are kept\n", size, kept());
        show("all", first, size);
        show("the newest", size - RECENT, size);
    }
}

#endif
