/* What samples_mpi.c and samples_plain.c share: the samples, what is asked of them, and how an answer is printed. */
#ifndef SAMPLES_H
#define SAMPLES_H

#include <inttypes.h>
#include <stdbool.h>
#include <stdint.h>
#include <stdio.h>
#include <stdlib.h>

/* Running values are shown at so many places; one sample is overwritten by this value. */
enum { PLACES = 10, RANGES = 6, WRITTEN = 5000000 };

static inline int64_t sample(uint64_t index)
{
    return (int64_t)((index * 2654435761u ^ index >> 7) % 2000003) - 1000001;
}

/* What some samples come to. */
typedef struct answer {
    uint64_t count;
    int64_t sum, least, greatest, best;
    uint32_t a, b;
} answer;

static inline void show(uint64_t lo, uint64_t hi, answer it)
{
    if (lo == hi)
        printf("%" PRIu64 " to %" PRIu64 ": nothing\n", lo, hi);
    else
        printf("%" PRIu64 " to %" PRIu64 ": sum %" PRId64 ", least %" PRId64 ", greatest %" PRId64 ", best run %" PRId64 ", map %" PRIu32 " %" PRIu32 "\n",
               lo, hi, it.sum, it.least, it.greatest, it.best, it.a, it.b);
}

/* Range `which` of those that are asked for, of so many samples. */
static inline void range_of(int which, uint64_t samples, uint64_t *lo, uint64_t *hi)
{
    uint64_t third = samples / 3;
    const uint64_t ranges[RANGES][2] = {{0, samples},           {samples / 4, samples - samples / 4}, {third, third + (samples - third) / 50},
                                        {samples / 2, samples}, {samples / 7, samples / 7},           {samples - samples / 100, samples}};
    *lo = ranges[which][0];
    *hi = ranges[which][1];
}

/* Up to where place `which` of the running values is. */
static inline uint64_t place_of(int which, uint64_t samples)
{
    return samples * (uint64_t)(which + 1) / PLACES;
}

/* The running values as they are shown: at the places, and all of them in one number. */
typedef struct running {
    int64_t sums[PLACES], bests[PLACES];
    uint64_t all;
} running;

/* Takes in the running values up to `index`, that one included. */
static inline void take_running(running *into, uint64_t index, uint64_t samples, int64_t sum, int64_t best)
{
    into->all += (2 * index + 1) * (uint64_t)sum + (2 * index + 3) * (uint64_t)best;
    for (int i = 0; i < PLACES; i++)
        if (place_of(i, samples) == index + 1) {
            into->sums[i] = sum;
            into->bests[i] = best;
        }
}

static inline void show_running(const running *it, uint64_t samples)
{
    for (int i = 0; i < PLACES; i++)
        printf("up to %" PRIu64 ": sum %" PRId64 ", best run %" PRId64 "\n", place_of(i, samples), it->sums[i], it->bests[i]);
    printf("all running values: %" PRIu64 "\n", it->all);
}

/* A number of the command line. */
static inline uint64_t number(const char *text)
{
    char *end;
    uint64_t value = strtoull(text, &end, 10);
    if (*end || end == text || *text == '-') {
        fprintf(stderr, "not a number: %s\n", text);
        exit(2);
    }
    return value;
}

#endif
