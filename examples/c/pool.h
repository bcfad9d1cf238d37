/* What pool.c and pool_plain.c serve: requests for a place of at least so many bytes, of a fixed number of places of different sizes, and what is
 * given back. Each request has the first free place that is large enough. */
#ifndef POOL_H
#define POOL_H

#include <inttypes.h>
#include <stdbool.h>
#include <stdint.h>
#include <stdio.h>

enum { PLACES = 65536, NONE = PLACES, STEPS = 100000, HELD = 55000 };

/* How many bytes a place has. */
static inline int64_t bytes_of(uint32_t place)
{
    return 16 + (int64_t)(place * UINT32_C(2654435761) >> 20);
}

/* The first free place of at least so many bytes, which is taken then, or NONE; gives one back; how many bytes are free, and how many the largest free
 * place has. */
uint32_t take(int64_t bytes);
void give_back(uint32_t place);
int64_t all_free(void);
int64_t largest_free(void);

static uint64_t state = 1;
static inline uint32_t next(uint32_t below)
{
    state = state * 6364136223846793005u + 1442695040888963407u;
    return (uint32_t)(state >> 33) % below;
}

/* Serves requests: most are for few bytes, and once many places are held as many are given back. */
static inline void serve(void)
{
    static uint32_t held[PLACES];
    uint32_t count = 0, refused = 0;
    for (uint32_t step = 1; step <= STEPS; step++) {
        if (count >= HELD || (count && next(16) == 0)) {
            uint32_t at = next(count);
            give_back(held[at]);
            held[at] = held[--count];
        } else {
            uint32_t place = take(1 + (int64_t)next(next(8) ? 64 : 4200));
            if (place == NONE)
                refused++;
            else
                held[count++] = place;
        }
        if (step % 10000 == 0)
            printf("step %" PRIu32 ": %" PRIu32 " held, %" PRIu32 " refused, %" PRId64 " bytes free, %" PRId64 " at once\n", step, count, refused, all_free(),
                   largest_free());
    }
}

#endif
