/* The window of window.c by a plain array and loops. */
#include <stdlib.h>
#include <string.h>

#include "window.h"

/* The reading under index i is at all[i]. */
static int64_t all[BATCHES * BATCH];
static uint64_t first, size;

void take(const int64_t *values, size_t many)
{
    memcpy(all + size, values, many * sizeof *values);
    size += many;
}

void correct(uint64_t index, int64_t reading)
{
    all[index] = reading;
}

void forget_before(uint64_t index)
{
    first = index;
}

report look(uint64_t lo, uint64_t hi)
{
    report r = {0, all[lo], all[lo]};
    for (uint64_t i = lo; i < hi; i++) {
        r.sum += all[i];
        r.least = all[i] < r.least ? all[i] : r.least;
        r.greatest = all[i] > r.greatest ? all[i] : r.greatest;
    }
    return r;
}

uint64_t kept(void)
{
    return size - first;
}

int main(void)
{
    day();
    printf("reading 0 is %s\n", first > 0 ? "forgotten" : "kept");
    return EXIT_SUCCESS;
}
