/* Where in a range something stands, by plain loops: for the tests of searches in a vector and in a series to compare with. */
#ifndef TESTS_PLACES_H
#define TESTS_PLACES_H

#include "livevec.h"

/* What is looked for. From REACHES on it is compared with a number. */
typedef enum wanted { LEAST, GREATEST, BEST, REACHES, REACHES_BACK, FIRST_AT_LEAST, FIRST_AT_MOST, LAST_AT_LEAST, LAST_AT_MOST, SEARCHES } wanted;

/* Where it stands, all 0 where it does nowhere. */
typedef struct place {
    uint64_t lo, hi;
    int64_t value;
    uint64_t sum_low;
    int64_t sum_high;
    bool found;
} place;

/* Among the elements of an array, by a loop. */
place placed(wanted what, const int64_t *xs, uint64_t lo, uint64_t hi, int64_t x);

/* As a call answered it, and the same as checks of each. */
#define PLACE_OF(answer) ((place){(answer).lo, (answer).hi, (answer).value, (answer).sum_low, (answer).sum_high, (answer).found})
void placed_alike(place got, place wanted);

/* The search of a name that begins so. */
#define SEARCHED(begins, slot, what, lo, hi, x)                                   \
    ((what) == LEAST            ? begins##least(slot, lo, hi)                     \
     : (what) == GREATEST       ? begins##greatest(slot, lo, hi)                  \
     : (what) == BEST           ? begins##best(slot, lo, hi)                      \
     : (what) == REACHES        ? begins##reaches(slot, lo, hi, x)                \
     : (what) == REACHES_BACK   ? begins##reaches_back(slot, lo, hi, x)           \
     : (what) == FIRST_AT_LEAST ? begins##first_at_least(slot, lo, hi, x)         \
     : (what) == FIRST_AT_MOST  ? begins##first_at_most(slot, lo, hi, x)          \
     : (what) == LAST_AT_LEAST  ? begins##last_at_least(slot, lo, hi, x)          \
                                : begins##last_at_most(slot, lo, hi, x))

/* An element of few values, so that the least and the greatest come often; now and then one of the greatest there are. */
int64_t draw_near(uint64_t *state);

/* What to compare with: sums that are reached soon, late and never, and bounds that some elements are at. */
int64_t draw_compared(uint64_t *state, wanted what);

#endif
