/* The plain loops that tests of searches compare with, as tests_places.h names them. */
#include "tests_places.h"

#include "tests.h"
#include "tests_plain.h"

/* The first of the elements than which none is better: less, or greater. */
static place extreme(const int64_t *xs, uint64_t lo, uint64_t hi, bool less)
{
    place it = {0};
    for (uint64_t i = lo; i < hi; i++)
        if (!it.found || (less ? xs[i] < it.value : xs[i] > it.value))
            it = (place){.lo = i, .hi = i + 1, .value = xs[i], .found = true};
    return it;
}

/* The best of all runs, in the order of their ends, and of one end the shortest first. */
static place best_run(const int64_t *xs, uint64_t lo, uint64_t hi)
{
    place it = {0};
    wide most = 0;
    for (uint64_t end = lo + 1; end <= hi; end++) {
        wide sum = 0;
        for (uint64_t start = end; start-- > lo;) {
            sum += xs[start];
            if (!it.found || sum > most) {
                most = sum;
                it = (place){.lo = start, .hi = end, .sum_low = (uint64_t)sum, .sum_high = (int64_t)(sum >> 64), .found = true};
            }
        }
    }
    return it;
}

static place reaches(const int64_t *xs, uint64_t lo, uint64_t hi, int64_t wanted)
{
    wide sum = 0;
    for (uint64_t end = lo; end <= hi; end++) {
        if (sum >= wanted)
            return (place){.lo = lo, .hi = end, .found = true};
        if (end < hi)
            sum += xs[end];
    }
    return (place){0};
}

static place reaches_back(const int64_t *xs, uint64_t lo, uint64_t hi, int64_t wanted)
{
    wide sum = 0;
    uint64_t start = hi;
    while (sum < wanted && start > lo)
        sum += xs[--start];
    return sum >= wanted ? (place){.lo = start, .hi = hi, .found = true} : (place){0};
}

static bool is_within(int64_t x, int64_t bound, bool at_least)
{
    return at_least ? x >= bound : x <= bound;
}

static place first_within(const int64_t *xs, uint64_t lo, uint64_t hi, int64_t bound, bool at_least)
{
    for (uint64_t i = lo; i < hi; i++)
        if (is_within(xs[i], bound, at_least))
            return (place){.lo = i, .hi = i + 1, .found = true};
    return (place){0};
}

static place last_within(const int64_t *xs, uint64_t lo, uint64_t hi, int64_t bound, bool at_least)
{
    for (uint64_t i = hi; i-- > lo;)
        if (is_within(xs[i], bound, at_least))
            return (place){.lo = i, .hi = i + 1, .found = true};
    return (place){0};
}

place placed(wanted what, const int64_t *xs, uint64_t lo, uint64_t hi, int64_t x)
{
    switch (what) {
    case LEAST: return extreme(xs, lo, hi, true);
    case GREATEST: return extreme(xs, lo, hi, false);
    case BEST: return best_run(xs, lo, hi);
    case REACHES: return reaches(xs, lo, hi, x);
    case REACHES_BACK: return reaches_back(xs, lo, hi, x);
    case FIRST_AT_LEAST: return first_within(xs, lo, hi, x, true);
    case FIRST_AT_MOST: return first_within(xs, lo, hi, x, false);
    case LAST_AT_LEAST: return last_within(xs, lo, hi, x, true);
    default: return last_within(xs, lo, hi, x, false);
    }
}

void placed_alike(place got, place wanted)
{
    IS(got.found, wanted.found);
    IS(got.lo, wanted.lo);
    IS(got.hi, wanted.hi);
    IS(got.value, wanted.value);
    IS(got.sum_low == wanted.sum_low && got.sum_high == wanted.sum_high, true);
}

int64_t draw_near(uint64_t *state)
{
    switch (draw(state, 40)) {
    case 0: return INT64_MAX - draw(state, 2);
    case 1: return INT64_MIN + draw(state, 2);
    default: return (int64_t)draw(state, 9) - 4;
    }
}

int64_t draw_compared(uint64_t *state, wanted what)
{
    if (draw(state, 20) == 0)
        return draw(state, 2) ? INT64_MAX : INT64_MIN;
    return what < FIRST_AT_LEAST ? (int64_t)draw(state, 40) - 5 : (int64_t)draw(state, 13) - 6;
}
