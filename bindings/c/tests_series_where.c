/* Where in a range of a series something stands, or of the values of samples, beside plain loops over the same elements. */
#include "tests.h"
#include "tests_places.h"
#include "tests_plain.h"

enum { ROOM = 40000, ROUNDS = 250, ASKED = 12, NEAR = 300 };

static uint64_t state;

/* The element under index i is at all[i], for `first` up to `size`. */
static int64_t all[ROOM];
static uint64_t first, size, edits;

/* All searches of a range by one number each. */
static void searched(livevec_series *s, uint64_t lo, uint64_t hi)
{
    for (wanted what = LEAST; what < SEARCHES; what++) {
        if (what == BEST && hi - lo > 2 * NEAR)
            continue; /* its loop is over all runs */
        int64_t x = draw_compared(&state, what);
        livevec_series_found told = SEARCHED(livevec_series_where_, s, what, lo, hi, x);
        IS(told.refusal, 0);
        IS(told.first, 0);
        IS(told.size, 0);
        IS(told.edit, edits);
        placed_alike(PLACE_OF(told), placed(what, all, lo, hi, x));
    }
}

static void asked(livevec_series *s, uint32_t most)
{
    uint64_t lo = first + draw(&state, (uint32_t)(size - first) + 1), left = size - lo;
    searched(s, lo, lo + draw(&state, (uint32_t)(left < most ? left : most) + 1));
}

/* One push, write, swap, pop or expiry at a series and its twin. */
static void edited(livevec_series *s)
{
    int64_t x = draw_near(&state), there;
    uint64_t i = size > first ? first + draw(&state, (uint32_t)(size - first)) : first;
    switch (size - first < 20 ? 0 : draw(&state, 8)) {
    case 0:
    case 1:
    case 2: IS(livevec_series_push(s, all[size++] = x).refusal, 0); break;
    case 3:
    case 4: IS(livevec_series_write(s, i, all[i] = x).refusal, 0); break;
    case 5:
        IS(livevec_series_swap(s, i, first).refusal, 0);
        there = all[i], all[i] = all[first], all[first] = there;
        break;
    case 6: IS(livevec_series_pop(s).value, all[--size]); break;
    default:
        i = first + draw(&state, 3);
        IS(livevec_series_expire(s, i).place, i - first);
        first = i;
    }
    edits++;
}

/* Random edits, and all searches of random ranges, while elements expire. The trees are made by the searches. */
static void beside_plain_loops(void)
{
    livevec_series s = {0};
    first = size = edits = 0;
    state = 13;
    IS(livevec_series_new(&s), 0);
    searched(&s, 0, 0);
    for (int round = 0; round < ROUNDS; round++) {
        for (uint32_t many = 1 + draw(&state, 3); many; many--)
            edited(&s);
        for (int i = 0; i < ASKED; i++)
            asked(&s, NEAR);
        searched(&s, first, size);
    }
    IS(livevec_series_edits(&s).value, edits);
    IS(livevec_free_series(&s), 0);
}

/* Ranges over many blocks, of a series whose front has expired. */
static void of_many_elements(void)
{
    livevec_series s = {0};
    state = 17;
    IS(livevec_series_new(&s), 0);
    for (size = 0; size < ROOM; size++)
        all[size] = draw_near(&state);
    IS(livevec_series_push_many(&s, all, ROOM).refusal, 0);
    first = 4321;
    IS(livevec_series_expire(&s, first).refusal, 0);
    edits = ROOM + 1;
    searched(&s, first, size);
    for (int i = 0; i < 200; i++)
        asked(&s, ROOM);
    IS(livevec_free_series(&s), 0);
}

/* Sums past 64 bits don't wrap, from either end. Expected places are by hand. */
static void sums_that_are_long(void)
{
    static const int64_t xs[] = {7, INT64_MAX, INT64_MAX, INT64_MAX, INT64_MIN};
    livevec_series s = {0};
    IS(livevec_series_new(&s), 0);
    IS(livevec_series_push_many(&s, xs, 5).refusal, 0);
    IS(livevec_series_expire(&s, 1).refusal, 0);
    placed_alike(PLACE_OF(livevec_series_where_best(&s, 1, 5)), (place){.lo = 1, .hi = 4, .sum_low = (uint64_t)INT64_MAX - 2, .sum_high = 1, .found = true});
    placed_alike(PLACE_OF(livevec_series_where_reaches(&s, 1, 5, INT64_MAX)), (place){.lo = 1, .hi = 2, .found = true});
    placed_alike(PLACE_OF(livevec_series_where_reaches_back(&s, 1, 5, INT64_MAX)), (place){.lo = 1, .hi = 5, .found = true});
    placed_alike(PLACE_OF(livevec_series_where_reaches_back(&s, 2, 5, INT64_MAX)), (place){0});
    IS(livevec_free_series(&s), 0);
}

static void refused_by(uint32_t refusal, livevec_series *s, uint64_t lo, uint64_t hi)
{
    for (wanted what = LEAST; what < SEARCHES; what++) {
        livevec_series_found told = SEARCHED(livevec_series_where_, s, what, lo, hi, 0);
        IS(told.refusal, refusal);
        IS(told.first, refusal == LIVEVEC_OUT_OF_RANGE ? first : 0);
        IS(told.size, refusal == LIVEVEC_OUT_OF_RANGE ? size : 0);
        IS(told.edit, 0);
        placed_alike(PLACE_OF(told), (place){0});
    }
}

static void places_refused(void)
{
    static const int64_t xs[] = {3, 1, 2};
    livevec_series s = {0};
    livevec_vector vector = {0};
    refused_by(LIVEVEC_NULL, NULL, 0, 0);
    refused_by(LIVEVEC_NO_HANDLE, &s, 0, 0);
    IS(livevec_new(&vector, 1, 9), 0);
    refused_by(LIVEVEC_NO_HANDLE, (livevec_series *)&vector, 0, 0);
    IS(livevec_free(&vector), 0);
    IS(livevec_series_new(&s), 0);
    IS(livevec_series_push_many(&s, xs, 3).refusal, 0);
    first = 1, size = 3;
    IS(livevec_series_expire(&s, first).refusal, 0);
    refused_by(LIVEVEC_BAD_RANGE, &s, 9, 8);
    refused_by(LIVEVEC_OUT_OF_RANGE, &s, 0, 2);
    refused_by(LIVEVEC_OUT_OF_RANGE, &s, 1, 4);
    s.busy_ = 1;
    refused_by(LIVEVEC_BUSY, &s, 1, 3);
    s.busy_ = 0;
    IS(livevec_free_series(&s), 0);
}

/* Where there is no memory for its tree a search is refused, and nothing has changed. */
static void want_of_trees(void)
{
    state = 23;
    for (size = 0; size < NEAR; size++)
        all[size] = draw_near(&state);
    for (wanted what = LEAST; what < SEARCHES; what++) {
        livevec_series s = {0};
        IS(livevec_series_new(&s), 0);
        IS(livevec_series_push_many(&s, all, NEAR).refusal, 0);
        until_failure = 1;
        livevec_series_found told = SEARCHED(livevec_series_where_, &s, what, 0, NEAR, 2);
        IS(told.refusal, LIVEVEC_NO_MEMORY);
        IS(told.edit, 0);
        placed_alike(PLACE_OF(told), (place){0});
        until_failure = 0;
        told = SEARCHED(livevec_series_where_, &s, what, 0, NEAR, 2);
        IS(told.edit, NEAR);
        placed_alike(PLACE_OF(told), placed(what, all, 0, NEAR, 2));
        IS(livevec_free_series(&s), 0);
    }
}

/* The values of samples are searched as a series is. */
static void of_samples(void)
{
    livevec_samples s = {0};
    first = size = 0;
    state = 19;
    IS(livevec_samples_new(&s), 0);
    for (int64_t time = -100; time < 100; time++) {
        all[size++] = draw_near(&state);
        IS(livevec_samples_push(&s, time / 3, all[size - 1]).place, size - 1);
    }
    edits = size + 1;
    first = 30;
    IS(livevec_series_expire(&s.values, first).refusal, 0);
    for (int i = 0; i < 60; i++)
        asked(&s.values, NEAR);
    IS(livevec_free_samples(&s), 0);
}

void series_places(void)
{
    beside_plain_loops();
    of_many_elements();
    sums_that_are_long();
    places_refused();
    want_of_trees();
    of_samples();
}
