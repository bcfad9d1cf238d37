/* Where in a range of a vector something stands, beside plain loops over the same elements. */
#include "tests.h"
#include "tests_places.h"
#include "tests_plain.h"

enum { MOST = 300, ROUNDS = 300, ASKED = 25 };

static uint64_t state;

/* All searches of a range by one number each, all after some edit. */
static void searched(livevec_vector *v, const int64_t *xs, uint32_t lo, uint32_t hi, uint32_t edit)
{
    for (wanted what = LEAST; what < SEARCHES; what++) {
        int64_t x = draw_compared(&state, what);
        livevec_found told = SEARCHED(livevec_where_, v, what, lo, hi, x);
        IS(told.refusal, 0);
        IS(told.detail, 0);
        IS(told.edit, edit);
        placed_alike(PLACE_OF(told), placed(what, xs, lo, hi, x));
    }
}

/* Random writes and pushes, and all questions of random ranges, also where summaries are delivered. */
static void beside_plain_loops(void)
{
    static int64_t xs[MOST];
    uint32_t size = 0, edits = 0;
    livevec_vector v = {0};
    state = 11;
    IS(livevec_new(&v, 17, 1000000), 0);
    for (int round = 0; round < ROUNDS; round++) {
        int64_t x = draw_near(&state);
        uint32_t at = size ? draw(&state, size) : 0;
        if (size < MOST && (round % 3 || !size))
            IS(livevec_push(&v, xs[size++] = x).refusal, 0);
        else
            IS(livevec_write(&v, at, xs[at] = x).refusal, 0);
        edits++;
        if (draw(&state, 6) == 0)
            IS(livevec_refresh(&v, draw(&state, 9)).refusal, 0);
        for (int i = 0; i < ASKED; i++) {
            uint32_t a = draw(&state, size + 1), b = draw(&state, size + 1);
            searched(&v, xs, a < b ? a : b, a < b ? b : a, edits);
        }
    }
    IS(livevec_edits(&v).value, edits);
    IS(livevec_free(&v), 0);
}

/* Sums past 64 bits don't wrap, from either end. Expected places are by hand. */
static void sums_that_are_long(void)
{
    static const int64_t xs[] = {INT64_MAX, INT64_MAX, INT64_MAX, INT64_MIN};
    livevec_vector v = {0};
    IS(livevec_new(&v, 1, 100), 0);
    IS(livevec_push_many(&v, xs, 4).refusal, 0);
    placed_alike(PLACE_OF(livevec_where_reaches(&v, 0, 4, INT64_MAX)), (place){.hi = 1, .found = true});
    placed_alike(PLACE_OF(livevec_where_reaches(&v, 3, 4, INT64_MIN)), (place){.lo = 3, .hi = 3, .found = true});
    placed_alike(PLACE_OF(livevec_where_reaches(&v, 3, 4, 1)), (place){0});
    /* from the end on: INT64_MIN, -1, INT64_MAX - 1, 2 * INT64_MAX - 1 */
    placed_alike(PLACE_OF(livevec_where_reaches_back(&v, 0, 4, INT64_MAX)), (place){.hi = 4, .found = true});
    placed_alike(PLACE_OF(livevec_where_reaches_back(&v, 0, 4, INT64_MAX - 1)), (place){.lo = 1, .hi = 4, .found = true});
    placed_alike(PLACE_OF(livevec_where_reaches_back(&v, 1, 4, INT64_MAX)), (place){0});
    placed_alike(PLACE_OF(livevec_where_reaches_back(&v, 0, 4, INT64_MIN)), (place){.lo = 4, .hi = 4, .found = true});
    placed_alike(PLACE_OF(livevec_where_best(&v, 0, 4)), (place){.hi = 3, .sum_low = (uint64_t)INT64_MAX - 2, .sum_high = 1, .found = true});
    IS(livevec_free(&v), 0);
}

static void refused_by(uint32_t refusal, uint32_t detail, livevec_vector *v, uint32_t lo, uint32_t hi)
{
    for (wanted what = LEAST; what < SEARCHES; what++) {
        livevec_found told = SEARCHED(livevec_where_, v, what, lo, hi, 0);
        IS(told.refusal, refusal);
        IS(told.detail, detail);
        IS(told.edit, 0);
        placed_alike(PLACE_OF(told), (place){0});
    }
}

static void places_refused(void)
{
    static const int64_t xs[] = {3, 1, 2};
    livevec_vector v = {0};
    refused_by(LIVEVEC_NULL, 0, NULL, 0, 0);
    refused_by(LIVEVEC_NO_HANDLE, 0, &v, 0, 0);
    IS(livevec_new(&v, 1, 100), 0);
    IS(livevec_push_many(&v, xs, 3).refusal, 0);
    refused_by(LIVEVEC_BAD_RANGE, 0, &v, 9, 8);
    refused_by(LIVEVEC_OUT_OF_RANGE, 3, &v, 1, 4);
    v.busy_ = 1;
    refused_by(LIVEVEC_BUSY, 0, &v, 0, 3);
    v.busy_ = 0;
    IS(livevec_free(&v), 0);
}

void places(void)
{
    beside_plain_loops();
    sums_that_are_long();
    places_refused();
}
