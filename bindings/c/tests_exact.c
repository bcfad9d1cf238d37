/* Exact sums of vectors, series and samples: beside a plain loop in 128 bits. */
#include "tests.h"
#include "tests_plain.h"

enum { MOST = 3000, GONE = 5, KINDS = 6, BASES = 3 };

static uint64_t state = 73;
static int64_t xs[MOST];

static wide plain_sum(uint32_t lo, uint32_t hi)
{
    wide sum = 0;
    for (uint32_t i = lo; i < hi; i++)
        sum += xs[i];
    return sum;
}

static void comes_to(livevec_total got, wide wanted)
{
    IS(got.low, (uint64_t)wanted);
    IS(got.high, (int64_t)(wanted >> 64));
}

/* A vector, a series whose front has expired, and samples, of the same elements: of so many edits each. */
static livevec_vector vector;
static livevec_series series_of;
static livevec_samples samples_of;

static void make(void)
{
    static int64_t gone[GONE] = {INT64_MIN, INT64_MAX, 7, -7, INT64_MIN}, times[MOST];
    IS(livevec_new(&vector, 17, 100000), 0);
    IS(livevec_push_many(&vector, xs, MOST).pushed, MOST);
    IS(livevec_series_new(&series_of), 0);
    IS(livevec_series_push_many(&series_of, gone, GONE).pushed, GONE);
    IS(livevec_series_push_many(&series_of, xs, MOST).pushed, MOST);
    IS(livevec_series_expire(&series_of, GONE).place, GONE);
    IS(livevec_samples_new(&samples_of), 0);
    IS(livevec_samples_push_many(&samples_of, times, xs, MOST).done, MOST);
}

static void end(void)
{
    IS(livevec_free(&vector), 0);
    IS(livevec_free_series(&series_of), 0);
    IS(livevec_free_samples(&samples_of), 0);
}

/* Each of the three is asked for the sum of a range. */
static void sums_alike(uint32_t lo, uint32_t hi)
{
    wide wanted = plain_sum(lo, hi);
    livevec_summed v = livevec_exact_sum(&vector, lo, hi);
    IS(v.refusal, 0);
    IS(v.detail, 0);
    IS(v.edit, livevec_edits(&vector).value);
    comes_to(v.sum, wanted);
    livevec_series_summed s = livevec_series_exact_sum(&series_of, GONE + lo, GONE + hi);
    IS(s.refusal, 0);
    IS(s.first + s.size, 0);
    IS(s.edit, livevec_series_edits(&series_of).value);
    comes_to(s.sum, wanted);
    s = livevec_series_exact_sum(&samples_of.values, lo, hi);
    IS(s.refusal, 0);
    IS(s.edit, livevec_series_edits(&samples_of.values).value);
    comes_to(s.sum, wanted);
}

/* Elements from `base` up to `spread` above it, both among them: so that all of them, some thousands, some dozens or one may be told by a sum modulo
 * 2^64. */
static void of_spread(int64_t base, uint64_t spread)
{
    for (uint32_t i = 0; i < MOST; i++) {
        uint64_t any = (uint64_t)draw(&state, 1u << 31) << 33 ^ (uint64_t)draw(&state, 1u << 31) << 16 ^ draw(&state, 1u << 31);
        xs[i] = (int64_t)((uint64_t)base + (i == 11 ? spread : i == MOST - 2 ? 0 : spread == UINT64_MAX ? any : any % (spread + 1)));
    }
    make();
    sums_alike(0, MOST);
    sums_alike(0, 0);
    sums_alike(MOST, MOST);
    sums_alike(11, 12);
    for (int round = 0; round < 30; round++) {
        uint32_t at = draw(&state, MOST), a = draw(&state, MOST + 1), b = draw(&state, MOST + 1);
        xs[at] = xs[draw(&state, MOST)];
        IS(livevec_write(&vector, at, xs[at]).refusal, 0);
        IS(livevec_series_write(&series_of, GONE + at, xs[at]).refusal, 0);
        IS(livevec_series_write(&samples_of.values, at, xs[at]).refusal, 0);
        sums_alike(a < b ? a : b, a < b ? b : a);
    }
    end();
}

/* All elements the same: none is far from another, and the sum is the greatest or the least that there is. */
static void of_one_number(int64_t x)
{
    for (uint32_t i = 0; i < MOST; i++)
        xs[i] = x;
    make();
    comes_to(livevec_exact_sum(&vector, 1, MOST).sum, (wide)x * (MOST - 1));
    comes_to(livevec_series_exact_sum(&series_of, GONE, GONE + MOST).sum, (wide)x * MOST);
    end();
}

/* A vector of one kind is asked for that alone: its elements are added up. */
static void of_one_kind(void)
{
    for (uint32_t i = 0; i < MOST; i++)
        xs[i] = draw_element(&state);
    for (uint32_t kind = 0; kind < KINDS; kind++) {
        livevec_vector one = {0};
        IS(livevec_new_of(&one, kind, 17, 100000), 0);
        IS(livevec_exact_sum(&one, 0, 0).refusal, 0);
        IS(livevec_push_many(&one, xs, MOST).pushed, MOST);
        comes_to(livevec_exact_sum(&one, 3, MOST).sum, plain_sum(3, MOST));
        IS(livevec_exact_sum(&one, 3, MOST).edit, MOST);
        comes_to(livevec_exact_sum(&one, MOST, MOST).sum, 0);
        IS(livevec_exact_sum(&one, 2, 1).refusal, LIVEVEC_BAD_RANGE);
        IS(livevec_exact_sum(&one, 0, MOST + 1).detail, MOST);
        IS(livevec_free(&one), 0);
    }
}

/* What is refused tells why, and nothing else. */
static void refused(livevec_summed v, uint32_t why, uint32_t detail)
{
    IS(v.refusal, why);
    IS(v.detail, detail);
    IS(v.edit, 0);
    comes_to(v.sum, 0);
}

static void refused_at_series(livevec_series_summed s, uint32_t why, uint64_t first, uint64_t size)
{
    IS(s.refusal, why);
    IS(s.first, first);
    IS(s.size, size);
    IS(s.edit, 0);
    comes_to(s.sum, 0);
}

static void refusals(void)
{
    livevec_vector v = {0};
    livevec_series s = {0};
    refused(livevec_exact_sum(NULL, 0, 0), LIVEVEC_NULL, 0);
    refused(livevec_exact_sum(&v, 2, 1), LIVEVEC_NO_HANDLE, 0);
    refused_at_series(livevec_series_exact_sum(NULL, 0, 0), LIVEVEC_NULL, 0, 0);
    refused_at_series(livevec_series_exact_sum(&s, 2, 1), LIVEVEC_NO_HANDLE, 0, 0);
    make();
    /* each where the other should be */
    refused(livevec_exact_sum((livevec_vector *)&series_of, 0, 0), LIVEVEC_NO_HANDLE, 0);
    refused_at_series(livevec_series_exact_sum((livevec_series *)&vector, 0, 0), LIVEVEC_NO_HANDLE, 0, 0);
    refused(livevec_exact_sum(&vector, 2, 1), LIVEVEC_BAD_RANGE, 0);
    refused(livevec_exact_sum(&vector, MOST + 2, MOST + 1), LIVEVEC_BAD_RANGE, 0);
    refused(livevec_exact_sum(&vector, 0, MOST + 1), LIVEVEC_OUT_OF_RANGE, MOST);
    refused(livevec_exact_sum(&vector, UINT32_MAX, UINT32_MAX), LIVEVEC_OUT_OF_RANGE, MOST);
    refused_at_series(livevec_series_exact_sum(&series_of, GONE + 2, GONE + 1), LIVEVEC_BAD_RANGE, 0, 0);
    refused_at_series(livevec_series_exact_sum(&series_of, GONE - 1, GONE), LIVEVEC_OUT_OF_RANGE, GONE, GONE + MOST);
    refused_at_series(livevec_series_exact_sum(&series_of, GONE, UINT64_MAX), LIVEVEC_OUT_OF_RANGE, GONE, GONE + MOST);
    vector.busy_ = series_of.busy_ = 1;
    refused(livevec_exact_sum(&vector, 0, 1), LIVEVEC_BUSY, 0);
    refused_at_series(livevec_series_exact_sum(&series_of, GONE, GONE + 1), LIVEVEC_BUSY, 0, 0);
    vector.busy_ = series_of.busy_ = 0;
    IS(livevec_series_lend(&series_of, GONE, GONE + 1).refusal, 0);
    refused_at_series(livevec_series_exact_sum(&series_of, GONE, GONE + 1), LIVEVEC_BUSY, 0, 0);
    IS(livevec_series_give_back(&series_of), 0);
    end();
}

/* A vector wants no memory. A series is refused where the nth request for a tree fails, for each n, and is as it was then. */
static void want_of_memory(void)
{
    bool failed = true;
    int refusals = 0;
    for (uint32_t i = 0; i < MOST; i++)
        xs[i] = INT64_MAX - i;
    for (int nth = 1; failed && nth < 100; nth++) {
        make();
        until_failure = nth;
        livevec_series_summed s = livevec_series_exact_sum(&series_of, GONE, GONE + MOST);
        failed = until_failure == 0;
        until_failure = 0;
        if (failed)
            refused_at_series(s, LIVEVEC_NO_MEMORY, 0, 0);
        else
            comes_to(s.sum, plain_sum(0, MOST));
        refusals += failed;
        until_failure = 1;
        comes_to(livevec_exact_sum(&vector, 0, MOST).sum, plain_sum(0, MOST));
        IS(until_failure, 1);
        until_failure = 0;
        sums_alike(7, MOST);
        end();
    }
    IS(refusals >= 2 && !failed, 1);
}

void exact_sums(void)
{
    static const uint64_t spreads[] = {0,          1,         2000,           1ull << 51,     1ull << 52,     1ull << 53, 1ull << 57,
                                       (1ull << 58) - 1, 1ull << 58, (1ull << 58) + 1, 1ull << 60, 1ull << 63, UINT64_MAX - 1, UINT64_MAX};
    for (size_t i = 0; i < sizeof spreads / sizeof *spreads; i++) {
        const int64_t bases[BASES] = {INT64_MIN, (int64_t)((uint64_t)INT64_MAX - spreads[i]), (int64_t)(0 - spreads[i] / 2)};
        for (int base = 0; base < BASES; base++)
            of_spread(bases[base], spreads[i]);
    }
    of_one_number(INT64_MIN);
    of_one_number(INT64_MAX);
    of_one_number(-1);
    of_one_kind();
    refusals();
    want_of_memory();
}
