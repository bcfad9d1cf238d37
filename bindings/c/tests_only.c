/* A vector of one kind: what it answers beside one of all six, and what it refuses. */
#include "tests.h"
#include "tests_places.h"
#include "tests_plain.h"

#include <string.h>

enum { MOST = 2000, KINDS = 6 };

static uint64_t state = 5;

static uint32_t below(uint32_t bound)
{
    return draw(&state, bound);
}

/* One cell of a column of a kind, in bytes. */
static const size_t widths[KINDS] = {sizeof(uint64_t), sizeof(int64_t), sizeof(int64_t), sizeof(livevec_total), sizeof(livevec_map), sizeof(livevec_states)};

/* A scan of a kind, into bytes. */
static livevec_scanned scan(livevec_vector *v, uint32_t kind, bool inclusive, uint32_t lo, uint32_t hi, void *column, size_t length)
{
    switch (kind) {
    case LIVEVEC_SUM: return (inclusive ? livevec_scan_inclusive_sum : livevec_scan_exclusive_sum)(v, lo, hi, column, length);
    case LIVEVEC_LEAST: return (inclusive ? livevec_scan_inclusive_least : livevec_scan_exclusive_least)(v, lo, hi, column, length);
    case LIVEVEC_GREATEST: return (inclusive ? livevec_scan_inclusive_greatest : livevec_scan_exclusive_greatest)(v, lo, hi, column, length);
    case LIVEVEC_BEST: return (inclusive ? livevec_scan_inclusive_best : livevec_scan_exclusive_best)(v, lo, hi, column, length);
    case LIVEVEC_AFFINE: return (inclusive ? livevec_scan_inclusive_affine : livevec_scan_exclusive_affine)(v, lo, hi, column, length);
    default: return (inclusive ? livevec_scan_inclusive_automaton : livevec_scan_exclusive_automaton)(v, lo, hi, column, length);
    }
}

/* The kinds by which the searches are made. */
static const uint32_t sought[SEARCHES] = {
    [LEAST] = LIVEVEC_LEAST,       [GREATEST] = LIVEVEC_GREATEST,      [BEST] = LIVEVEC_BEST,
    [REACHES] = LIVEVEC_BEST,      [REACHES_BACK] = LIVEVEC_BEST,      [FIRST_AT_LEAST] = LIVEVEC_GREATEST,
    [FIRST_AT_MOST] = LIVEVEC_LEAST, [LAST_AT_LEAST] = LIVEVEC_GREATEST, [LAST_AT_MOST] = LIVEVEC_LEAST,
};

/* What is asked of one kind and of all six alike, over a range. */
static void answer_alike(livevec_vector *one, livevec_vector *six, uint32_t kind, uint32_t lo, uint32_t hi)
{
    static unsigned char columns[2][MOST * sizeof(livevec_total)];
    livevec_reduced a = livevec_value(one, kind, lo, hi), b = livevec_value(six, kind, lo, hi);
    IS(a.refusal, b.refusal);
    IS(a.detail, b.detail);
    IS(a.edit, b.edit);
    IS(memcmp(&a.values, &b.values, offsetof(livevec_values, any)), 0);
    IS(a.values.any, b.values.any);
    for (int inclusive = 0; inclusive < 2; inclusive++) {
        memset(columns, 85, sizeof columns);
        livevec_scanned s = scan(one, kind, inclusive, lo, hi, columns[0], MOST), t = scan(six, kind, inclusive, lo, hi, columns[1], MOST);
        IS(memcmp(&s, &t, sizeof s), 0);
        IS(memcmp(columns[0], columns[1], MOST * widths[kind]), 0);
    }
    for (wanted what = LEAST; what < SEARCHES; what++) {
        livevec_found f = SEARCHED(livevec_where_, one, what, lo, hi, 700), g = SEARCHED(livevec_where_, six, what, lo, hi, 700);
        if (sought[what] != kind) {
            IS(f.refusal, LIVEVEC_BAD_KIND);
            IS(f.detail + f.edit + f.lo + f.hi + f.found, 0);
            continue;
        }
        IS(f.refusal, g.refusal);
        IS(f.lo, g.lo);
        IS(f.hi, g.hi);
        IS(f.value, g.value);
        IS(f.found, g.found);
    }
}

/* What a vector of a kind refuses, over a range that may be none: before that is looked at, and nothing is written. */
static void refuses(livevec_vector *one, uint32_t kind, uint32_t lo, uint32_t hi)
{
    livevec_values values[2];
    memset(values, 85, sizeof values);
    unsigned char marks[sizeof values], column[sizeof(livevec_total)];
    memset(marks, 85, sizeof marks);
    memset(column, 85, sizeof column);
    livevec_range range = {lo, hi};
    IS(livevec_reduce(one, lo, hi).refusal, LIVEVEC_BAD_KIND);
    IS(livevec_ask(one, lo, hi).refusal, LIVEVEC_BAD_KIND);
    IS(livevec_summary_of(one, lo, hi).refusal, LIVEVEC_BAD_KIND);
    IS(livevec_scan_inclusive(one, lo, hi, values, 2).refusal, LIVEVEC_BAD_KIND);
    IS(livevec_scan_exclusive(one, lo, hi, values, 0).refusal, LIVEVEC_BAD_KIND);
    for (uint32_t other = 0; other < KINDS; other++) {
        if (other == kind)
            continue;
        livevec_reduced r = livevec_value(one, other, lo, hi);
        IS(r.refusal, LIVEVEC_BAD_KIND);
        IS(r.detail + r.edit + r.values.any, 0);
        livevec_many many = livevec_value_many(one, other, &range, values, 1);
        IS(many.refusal, LIVEVEC_BAD_KIND);
        IS(many.detail + many.edit + many.done + many.place, 0);
        IS(scan(one, other, true, lo, hi, column, 1).refusal, LIVEVEC_BAD_KIND);
        IS(scan(one, other, false, lo, hi, column, 0).refusal, LIVEVEC_BAD_KIND);
    }
    IS(livevec_value(one, KINDS, lo, hi).refusal, LIVEVEC_BAD_KIND);
    IS(memcmp(values, marks, sizeof marks), 0);
    IS(memcmp(column, marks, sizeof column), 0);
}

/* Jobs and refresh go on. */
static void refreshed(livevec_vector *one)
{
    livevec_job job = {0};
    livevec_outcome outcome = {0};
    IS(livevec_claim(one, &job).found, true);
    IS(livevec_run(&job, &outcome), 0);
    IS(livevec_vet(one, &outcome).yes, true);
    IS(livevec_accept(one, &outcome).became, LIVEVEC_INSTALLED);
    IS(livevec_free_outcome(&outcome), 0);
    IS(livevec_refresh(one, 5).value, 5);
    IS(livevec_forget(one), 0);
}

static void of_kind(uint32_t kind)
{
    static const uint32_t indices[] = {3, 90, 3};
    static const int64_t values[] = {8, -9, INT64_MIN};
    static const livevec_range ranges[] = {{0, 9}, {2, 700}};
    livevec_values answers[2];
    livevec_vector one = {0}, six = {0};
    IS(livevec_new_of(&one, kind, 17, 100000), 0);
    IS(livevec_new(&six, 17, 100000), 0);
    answer_alike(&one, &six, kind, 0, 0);
    for (uint32_t i = 0; i < MOST; i++) {
        int64_t x = (int64_t)below(2001) - 1000;
        IS(livevec_push(&one, x).place, livevec_push(&six, x).place);
    }
    for (int round = 0; round < 40; round++) {
        uint32_t at = below(MOST), a = below(MOST + 1), b = below(MOST + 1);
        IS(livevec_write(&one, at, (int64_t)b - a).value, livevec_write(&six, at, (int64_t)b - a).value);
        answer_alike(&one, &six, kind, a < b ? a : b, a < b ? b : a);
        if (round == 20)
            refreshed(&one);
    }
    answer_alike(&one, &six, kind, 2, 1);
    answer_alike(&one, &six, kind, 0, MOST + 1);
    refuses(&one, kind, 0, 2);
    refuses(&one, kind, 2, 1);
    refuses(&one, kind, 0, MOST + 1);
    IS(livevec_write_many(&one, indices, values, 3).done, 3);
    IS(livevec_write_many(&six, indices, values, 3).done, 3);
    IS(livevec_value_many(&one, kind, ranges, answers, 2).done, 2);
    livevec_values wanted = livevec_value(&six, kind, 2, 700).values;
    IS(memcmp(&answers[1], &wanted, offsetof(livevec_values, any)), 0);
    IS(livevec_pop(&one).value, livevec_pop(&six).value);
    IS(livevec_truncate(&one, 100).place, livevec_truncate(&six, 100).place);
    answer_alike(&one, &six, kind, 0, 100);
    IS(livevec_edits(&one).value, livevec_edits(&six).value);
    IS(livevec_free(&one), 0);
    IS(livevec_free(&six), 0);
}

/* Each refusal of a birth, in the header's order. */
static void births(void)
{
    livevec_vector v = {0};
    IS(livevec_new_of(NULL, KINDS, 0, 0), LIVEVEC_NULL);
    IS(livevec_new_of(&v, KINDS, 0, 0), LIVEVEC_BAD_KIND);
    IS(livevec_new_of(&v, UINT32_MAX, 17, 100), LIVEVEC_BAD_KIND);
    IS(livevec_new_of(&v, LIVEVEC_SUM, 18, 100), LIVEVEC_BAD_LIMITS);
    IS(livevec_new_of(&v, LIVEVEC_SUM, 1, 0), LIVEVEC_BAD_LIMITS);
    until_failure = 1;
    IS(livevec_new_of(&v, LIVEVEC_SUM, 1, 100), LIVEVEC_NO_MEMORY);
    until_failure = 0;
    IS(livevec_size(&v).refusal, LIVEVEC_NO_HANDLE);
    IS(livevec_new_of(&v, LIVEVEC_SUM, 1, 100), 0);
    IS(livevec_new_of(&v, KINDS, 0, 0), LIVEVEC_IN_USE);
    IS(livevec_new(&v, 1, 100), LIVEVEC_IN_USE);
    IS(livevec_push(&v, 4).edit, 1);
    IS(livevec_value(&v, LIVEVEC_SUM, 0, 1).values.sum, 4);
    IS(livevec_free(&v), 0);
    IS(livevec_value(&v, LIVEVEC_LEAST, 0, 1).refusal, LIVEVEC_NO_HANDLE);
}

void one_kind(void)
{
    for (uint32_t kind = 0; kind < KINDS; kind++)
        of_kind(kind);
    births();
}
