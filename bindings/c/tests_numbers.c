/* The functions that are told by a number what is meant: each number is what its name is, and one that is none is refused and changes nothing. */
#include "tests.h"

#include <string.h>

enum { NO_NUMBER = 9, MOST = 4 };

/* What an edit doesn't have isn't looked at. */
static void edits_of_a_vector(void)
{
    livevec_vector v = {0};
    IS(livevec_make_edit(NULL, LIVEVEC_PUSH, 0, 0, 1).refusal, LIVEVEC_NULL);
    IS(livevec_make_edit(&v, LIVEVEC_PUSH, 0, 0, 1).refusal, LIVEVEC_NO_HANDLE);
    IS(livevec_new(&v, 2, 99), 0);
    IS(livevec_make_edit(&v, LIVEVEC_PUSH, 7, 7, 30).place, 0);
    IS(livevec_make_edit(&v, LIVEVEC_PUSH, 7, 7, 10).place, 1);
    IS(livevec_make_edit(&v, LIVEVEC_SWAP, 0, 1, 7).value, 10);
    IS(livevec_make_edit(&v, LIVEVEC_WRITE, 1, 7, 20).value, 30);
    IS(livevec_make_edit(&v, LIVEVEC_RESERVE, 20, 7, 7).place, 24);
    IS(livevec_make_edit(&v, LIVEVEC_POP, 7, 7, 7).value, 20);
    IS(livevec_make_edit(&v, LIVEVEC_TRUNCATE, 0, 7, 7).place, 1);
    IS(livevec_make_edit(&v, LIVEVEC_WRITE, 0, 0, 1).refusal, LIVEVEC_OUT_OF_RANGE);
    IS(livevec_make_edit(&v, 0, 0, 0, 1).refusal, LIVEVEC_NO_HANDLE);
    IS(livevec_make_edit(&v, LIVEVEC_EXPIRE, 0, 0, 1).refusal, LIVEVEC_NO_HANDLE);
    IS(livevec_make_edit(&v, NO_NUMBER, 0, 0, 1).refusal, LIVEVEC_NO_HANDLE);
    IS(livevec_edits(&v).value, 7);
    IS(livevec_judge_edit(NULL, LIVEVEC_PUSH, 0, 0, 1).refusal, LIVEVEC_NULL);
    IS(livevec_judge_edit(&v, LIVEVEC_PUSH, 7, 7, 1).refusal, 0);
    IS(livevec_judge_edit(&v, LIVEVEC_POP, 0, 0, 1).refusal, LIVEVEC_EMPTY);
    IS(livevec_judge_edit(&v, LIVEVEC_RESERVE, 25, 0, 0).detail, 24);
    IS(livevec_judge_edit(&v, LIVEVEC_EXPIRE, 0, 0, 1).refusal, LIVEVEC_NO_HANDLE);
    IS(livevec_judge_edit(&v, NO_NUMBER, 0, 0, 1).refusal, LIVEVEC_NO_HANDLE);
    IS(livevec_edits(&v).value, 7);
    IS(livevec_free(&v), 0);
}

static void edits_of_a_series(void)
{
    livevec_series s = {0};
    IS(livevec_series_make_edit(NULL, LIVEVEC_PUSH, 0, 0, 1).refusal, LIVEVEC_NULL);
    IS(livevec_series_make_edit(&s, LIVEVEC_PUSH, 0, 0, 1).refusal, LIVEVEC_NO_HANDLE);
    IS(livevec_series_new(&s), 0);
    for (int64_t i = 0; i < 4; i++)
        IS(livevec_series_make_edit(&s, LIVEVEC_PUSH, 7, 7, 10 * i).place, i);
    IS(livevec_series_make_edit(&s, LIVEVEC_SWAP, 0, 3, 7).value, 30);
    IS(livevec_series_make_edit(&s, LIVEVEC_WRITE, 1, 7, 5).value, 10);
    IS(livevec_series_make_edit(&s, LIVEVEC_POP, 7, 7, 7).value, 0);
    IS(livevec_series_make_edit(&s, LIVEVEC_EXPIRE, 1, 7, 7).place, 1);
    IS(livevec_series_make_edit(&s, LIVEVEC_TRUNCATE, 2, 7, 7).place, 1);
    IS(livevec_series_make_edit(&s, LIVEVEC_RESERVE, 1, 0, 0).refusal, LIVEVEC_NO_HANDLE);
    IS(livevec_series_make_edit(&s, 0, 0, 0, 0).refusal, LIVEVEC_NO_HANDLE);
    IS(livevec_series_make_edit(&s, NO_NUMBER, 0, 0, 0).refusal, LIVEVEC_NO_HANDLE);
    IS(livevec_series_edits(&s).value, 9);
    IS(livevec_series_get(&s, 1).value, 5);
    IS(livevec_free_series(&s), 0);
}

/* A number that is no search comes before what the slot holds. */
static void searches(void)
{
    static const int64_t values[MOST] = {30, 10, 50, 10};
    livevec_vector v = {0}, of_sums = {0};
    livevec_series s = {0};
    IS(livevec_find(NULL, NO_NUMBER, 0, 0, 0).refusal, LIVEVEC_NULL);
    IS(livevec_find(&v, NO_NUMBER, 0, 0, 0).refusal, LIVEVEC_BAD_KIND);
    IS(livevec_find(&v, LIVEVEC_WHERE_LEAST, 0, 0, 0).refusal, LIVEVEC_NO_HANDLE);
    IS(livevec_series_find(NULL, NO_NUMBER, 0, 0, 0).refusal, LIVEVEC_NULL);
    IS(livevec_series_find(&s, NO_NUMBER, 0, 0, 0).refusal, LIVEVEC_BAD_KIND);
    IS(livevec_new(&v, 2, 99) + livevec_series_new(&s) + livevec_new_of(&of_sums, LIVEVEC_SUM, 1, 9), 0);
    IS(livevec_push_many(&v, values, MOST).pushed + livevec_series_push_many(&s, values, MOST).pushed, 2 * MOST);
    for (uint32_t wanted = LIVEVEC_WHERE_LEAST; wanted <= LIVEVEC_WHERE_LAST_AT_MOST; wanted++) {
        /* by the first least, the first greatest, the whole run, 40 from either side, and 30 as a bound */
        static const uint32_t los[] = {1, 2, 0, 0, 2, 0, 0, 2, 3}, his[] = {2, 3, 4, 2, 4, 1, 1, 3, 4};
        int64_t x = wanted == LIVEVEC_WHERE_REACHES || wanted == LIVEVEC_WHERE_REACHES_BACK ? 40 : 30;
        livevec_found found = livevec_find(&v, wanted, 0, MOST, x);
        livevec_series_found long_found = livevec_series_find(&s, wanted, 0, MOST, x);
        IS(found.refusal + long_found.refusal, 0);
        IS(found.lo, los[wanted]);
        IS(found.hi, his[wanted]);
        IS(long_found.lo, los[wanted]);
        IS(long_found.hi, his[wanted]);
    }
    IS(livevec_find(&v, NO_NUMBER, 0, MOST, 0).refusal, LIVEVEC_BAD_KIND);
    IS(livevec_find(&v, LIVEVEC_WHERE_BEST, 2, 1, 0).refusal, LIVEVEC_BAD_RANGE);
    IS(livevec_find(&of_sums, LIVEVEC_WHERE_BEST, 2, 1, 0).refusal, LIVEVEC_BAD_KIND);
    IS(livevec_free(&v) + livevec_free(&of_sums) + livevec_free_series(&s), 0);
}

/* The last cell of a column of each kind, as the one value of the range has it. */
static bool is_last(uint32_t kind, const void *cells, size_t at, livevec_values all)
{
    switch (kind) {
    case LIVEVEC_SUM: return ((const uint64_t *)cells)[at] == all.sum;
    case LIVEVEC_LEAST: return ((const int64_t *)cells)[at] == all.least;
    case LIVEVEC_GREATEST: return ((const int64_t *)cells)[at] == all.greatest;
    case LIVEVEC_BEST: return ((const livevec_total *)cells)[at].low == all.best_low;
    case LIVEVEC_AFFINE: return ((const livevec_map *)cells)[at].b == all.affine_b;
    case LIVEVEC_AUTOMATON: return !memcmp(&((const livevec_states *)cells)[at], all.automaton, sizeof all.automaton);
    default: return ((const livevec_values *)cells)[at].sum == all.sum;
    }
}

/* A column is judged by the cells of its kind before the slot is entered; a number that is no kind comes before what the slot holds. */
static void scans(void)
{
    static const int64_t values[MOST] = {30, -10, 50, 7};
    livevec_values column[MOST];
    livevec_vector v = {0};
    livevec_series s = {0};
    IS(livevec_scan(NULL, LIVEVEC_SUM, true, 0, 0, NULL, 0).refusal, LIVEVEC_NULL);
    IS(livevec_scan(&v, LIVEVEC_SUM, true, 0, 0, NULL, 1).refusal, LIVEVEC_NULL);
    IS(livevec_scan(&v, NO_NUMBER, true, 0, 0, column, 1).refusal, LIVEVEC_BAD_KIND);
    IS(livevec_scan(&v, LIVEVEC_ALL_SIX, true, 0, 0, column, 1).refusal, LIVEVEC_NO_HANDLE);
    IS(livevec_scan(&v, LIVEVEC_ALL_SIX, true, 0, 0, column, PTRDIFF_MAX / sizeof *column + 1).refusal, LIVEVEC_TOO_LONG);
    IS(livevec_scan(&v, LIVEVEC_BEST, true, 0, 0, column, PTRDIFF_MAX / sizeof(livevec_total) + 1).refusal, LIVEVEC_TOO_LONG);
    IS(livevec_scan(&v, LIVEVEC_SUM, true, 0, 0, column, PTRDIFF_MAX / sizeof(uint64_t)).refusal, LIVEVEC_NO_HANDLE);
    IS(livevec_series_scan(&s, NO_NUMBER, true, 0, 0, 0, column, 1).refusal, LIVEVEC_BAD_KIND);
    IS(livevec_series_scan(&s, LIVEVEC_SUM, true, 0, 0, 0, NULL, 1).refusal, LIVEVEC_NULL);
    IS(livevec_new(&v, 2, 99) + livevec_series_new(&s), 0);
    IS(livevec_push_many(&v, values, MOST).pushed + livevec_series_push_many(&s, values, MOST).pushed, 2 * MOST);
    livevec_values all = livevec_reduce(&v, 0, MOST).values, before = livevec_reduce(&v, 0, MOST - 1).values;
    for (uint32_t kind = LIVEVEC_SUM; kind <= LIVEVEC_ALL_SIX; kind++) {
        IS(livevec_scan(&v, kind, true, 0, MOST, column, MOST).length, MOST);
        IS(is_last(kind, column, MOST - 1, all), true);
        IS(livevec_scan(&v, kind, false, 0, MOST, column, MOST).length, MOST);
        IS(is_last(kind, column, MOST - 1, before), true);
        IS(livevec_scan(&v, kind, true, 0, MOST, column, MOST - 1).refusal, LIVEVEC_SHORT_BUFFER);
        IS(livevec_scan(&v, kind, true, 2, 2, NULL, 0).refusal, 0);
        IS(livevec_series_scan(&s, kind, true, 0, 2, MOST, column, MOST).length, MOST - 2);
        IS(is_last(kind, column, MOST - 3, all), true);
        IS(livevec_series_scan(&s, kind, false, 0, 2, MOST, column, MOST).length, MOST - 2);
        IS(is_last(kind, column, MOST - 3, before), true);
        IS(livevec_series_scan(&s, kind, true, 0, 0, MOST, NULL, 0).length, 0);
    }
    IS(livevec_scan(&v, NO_NUMBER, true, 0, MOST, column, MOST).refusal, LIVEVEC_BAD_KIND);
    IS(livevec_free(&v) + livevec_free_series(&s), 0);
}

/* A slot of each type is entered where its type has the byte for that, and holds nothing of another sort. */
static void frees(void)
{
    livevec_vector v = {0};
    livevec_samples samples = {0};
    livevec_queries queries = {0};
    IS(livevec_free_slot(NULL, LIVEVEC_VECTOR), LIVEVEC_NULL);
    IS(livevec_free_slot(&v, LIVEVEC_VECTOR), LIVEVEC_NO_HANDLE);
    IS(livevec_new(&v, 1, 9) + livevec_samples_new(&samples) + livevec_queries_new(&queries), 0);
    for (uint32_t sort = LIVEVEC_VECTOR; sort <= NO_NUMBER; sort++) {
        IS(sort == LIVEVEC_VECTOR || livevec_free_slot(&v, sort) == LIVEVEC_NO_HANDLE, true);
        IS(sort == LIVEVEC_SERIES || livevec_free_slot(&samples, sort) == LIVEVEC_NO_HANDLE, true);
        IS(sort == LIVEVEC_QUERIES || livevec_free_slot(&queries, sort) == LIVEVEC_NO_HANDLE, true);
    }
    v.busy_ = queries.busy_ = 1;
    IS(livevec_free_slot(&v, LIVEVEC_VECTOR), LIVEVEC_BUSY);
    IS(livevec_free_slot(&queries, LIVEVEC_QUERIES), LIVEVEC_BUSY);
    v.busy_ = queries.busy_ = 0;
    IS(livevec_free_slot(&v, LIVEVEC_VECTOR) + livevec_free_slot(&samples, LIVEVEC_SERIES) + livevec_free_slot(&queries, LIVEVEC_QUERIES), 0);
    IS(livevec_free_slot(&v, LIVEVEC_VECTOR), LIVEVEC_NO_HANDLE);
}

void numbers(void)
{
    edits_of_a_vector();
    edits_of_a_series();
    searches();
    scans();
    frees();
}
