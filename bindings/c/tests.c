/* Good and bad use of livevec.h. Each expected value is worked out by hand. */
#include "tests.h"

#include <stdio.h>
#include <stdlib.h>
#include <string.h>

static int checks, failures;

void is(const char *file, int line, const char *what, long long got, long long wanted)
{
    checks++;
    if (got != wanted) {
        failures++;
        printf("%s:%d: %s is %lld and should be %lld\n", file, line, what, got, wanted);
    }
}

static const livevec_vector empty_vector;
static const livevec_job empty_job;
static const livevec_outcome empty_outcome;

/* Edits, each with its number, its place or element, and each refusal. */
static void edits(void)
{
    livevec_vector v = empty_vector;
    IS(livevec_new(&v, 1, 6), LIVEVEC_OK);
    IS(livevec_pop(&v).refusal, LIVEVEC_EMPTY);
    livevec_edited e = livevec_push(&v, -7);
    IS(e.refusal, 0);
    IS(e.edit, 1);
    IS(e.place, 0);
    e = livevec_push(&v, INT64_MAX);
    IS(e.edit, 2);
    IS(e.place, 1);
    e = livevec_write(&v, 2, 1);
    IS(e.refusal, LIVEVEC_OUT_OF_RANGE);
    IS(e.detail, 2);
    e = livevec_write(&v, 0, 5);
    IS(e.edit, 3);
    IS(e.value, -7);
    e = livevec_reserve(&v, 9);
    IS(e.refusal, LIVEVEC_TOO_LARGE);
    IS(e.detail, 8);
    e = livevec_reserve(&v, 3);
    IS(e.edit, 4);
    IS(e.place, 8);
    e = livevec_pop(&v);
    IS(e.edit, 5);
    IS(e.value, INT64_MAX);
    IS(livevec_get(&v, 0).value, 5);
    IS(livevec_get(&v, 1).refusal, LIVEVEC_OUT_OF_RANGE);
    IS(livevec_get(&v, 1).detail, 1);
    IS(livevec_size(&v).value, 1);
    IS(livevec_capacity(&v).value, 8);
    IS(livevec_edits(&v).value, 5);
    IS(livevec_push(&v, 1).edit, 6);
    IS(livevec_push(&v, 1).refusal, LIVEVEC_WORN);
    IS(livevec_free(&v), LIVEVEC_OK);
}

/* The six kinds of 4, -6, 1027, 1025: by hand from the definitions. */
static void reductions(void)
{
    static const int64_t elements[] = {4, -6, 1027, 1025};
    livevec_vector v = empty_vector;
    IS(livevec_new(&v, 17, 100), 0);
    livevec_pushed pushed = livevec_push_many(&v, elements, 4);
    IS(pushed.refusal, 0);
    IS(pushed.pushed, 4);
    IS(pushed.edit, 4);
    livevec_reduced r = livevec_reduce(&v, 0, 4);
    IS(r.refusal, 0);
    IS(r.edit, 4);
    IS(r.cells, 4);
    IS(r.summaries, 0);
    IS(r.values.any, true);
    IS(r.values.sum, 2050);
    IS(r.values.least, -6);
    IS(r.values.greatest, 1027);
    IS(r.values.best_low, 2052);
    IS(r.values.best_high, 0);
    /* y -> 0y + 4, then -1y + 250, then 4y + 3, then 4y + 1: 4 * (4 * (250 - 4) + 3) + 1 */
    IS(r.values.affine_a, 0);
    IS(r.values.affine_b, 3949);
    /* remainders by 4: 0, 2, 3, 1; three steps forget the start, so 2 * (2 * 2 + 3) + 1, modulo 8 */
    for (int q = 0; q < 8; q++)
        IS(r.values.automaton[q], 7);
    r = livevec_reduce(&v, 1, 2);
    IS((int64_t)r.values.sum, -6);
    IS((int64_t)r.values.best_low, -6);
    IS(r.values.best_high, -1);
    r = livevec_ask(&v, 2, 2);
    IS(r.values.any, false);
    IS(r.values.sum, 0);
    IS(r.values.affine_a, 1);
    IS(r.values.automaton[5], 5);
    IS(livevec_reduce(&v, 3, 2).refusal, LIVEVEC_BAD_RANGE);
    r = livevec_ask(&v, 0, 5);
    IS(r.refusal, LIVEVEC_OUT_OF_RANGE);
    IS(r.detail, 4);
    IS(r.edit, 0);

    livevec_values values[4];
    memset(values, 0, sizeof values);
    livevec_scanned s = livevec_scan_inclusive(&v, 0, 4, values, 3);
    IS(s.refusal, LIVEVEC_SHORT_BUFFER);
    IS(s.detail, 4);
    IS(values[0].sum, 0);
    s = livevec_scan_inclusive(&v, 0, 4, values, 4);
    IS(s.length, 4);
    IS(s.edit, 4);
    IS((int64_t)values[1].sum, -2);
    IS(values[2].sum, 1025);
    IS(values[2].greatest, 1027);
    s = livevec_scan_exclusive(&v, 1, 3, values, 4);
    IS(s.length, 2);
    IS(values[0].any, false);
    IS((int64_t)values[1].sum, -6);
    IS(values[2].sum, 1025);
    int64_t read[2] = {0, 0};
    IS(livevec_read(&v, 1, 4, read, 2).refusal, LIVEVEC_SHORT_BUFFER);
    IS(livevec_read(&v, 1, 3, read, 2).length, 2);
    IS(read[0], -6);
    IS(read[1], 1027);
    IS(livevec_read(&v, 2, 1, read, 2).refusal, LIVEVEC_BAD_RANGE);
    IS(livevec_read(&v, 2, 9, read, 2).refusal, LIVEVEC_OUT_OF_RANGE);
    IS(livevec_free(&v), 0);
}

/* Swaps and truncates. */
static void moves(void)
{
    static const int64_t elements[] = {1, 2, 3, 4};
    livevec_vector v = empty_vector;
    IS(livevec_new(&v, 17, 100), 0);
    IS(livevec_push_many(&v, elements, 4).pushed, 4);
    livevec_edited e = livevec_swap(&v, 0, 3);
    IS(e.refusal, 0);
    IS(e.edit, 5);
    IS(e.value, 4);
    IS(livevec_get(&v, 3).value, 1);
    e = livevec_swap(&v, 1, 4);
    IS(e.refusal, LIVEVEC_OUT_OF_RANGE);
    IS(e.detail, 4);
    e = livevec_truncate(&v, 5);
    IS(e.refusal, LIVEVEC_OUT_OF_RANGE);
    e = livevec_truncate(&v, 1);
    IS(e.edit, 6);
    IS(e.place, 3);
    IS(livevec_size(&v).value, 1);
    IS(livevec_reduce(&v, 0, 1).values.sum, 4);
    IS(livevec_swap(NULL, 0, 0).refusal, LIVEVEC_NULL);
    IS(livevec_truncate(NULL, 0).refusal, LIVEVEC_NULL);
    IS(livevec_free(&v), 0);
}

/* Verdicts: each is what the edit is then refused with, and changes nothing. */
static void verdicts(void)
{
    livevec_vector v = empty_vector;
    IS(livevec_verdict_push(&v, 1).refusal, LIVEVEC_NO_HANDLE);
    IS(livevec_verdict_truncate(NULL, 0).refusal, LIVEVEC_NULL);
    IS(livevec_new(&v, 1, 10), 0);
    IS(livevec_verdict_pop(&v).refusal, LIVEVEC_EMPTY);
    IS(livevec_verdict_push(&v, 1).refusal, 0);
    for (int64_t i = 0; i < 8; i++)
        IS(livevec_push(&v, i).refusal, 0);
    IS(livevec_verdict_push(&v, 1).refusal, LIVEVEC_FULL);
    IS(livevec_verdict_write(&v, 8, 1).refusal, LIVEVEC_OUT_OF_RANGE);
    IS(livevec_verdict_write(&v, 8, 1).detail, 8);
    IS(livevec_verdict_reserve(&v, 9).refusal, LIVEVEC_TOO_LARGE);
    IS(livevec_verdict_reserve(&v, 9).detail, 8);
    IS(livevec_verdict_swap(&v, 0, 9).refusal, LIVEVEC_OUT_OF_RANGE);
    IS(livevec_verdict_truncate(&v, 9).refusal, LIVEVEC_OUT_OF_RANGE);
    IS(livevec_verdict_truncate(&v, 8).refusal, 0);
    IS(livevec_verdict_swap(&v, 0, 7).refusal, 0);
    IS(livevec_edits(&v).value, 8);
    IS(livevec_swap(&v, 0, 7).edit, 9);
    IS(livevec_pop(&v).edit, 10);
    IS(livevec_verdict_pop(&v).refusal, LIVEVEC_WORN);
    IS(livevec_verdict_pop(&v).detail, 0);
    IS(livevec_free(&v), 0);
}

/* Limits and tables at birth. */
static void births(void)
{
    livevec_vector v = empty_vector;
    livevec_table table;
    IS(livevec_new(&v, 0, 1), LIVEVEC_BAD_LIMITS);
    IS(livevec_new(&v, 18, 1), LIVEVEC_BAD_LIMITS);
    IS(livevec_new(&v, 1, 16777216), LIVEVEC_BAD_LIMITS);
    IS(livevec_size(&v).refusal, LIVEVEC_NO_HANDLE);
    memset(&table, 3, sizeof table);
    table.next[7][3] = 8;
    IS(livevec_new_with_table(&v, 1, 9, &table), LIVEVEC_BAD_TABLE);
    table.next[7][3] = 6;
    IS(livevec_new_with_table(&v, 1, 9, &table), 0);
    IS(livevec_new_with_table(&v, 1, 9, &table), LIVEVEC_IN_USE);
    IS(livevec_new(&v, 1, 9), LIVEVEC_IN_USE);
    IS(livevec_push(&v, -1).refusal, 0); /* -1 modulo 4 is 3 */
    livevec_reduced r = livevec_reduce(&v, 0, 1);
    IS(r.values.automaton[0], 3);
    IS(r.values.automaton[7], 6);
    IS(livevec_free(&v), 0);
}

/* Jobs: late, repeated, of another vector, and forgotten. */
static void jobs(void)
{
    livevec_vector v = empty_vector, other = empty_vector;
    livevec_job job = empty_job, second = empty_job;
    livevec_outcome outcome = empty_outcome, stale = empty_outcome;
    IS(livevec_new(&v, 17, 100), 0);
    IS(livevec_new(&other, 17, 100), 0);
    IS(livevec_claim(&v, &job).found, false);
    for (int64_t i = 1; i <= 16; i++) {
        IS(livevec_push(&v, i).refusal, 0);
        IS(livevec_push(&other, 2 * i).refusal, 0);
    }
    livevec_claimed c = livevec_claim(&v, &job);
    IS(c.found, true);
    IS(c.level, 1);
    IS(c.number, 0);
    IS(c.version, 8);
    IS(livevec_claim(&v, &job).refusal, LIVEVEC_IN_USE);
    c = livevec_claim(&v, &second);
    IS(c.number, 1);
    IS(c.version, 16);
    IS(livevec_run(&job, &outcome), 0);
    IS(livevec_run(&job, &stale), LIVEVEC_NO_HANDLE);
    IS(livevec_run(&second, &outcome), LIVEVEC_IN_USE);
    IS(livevec_run(&second, &stale), 0);
    IS(livevec_vet(&v, &outcome).yes, true);
    IS(livevec_vet(&other, &outcome).yes, false);
    livevec_accepted a = livevec_accept(&other, &outcome);
    IS(a.refusal, LIVEVEC_STRANGER);
    IS(a.became, 0);
    IS(livevec_accept(&v, &outcome).became, LIVEVEC_INSTALLED);
    IS(livevec_accept(&v, &outcome).became, LIVEVEC_HELD);
    IS(livevec_write(&v, 9, 0).edit, 17);
    a = livevec_accept(&v, &stale);
    IS(a.became, LIVEVEC_STALE);
    IS(a.now, 17);
    livevec_reduced r = livevec_reduce(&v, 0, 16);
    IS(r.values.sum, 126); /* 136 without the 10 */
    IS(r.cells, 8);
    IS(r.summaries, 1);
    IS(livevec_claim(&v, &job).number, 1);
    IS(livevec_free_job(&job), 0);
    IS(livevec_claim(&v, &job).found, false);
    IS(livevec_forget(&v), 0);
    IS(livevec_refresh(&v, 10).value, 1);
    IS(livevec_reduce(&v, 0, 16).summaries, 2);
    IS(livevec_free(&v), 0);
    IS(livevec_accept(&v, &outcome).refusal, LIVEVEC_NO_HANDLE);
    IS(livevec_accept(&other, &outcome).refusal, LIVEVEC_STRANGER);
    IS(livevec_free_outcome(&outcome), 0);
    IS(livevec_accept(&other, &outcome).refusal, LIVEVEC_NO_HANDLE);
    IS(livevec_free_outcome(&stale), 0);
    IS(livevec_free(&other), 0);
}

/* The library says which it is, and each refusal has words of its own. */
static void words(void)
{
    const char *built = livevec_version() + strlen(LIVEVEC_VERSION);
    IS(strncmp(livevec_version(), LIVEVEC_VERSION, strlen(LIVEVEC_VERSION)), 0);
    IS(strcmp(built, "") == 0 || strcmp(built, " (not proved)") == 0, true);
    IS(strcmp(livevec_refusal_text(LIVEVEC_EMPTY), "there is nothing to pop"), 0);
    IS(strcmp(livevec_refusal_text(LIVEVEC_BUSY), "another call is under way at the slot"), 0);
    IS(strcmp(livevec_refusal_text(LIVEVEC_BAD_KIND), "a number that is no kind, or a kind that the vector is not of"), 0);
    IS(strcmp(livevec_refusal_text(LIVEVEC_EARLIER), "a time before that of the last sample"), 0);
    IS(strcmp(livevec_refusal_text(LIVEVEC_NOT_SAVED), "bytes that are no saved vector, series or samples"), 0);
    IS(strcmp(livevec_refusal_text(99), "unknown"), 0);
}

int main(void)
{
    words();
    edits();
    reductions();
    moves();
    verdicts();
    births();
    jobs();
    misuse_of_vectors();
    lengths();
    numbers();
    beside();
    kinds();
    columns();
    one_kind();
    places();
    queries();
    blocks();
    subtrees();
    summaries();
    boards();
    series();
    series_kinds();
    series_places();
    lent();
    samples();
    exact_sums();
    saved();
    saved_vectors();
    transcripts();
    shared_forms();
    printf("%d checks, %d failed\n", checks, failures);
    return failures ? EXIT_FAILURE : EXIT_SUCCESS;
}
