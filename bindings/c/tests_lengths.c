/* Lengths that no array has: each call refuses them before it reads one element, and changes nothing. */
#include "tests.h"

enum { HUGE_LENGTHS = 4 };
/* In elements of eight bytes all of these are more than an array may have. */
static const size_t huge[HUGE_LENGTHS] = {SIZE_MAX, SIZE_MAX - 7, SIZE_MAX / 2, SIZE_MAX / 16 + 1};

static void of_a_vector(size_t length)
{
    static const int64_t one[] = {7};
    static const uint32_t at[] = {0};
    static const livevec_range whole[] = {{0, 1}};
    int64_t room[1] = {5};
    uint64_t sums[1] = {5};
    livevec_values values[1] = {{.sum = 5}};
    livevec_edit edits[1] = {{.value = 5}};
    livevec_vector v = {0};
    IS(livevec_new(&v, 2, 9), 0);
    IS(livevec_push_many(&v, one, 1).pushed, 1);
    IS(livevec_push_many(&v, one, length).refusal, LIVEVEC_TOO_LONG);
    IS(livevec_push_many(&v, NULL, length).refusal, LIVEVEC_NULL);
    IS(livevec_push_many(NULL, one, length).refusal, LIVEVEC_NULL);
    IS(livevec_write_many(&v, at, one, length).refusal, LIVEVEC_TOO_LONG);
    IS(livevec_value_many(&v, LIVEVEC_SUM, whole, values, length).refusal, LIVEVEC_TOO_LONG);
    IS(livevec_read(&v, 0, 1, room, length).refusal, LIVEVEC_TOO_LONG);
    IS(livevec_scan_inclusive_sum(&v, 0, 1, sums, length).refusal, LIVEVEC_TOO_LONG);
    IS(livevec_scan_exclusive(&v, 0, 1, values, length).refusal, LIVEVEC_TOO_LONG);
    IS(livevec_journal(&v, 0, edits, length).refusal, LIVEVEC_TOO_LONG);
    IS(livevec_edits(&v).value, 1);
    IS(livevec_get(&v, 0).value, 7);
    IS(room[0] + (int64_t)sums[0] + (int64_t)values[0].sum + edits[0].value, 20);
    IS(livevec_free(&v), 0);
}

static void of_a_series(size_t length)
{
    static const int64_t one[] = {7};
    static const uint64_t at[] = {0};
    static const livevec_series_range whole[] = {{0, 1}};
    int64_t room[1] = {5};
    livevec_values values[1] = {{.sum = 5}};
    livevec_series s = {0};
    livevec_samples samples = {0};
    IS(livevec_series_new(&s), 0);
    IS(livevec_series_push_many(&s, one, 1).pushed, 1);
    IS(livevec_series_push_many(&s, one, length).refusal, LIVEVEC_TOO_LONG);
    IS(livevec_series_write_many(&s, at, one, length).refusal, LIVEVEC_TOO_LONG);
    IS(livevec_series_value_many(&s, LIVEVEC_SUM, whole, values, length).refusal, LIVEVEC_TOO_LONG);
    IS(livevec_series_read(&s, 0, 1, room, length).refusal, LIVEVEC_TOO_LONG);
    IS(livevec_series_scan_inclusive_least(&s, 0, 0, 1, room, length).refusal, LIVEVEC_TOO_LONG);
    IS(livevec_series_edits(&s).value, 1);
    IS(livevec_free_series(&s), 0);
    IS(livevec_samples_new(&samples), 0);
    IS(livevec_samples_push_many(&samples, one, one, 1).done, 1);
    IS(livevec_samples_push_many(&samples, one, one, length).refusal, LIVEVEC_TOO_LONG);
    IS(livevec_samples_times(&samples, 0, 1, room, length).refusal, LIVEVEC_TOO_LONG);
    IS(livevec_series_edits(&samples.values).value, 1);
    IS(room[0] + (int64_t)values[0].sum, 10);
    IS(livevec_free_samples(&samples), 0);
}

static void of_others(size_t length)
{
    static const int64_t one[] = {7};
    livevec_summarised sum = livevec_summary_of_elements(one, 1);
    livevec_board board = {0};
    livevec_vector v = {0};
    livevec_queries set = {0};
    livevec_note notes[1] = {{.kind = 0}};
    int64_t room[1] = {5};
    uint32_t count = 5;
    IS(livevec_summary_of_elements(one, length).refusal, LIVEVEC_TOO_LONG);
    IS(livevec_summary_extend(&sum.summary, one, length).refusal, LIVEVEC_TOO_LONG);
    IS(livevec_board_new(&board, LIVEVEC_SUM, 1, 9, 1), 0);
    IS(livevec_board_close(&board).refusal, 0);
    IS(livevec_closed_read(&board, room, length, &count), LIVEVEC_TOO_LONG);
    IS(room[0] + count, 10);
    IS(livevec_free_board(&board), 0);
    IS(livevec_new(&v, 2, 9), 0);
    IS(livevec_queries_new(&set), 0);
    IS(livevec_notes(&set, &v, notes, length).refusal, LIVEVEC_TOO_LONG);
    IS(livevec_watch(&set, "seventeen_letters", length, LIVEVEC_SUM, 0, 1), LIVEVEC_BAD_NAME);
    IS(livevec_unwatch(&set, "seventeen_letters", length), LIVEVEC_BAD_NAME);
    IS(livevec_answer(&set, &v, "seventeen_letters", length).refusal, LIVEVEC_BAD_NAME);
    IS(livevec_free_queries(&set), 0);
    IS(livevec_free(&v), 0);
}

/* Bytes: lengths above PTRDIFF_MAX are no array's, and of a text those above 2^30 are none. */
static void of_bytes(size_t length)
{
    static const uint8_t byte[] = {0};
    livevec_series s = {0};
    livevec_vector v = {0};
    IS(livevec_audit("livevec 1\n", length).refusal, LIVEVEC_TOO_LONG);
    IS(livevec_audit_front("livevec 1\n", length).refusal, LIVEVEC_TOO_LONG);
    IS(livevec_restore(&v, 2, 9, "livevec 1\n", length).refusal, LIVEVEC_TOO_LONG);
    IS(livevec_free(&v), LIVEVEC_NO_HANDLE);
    IS(livevec_series_begin_load(&s), 0);
    IS(livevec_series_load(&s, byte, length), LIVEVEC_TOO_LONG);
    IS(livevec_free_series(&s), 0);
    IS(livevec_new(&v, 2, 9), 0);
    IS(livevec_push_saved(&v, byte, length).refusal, LIVEVEC_TOO_LONG);
    IS(livevec_save(&v, 0, &(uint8_t){0}, length).refusal, LIVEVEC_TOO_LONG);
    IS(livevec_edits(&v).value, 0);
    IS(livevec_free(&v), 0);
}

void lengths(void)
{
    for (int i = 0; i < HUGE_LENGTHS; i++) {
        of_a_vector(huge[i]);
        of_a_series(huge[i]);
        of_others(huge[i]);
    }
    of_bytes(SIZE_MAX);
    of_bytes(SIZE_MAX / 2 + 1);
    /* of a vector, what its limits don't allow is refused before it is read, too */
    livevec_vector v = {0};
    IS(livevec_new(&v, 2, 9), 0);
    IS(livevec_push_many(&v, &(int64_t){7}, (size_t)1 << 50).refusal, LIVEVEC_WORN);
    IS(livevec_free(&v), 0);
}
