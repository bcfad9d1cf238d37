/* Series: null pointers, empty slots, full ones, and those of other types. */
#include "tests.h"

void misuse_of_series(void)
{
    livevec_series s = {0};
    int64_t x = 7;
    uint64_t index = 0;
    livevec_values v;
    IS(livevec_series_new(NULL), LIVEVEC_NULL);
    IS(livevec_free_series(NULL), LIVEVEC_NULL);
    IS(livevec_series_push(NULL, 1).refusal, LIVEVEC_NULL);
    IS(livevec_series_push_many(&s, NULL, 1).refusal, LIVEVEC_NULL);
    IS(livevec_series_pop(NULL).refusal, LIVEVEC_NULL);
    IS(livevec_series_write(NULL, 0, 1).refusal, LIVEVEC_NULL);
    IS(livevec_series_write_many(NULL, NULL, NULL, 0).refusal, LIVEVEC_NULL);
    IS(livevec_series_write_many(&s, NULL, &x, 1).refusal, LIVEVEC_NULL);
    IS(livevec_series_write_many(&s, &index, NULL, 1).refusal, LIVEVEC_NULL);
    IS(livevec_series_prepare(NULL, LIVEVEC_SUM), LIVEVEC_NULL);
    IS(livevec_series_swap(NULL, 0, 1).refusal, LIVEVEC_NULL);
    IS(livevec_series_truncate(NULL, 0).refusal, LIVEVEC_NULL);
    IS(livevec_series_expire(NULL, 0).refusal, LIVEVEC_NULL);
    IS(livevec_series_get(NULL, 0).refusal, LIVEVEC_NULL);
    IS(livevec_series_first(NULL).refusal, LIVEVEC_NULL);
    IS(livevec_series_reduce(NULL, 0, 0).refusal, LIVEVEC_NULL);
    IS(livevec_series_ask(NULL, 0, 0).refusal, LIVEVEC_NULL);
    IS(livevec_series_read(&s, 0, 0, NULL, 1).refusal, LIVEVEC_NULL);
    IS(livevec_series_scan_inclusive(&s, 0, 0, 0, NULL, 1).refusal, LIVEVEC_NULL);

    IS(livevec_free_series(&s), LIVEVEC_NO_HANDLE);
    IS(livevec_series_push(&s, 1).refusal, LIVEVEC_NO_HANDLE);
    IS(livevec_series_push_many(&s, NULL, 0).refusal, LIVEVEC_NO_HANDLE);
    IS(livevec_series_write_many(&s, NULL, NULL, 0).refusal, LIVEVEC_NO_HANDLE);
    IS(livevec_series_prepare(&s, LIVEVEC_SUM), LIVEVEC_NO_HANDLE);
    IS(livevec_series_prepare(&s, 6), LIVEVEC_BAD_KIND);
    IS(livevec_series_expire(&s, 0).refusal, LIVEVEC_NO_HANDLE);
    IS(livevec_series_get(&s, 0).refusal, LIVEVEC_NO_HANDLE);
    IS(livevec_series_edits(&s).refusal, LIVEVEC_NO_HANDLE);
    IS(livevec_series_reduce(&s, 0, 0).refusal, LIVEVEC_NO_HANDLE);
    IS(livevec_series_ask(&s, 0, 0).refusal, LIVEVEC_NO_HANDLE);
    IS(livevec_series_read(&s, 0, 0, &x, 1).refusal, LIVEVEC_NO_HANDLE);
    IS(livevec_series_scan_exclusive(&s, 0, 0, 0, &v, 1).refusal, LIVEVEC_NO_HANDLE);

    livevec_vector vector = {0};
    IS(livevec_new(&vector, 1, 9), 0);
    IS(livevec_series_push((livevec_series *)&vector, 1).refusal, LIVEVEC_NO_HANDLE);
    IS(livevec_series_write_many((livevec_series *)&vector, &index, &x, 1).refusal, LIVEVEC_NO_HANDLE);
    IS(livevec_series_prepare((livevec_series *)&vector, LIVEVEC_SUM), LIVEVEC_NO_HANDLE);
    IS(livevec_free_series((livevec_series *)&vector), LIVEVEC_NO_HANDLE);
    IS(livevec_push(&vector, 7).edit, 1);
    IS(livevec_free(&vector), 0);

    IS(livevec_series_new(&s), 0);
    IS(livevec_series_new(&s), LIVEVEC_IN_USE);
    IS(livevec_push((livevec_vector *)&s, 7).refusal, LIVEVEC_NO_HANDLE);
    IS(livevec_reduce((livevec_vector *)&s, 0, 0).refusal, LIVEVEC_NO_HANDLE);
    IS(livevec_free((livevec_vector *)&s), LIVEVEC_NO_HANDLE);
    IS(livevec_series_push_many(&s, NULL, 0).edit, 0);
    IS(livevec_series_push(&s, 7).edit, 1);
    s.busy_ = 1;
    IS(livevec_series_push(&s, 7).refusal, LIVEVEC_BUSY);
    IS(livevec_series_size(&s).refusal, LIVEVEC_BUSY);
    IS(livevec_series_write_many(&s, &index, &x, 1).refusal, LIVEVEC_BUSY);
    IS(livevec_series_prepare(&s, LIVEVEC_SUM), LIVEVEC_BUSY);
    s.busy_ = 0;
    IS(livevec_series_size(&s).value, 1);
    IS(livevec_free_series(&s), 0);
    IS(livevec_free_series(&s), LIVEVEC_NO_HANDLE);
}
