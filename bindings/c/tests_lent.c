/* Elements of a series that are lent where they lie: beside a plain array, after an expiry, of samples, and what the slot answers meanwhile. */
#include "tests.h"

enum { MANY = 70000 };

static int64_t all[MANY];

/* A range is lent as it stands in the plain array, and given back once. */
static void looks(livevec_series *s, uint64_t lo, uint64_t hi, uint64_t edits)
{
    livevec_series_view view = livevec_series_lend(s, lo, hi);
    IS(view.refusal, 0);
    IS(view.edit, edits);
    IS(view.length, hi - lo);
    IS(view.elements != NULL, 1);
    long long wrong = 0;
    for (uint64_t i = 0; i < view.length; i++)
        wrong += view.elements[i] != all[lo + i];
    IS(wrong, 0);
    IS(livevec_series_give_back(s), 0);
    IS(livevec_series_give_back(s), LIVEVEC_NO_HANDLE);
}

static void refused(livevec_series *s, uint64_t lo, uint64_t hi, uint32_t refusal, uint64_t first, uint64_t size)
{
    livevec_series_view view = livevec_series_lend(s, lo, hi);
    IS(view.refusal, refusal);
    IS(view.first, first);
    IS(view.size, size);
    IS(view.edit, 0);
    IS(view.elements == NULL, 1);
    IS(view.length, 0);
    IS(livevec_series_give_back(s), s ? LIVEVEC_NO_HANDLE : LIVEVEC_NULL);
}

/* Ranges, an empty one, all of it, after an expiry, and those that are refused. */
static void ranges(livevec_series *s)
{
    looks(s, 0, MANY, MANY);
    looks(s, 5, 5, MANY);
    looks(s, MANY, MANY, MANY);
    looks(s, 7, 1234, MANY);
    IS(livevec_series_expire(s, 40003).place, 40003);
    looks(s, 40003, MANY, MANY + 1);
    looks(s, 50000, 50001, MANY + 1);
    refused(s, 7, 6, LIVEVEC_BAD_RANGE, 0, 0);
    refused(s, 40002, MANY, LIVEVEC_OUT_OF_RANGE, 40003, MANY);
    refused(s, 50000, MANY + 1, LIVEVEC_OUT_OF_RANGE, 40003, MANY);
    refused(NULL, 0, 0, LIVEVEC_NULL, 0, 0);
}

/* While elements are out the slot answers nothing else, and they stay; then it goes on as before. */
static void meanwhile(livevec_series *s)
{
    livevec_series_view view = livevec_series_lend(s, 50000, MANY);
    int64_t x = 0;
    IS(view.refusal, 0);
    IS(livevec_series_push(s, 7).refusal, LIVEVEC_BUSY);
    IS(livevec_series_write(s, 50000, 7).refusal, LIVEVEC_BUSY);
    IS(livevec_series_expire(s, 60000).refusal, LIVEVEC_BUSY);
    IS(livevec_series_read(s, 50000, 50001, &x, 1).refusal, LIVEVEC_BUSY);
    IS(livevec_series_size(s).refusal, LIVEVEC_BUSY);
    IS(livevec_series_lend(s, 50000, 50001).refusal, LIVEVEC_BUSY);
    IS(livevec_series_new(s), LIVEVEC_BUSY);
    IS(livevec_free_series(s), LIVEVEC_BUSY);
    IS(view.elements[0], all[50000]);
    IS(view.elements[view.length - 1], all[MANY - 1]);
    IS(livevec_series_give_back(s), 0);
    IS(livevec_series_write(s, 50000, 7).value, all[50000]);
    all[50000] = 7;
    looks(s, 50000, MANY, MANY + 2);
    s->busy_ = 1;
    IS(livevec_series_give_back(s), LIVEVEC_BUSY);
    IS(livevec_series_lend(s, 50000, MANY).refusal, LIVEVEC_BUSY);
    s->busy_ = 0;
}

/* What holds no series lends nothing, and samples lend their values. */
static void others(void)
{
    livevec_vector v = {0};
    livevec_samples samples = {0};
    livevec_series empty = {0};
    IS(livevec_new(&v, 1, 9), 0);
    refused((livevec_series *)&v, 0, 0, LIVEVEC_NO_HANDLE, 0, 0);
    IS(livevec_push(&v, 7).edit, 1);
    IS(livevec_free(&v), 0);
    refused(&empty, 0, 0, LIVEVEC_NO_HANDLE, 0, 0);
    IS(livevec_series_new(&empty), 0);
    looks(&empty, 0, 0, 0);
    IS(livevec_free_series(&empty), 0);
    IS(livevec_samples_new(&samples), 0);
    for (int i = 0; i < 9; i++)
        IS(livevec_samples_push(&samples, i / 2, all[i]).place, i);
    looks(&samples.values, 2, 9, 9);
    livevec_series_view view = livevec_series_lend(&samples.values, 0, 9);
    IS(view.elements[8], all[8]);
    IS(livevec_samples_push(&samples, 9, 9).refusal, LIVEVEC_BUSY);
    IS(livevec_free_samples(&samples), LIVEVEC_BUSY);
    IS(livevec_series_give_back(&samples.values), 0);
    IS(livevec_free_samples(&samples), 0);
}

void lent(void)
{
    livevec_series s = {0};
    for (int i = 0; i < MANY; i++)
        all[i] = (int64_t)i * i - 12345 * (int64_t)i;
    IS(livevec_series_new(&s), 0);
    IS(livevec_series_push_many(&s, all, MANY).pushed, MANY);
    ranges(&s);
    meanwhile(&s);
    IS(livevec_free_series(&s), 0);
    refused(&s, 0, 0, LIVEVEC_NO_HANDLE, 0, 0);
    others();
}
