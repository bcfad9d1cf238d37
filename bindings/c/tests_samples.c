/* Samples beside plain arrays of times and values: random edits, windows of time, refusals, times in pieces. */
#include "tests.h"
#include "tests_plain.h"

#include <string.h>

enum { ROOM = 20000, PIECE = 64 };

static uint64_t state = 37;

/* The plain twin: the sample under index i has times[i] and all[i], for `first` up to `size`. */
static int64_t times[ROOM], all[ROOM];
static uint64_t first, size, edits;

static uint64_t below(uint64_t bound)
{
    return draw(&state, (uint32_t)bound);
}

static void start(livevec_samples *s)
{
    first = size = edits = 0;
    IS(livevec_samples_new(s), 0);
}

/* The index of the first sample whose time isn't before another. */
static uint64_t since(wide time)
{
    uint64_t i = first;
    while (i < size && times[i] < time)
        i++;
    return i;
}

static livevec_values plain(uint64_t lo, uint64_t hi)
{
    livevec_table table = usual_table();
    return plainly(all + lo, hi - lo, &table);
}

static void window_is(livevec_window got, uint64_t lo, uint64_t hi)
{
    IS(got.refusal, 0);
    IS(got.edit, edits);
    IS(got.lo, lo);
    IS(got.hi, hi);
}

/* The value of a window is that of its samples, of the kind that was asked for. */
static void value_is(livevec_series_reduced got, uint32_t kind, uint64_t lo, uint64_t hi)
{
    IS(got.refusal, 0);
    IS(got.first, 0);
    IS(got.size, 0);
    IS(got.edit, edits);
    alike(got.values, only(plain(lo, hi), kind));
}

static void between_is(livevec_samples *s, int64_t from, int64_t until)
{
    uint32_t kind = (uint32_t)below(6);
    uint64_t lo = since(from), hi = since(until);
    window_is(livevec_samples_between(s, from, until), lo, hi);
    value_is(livevec_samples_value(s, kind, from, until), kind, lo, hi);
}

static void last_is(livevec_samples *s, uint64_t span)
{
    uint32_t kind = (uint32_t)below(6);
    uint64_t lo = size > first ? since((wide)times[size - 1] - span + 1) : size;
    window_is(livevec_samples_last(s, span), lo, size);
    value_is(livevec_samples_value_of_last(s, kind, span), kind, lo, size);
}

/* A time near those that are kept, or at an end of all times. */
static int64_t some_time(void)
{
    if (below(8) == 0)
        return below(2) ? INT64_MAX - (int64_t)below(2) : INT64_MIN + (int64_t)below(2);
    int64_t near = size > first ? times[first + below(size - first)] : 0;
    int64_t off = (int64_t)below(7) - 3;
    return (off > 0 ? near > INT64_MAX - off : near < INT64_MIN - off) ? near : near + off;
}

static void windows_are(livevec_samples *s)
{
    static const uint64_t spans[] = {0, 1, 2, 9, 1000, INT64_MAX, (uint64_t)INT64_MAX + 1, UINT64_MAX - 1, UINT64_MAX};
    int64_t a = some_time(), b = some_time();
    between_is(s, a < b ? a : b, a < b ? b : a);
    between_is(s, a, a);
    between_is(s, INT64_MIN, INT64_MAX);
    between_is(s, INT64_MIN, INT64_MIN);
    between_is(s, INT64_MAX, INT64_MAX);
    if (a != b) {
        livevec_window backwards = livevec_samples_between(s, a < b ? b : a, a < b ? a : b);
        IS(backwards.refusal, LIVEVEC_BAD_RANGE);
        IS(backwards.edit + backwards.lo + backwards.hi, 0);
        livevec_series_reduced refused = livevec_samples_value(s, LIVEVEC_SUM, a < b ? b : a, a < b ? a : b);
        IS(refused.refusal, LIVEVEC_BAD_RANGE);
        IS(refused.edit, 0);
    }
    for (size_t i = 0; i < sizeof spans / sizeof *spans; i++)
        last_is(s, spans[i]);
    last_is(s, below(12));
}

static void sample_is(livevec_samples *s, uint64_t index)
{
    livevec_sample got = livevec_samples_get(s, index);
    bool kept = index >= first && index < size;
    IS(got.refusal, kept ? 0 : LIVEVEC_OUT_OF_RANGE);
    IS(got.first, kept ? 0 : first);
    IS(got.size, kept ? 0 : size);
    IS(got.time, kept ? times[index] : 0);
    IS(got.value, kept ? all[index] : 0);
}

static void counts_are(livevec_samples *s)
{
    IS(livevec_series_first(&s->values).value, first);
    IS(livevec_series_size(&s->values).value, size);
    IS(livevec_series_edits(&s->values).value, edits);
    sample_is(s, first + below(size - first + 2));
    sample_is(s, first - 1);
    alike(livevec_series_reduce(&s->values, first, size).values, plain(first, size));
}

/* A push: of the time of the last sample, of a later one, or of an earlier one, which is refused. */
static void pushed(livevec_samples *s)
{
    static const int64_t steps[] = {0, 0, 0, 1, 2, 5, -1, -4};
    int64_t x = draw_element(&state), newest = size > first ? times[size - 1] : 0, step = steps[below(8)];
    int64_t time = size > first ? newest + step : (int64_t)below(100) - 50;
    livevec_series_edited e = livevec_samples_push(s, time, x);
    bool earlier = size > first && time < newest;
    IS(e.refusal, earlier ? LIVEVEC_EARLIER : 0);
    IS(e.value, earlier ? newest : 0);
    IS(e.place, earlier ? 0 : size);
    IS(e.edit, earlier ? 0 : edits + 1);
    if (earlier)
        return;
    times[size] = time;
    all[size++] = x;
    edits++;
}

/* An edit of the values that leaves each its time, or an expiry by time. */
static void changed(livevec_samples *s)
{
    int64_t x = draw_element(&state), time = some_time();
    uint64_t i = first + below(size - first);
    livevec_series_edited e;
    switch (below(5)) {
    case 0:
        e = livevec_series_write(&s->values, i, x);
        IS(e.value, all[i]);
        all[i] = x;
        break;
    case 1:
        e = livevec_series_pop(&s->values);
        IS(e.value, all[--size]);
        break;
    case 2:
        i = size - below(3);
        e = livevec_series_truncate(&s->values, i < first ? first : i);
        IS(e.place, size - (i < first ? first : i));
        size = i < first ? first : i;
        break;
    case 3:
        i = first + below(3);
        e = livevec_series_expire(&s->values, i > size ? size : i);
        IS(e.place, (i > size ? size : i) - first);
        first = i > size ? size : i;
        break;
    default:
        if (time > times[first] + 2 && below(10))
            time = times[first] + 1;
        e = livevec_samples_expire_before(s, time);
        IS(e.place, since(time) - first);
        first = since(time);
    }
    IS(e.refusal, 0);
    IS(e.edit, ++edits);
}

static void random_edits(void)
{
    livevec_samples s = {0};
    start(&s);
    windows_are(&s);
    for (int round = 0; round < 3000; round++) {
        if (size == first || below(3))
            pushed(&s);
        else
            changed(&s);
        counts_are(&s);
        windows_are(&s);
    }
    IS(livevec_free_samples(&s), 0);
}

/* Times at both ends of what there is; after the last sample is gone any time may come. Expected answers are by hand. */
static void far_times(void)
{
    livevec_samples s = {0};
    start(&s);
    IS(livevec_samples_expire_before(&s, INT64_MAX).place, 0);
    IS(livevec_samples_push(&s, INT64_MIN, 1).edit, 2);
    IS(livevec_samples_push(&s, INT64_MIN, 2).place, 1);
    IS(livevec_samples_push(&s, -1, 3).place, 2);
    IS(livevec_samples_push(&s, INT64_MAX, 4).place, 3);
    edits = 5;
    window_is(livevec_samples_between(&s, INT64_MIN, INT64_MAX), 0, 3);
    window_is(livevec_samples_between(&s, INT64_MIN + 1, -1), 2, 2);
    window_is(livevec_samples_between(&s, -1, 0), 2, 3);
    window_is(livevec_samples_last(&s, 0), 4, 4);
    window_is(livevec_samples_last(&s, 1), 3, 4);
    window_is(livevec_samples_last(&s, (uint64_t)INT64_MAX + 1), 3, 4);
    window_is(livevec_samples_last(&s, (uint64_t)INT64_MAX + 2), 2, 4);
    window_is(livevec_samples_last(&s, UINT64_MAX), 2, 4); /* INT64_MAX less UINT64_MAX is INT64_MIN, which isn't above itself */
    IS(livevec_samples_push(&s, INT64_MAX - 1, 5).value, INT64_MAX);
    IS(livevec_samples_push(&s, INT64_MIN, 5).refusal, LIVEVEC_EARLIER);
    livevec_series_edited gone = livevec_samples_expire_before(&s, INT64_MAX);
    IS(gone.place, 3);
    IS(gone.edit, 6);
    IS(livevec_series_pop(&s.values).value, 4);
    IS(livevec_samples_push(&s, INT64_MIN, 6).place, 3);
    IS(livevec_samples_get(&s, 3).time, INT64_MIN);
    IS(livevec_free_samples(&s), 0);
}

/* Many at once, up to the first that is refused. */
static void pushes_at_once(void)
{
    livevec_samples s = {0};
    start(&s);
    for (int round = 0; round < 60; round++) {
        size_t length = below(100), wrong = below(2) && length > 1 ? 1 + below(length - 1) : length;
        for (size_t i = 0; i < length; i++) {
            times[size + i] = i || size ? times[size + i - 1] + (int64_t)below(2) : -40;
            all[size + i] = draw_element(&state);
        }
        if (wrong < length)
            times[size + wrong] = times[size + wrong - 1] - 1;
        livevec_series_many did = livevec_samples_push_many(&s, times + size, all + size, length);
        size += wrong;
        edits += wrong;
        IS(did.refusal, wrong < length ? LIVEVEC_EARLIER : 0);
        IS(did.done, wrong);
        IS(did.place, wrong < length ? wrong : 0);
        IS(did.edit, edits);
        counts_are(&s);
        windows_are(&s);
    }
    IS(livevec_samples_push_many(&s, NULL, NULL, 0).edit, edits);
    IS(livevec_free_samples(&s), 0);
}

/* Many at once where a request for memory fails: those before it are pushed, and the others go on. */
static void pushes_where_one_fails(void)
{
    livevec_samples s = {0};
    start(&s);
    IS(livevec_series_ask(&s.values, 0, 0).refusal, 0);
    for (uint64_t i = 0; i < 3000; i++) {
        times[i] = (int64_t)i / 7;
        all[i] = draw_element(&state);
    }
    for (int nth = 1; size < 3000; nth = 1 + nth % 5) {
        until_failure = nth;
        livevec_series_many did = livevec_samples_push_many(&s, times + size, all + size, 3000 - size);
        until_failure = 0;
        size += did.done;
        edits += did.done;
        IS(did.refusal, size < 3000 ? LIVEVEC_NO_MEMORY : 0);
        IS(did.place, size < 3000 ? did.done : 0);
        IS(did.edit, edits);
        counts_are(&s);
        windows_are(&s);
    }
    IS(livevec_free_samples(&s), 0);
}

/* Times in pieces; what the buffer has behind them stays, and all of it where the call is refused. */
static void times_in_pieces(void)
{
    static int64_t buffer[PIECE + 1];
    livevec_samples s = {0};
    start(&s);
    for (; size < 1000; edits++, size++) {
        times[size] = (int64_t)size / 3 - 200;
        IS(livevec_samples_push(&s, times[size], all[size] = draw_element(&state)).refusal, 0);
    }
    IS(livevec_samples_expire_before(&s, times[100]).place, first = since(times[100]));
    edits++;
    buffer[PIECE] = -5;
    for (uint64_t at = first, took; at < size; at += took) {
        livevec_series_scanned read = livevec_samples_times(&s, at, size, buffer, PIECE);
        took = size - at < PIECE ? size - at : PIECE;
        IS(read.refusal, 0);
        IS(read.edit, edits);
        IS(read.length, took);
        IS(memcmp(buffer, times + at, took * sizeof *buffer), 0);
        IS(buffer[PIECE], -5);
    }
    memset(buffer, 85, sizeof buffer);
    livevec_series_scanned refused = livevec_samples_times(&s, first - 1, size, buffer, PIECE);
    IS(refused.refusal, LIVEVEC_OUT_OF_RANGE);
    IS(refused.first, first);
    IS(refused.size, size);
    IS(livevec_samples_times(&s, first, size + 1, buffer, PIECE).refusal, LIVEVEC_OUT_OF_RANGE);
    IS(livevec_samples_times(&s, size, first, buffer, PIECE).refusal, LIVEVEC_BAD_RANGE);
    IS(buffer[0], 0x5555555555555555);
    IS(livevec_samples_times(&s, first, size, NULL, 0).length, 0);
    IS(livevec_samples_times(&s, first, size, NULL, 1).refusal, LIVEVEC_NULL);
    IS(livevec_free_samples(&s), 0);
}

/* At the values all of a series works but the edits that would part a value from its time. */
static void edits_of_values(void)
{
    static const uint64_t index[] = {0};
    static const int64_t x[] = {7};
    livevec_samples s = {0};
    start(&s);
    IS(livevec_samples_push(&s, 5, 1).edit, 1);
    IS(livevec_samples_push(&s, 6, 2).edit, 2);
    IS(livevec_series_push(&s.values, 3).refusal, LIVEVEC_NO_HANDLE);
    IS(livevec_series_push_many(&s.values, x, 1).refusal, LIVEVEC_NO_HANDLE);
    IS(livevec_series_write_many(&s.values, index, x, 1).refusal, LIVEVEC_NO_HANDLE);
    IS(livevec_series_swap(&s.values, 0, 1).refusal, LIVEVEC_NO_HANDLE);
    IS(livevec_series_edits(&s.values).value, 2);
    int64_t read[2] = {0};
    IS(livevec_series_read(&s.values, 0, 2, read, 2).length, 2);
    IS(read[0] == 1 && read[1] == 2, 1);
    IS(livevec_series_prepare(&s.values, LIVEVEC_SUM), 0);
    IS(livevec_series_ask(&s.values, 0, 2).values.sum, 3);
    IS(livevec_series_value(&s.values, LIVEVEC_GREATEST, 0, 2).values.greatest, 2);
    uint64_t sums[2] = {0};
    IS(livevec_series_scan_inclusive_sum(&s.values, 0, 0, 2, sums, 2).length, 2);
    IS(sums[1], 3);
    IS(livevec_series_write(&s.values, 0, 9).value, 1);
    livevec_sample sample = livevec_samples_get(&s, 0);
    IS(sample.time, 5);
    IS(sample.value, 9);
    IS(livevec_free_samples(&s), 0);
}

/* All calls at a slot, as refusals. */
static void refused_by(uint32_t refusal, livevec_samples *s)
{
    int64_t x = 7;
    IS(livevec_samples_push(s, 1, 1).refusal, refusal);
    IS(livevec_samples_push_many(s, &x, &x, 1).refusal, refusal);
    IS(livevec_samples_push_many(s, NULL, NULL, 0).refusal, refusal);
    IS(livevec_samples_expire_before(s, 1).refusal, refusal);
    IS(livevec_samples_get(s, 0).refusal, refusal);
    IS(livevec_samples_times(s, 0, 0, &x, 1).refusal, refusal);
    IS(livevec_samples_between(s, 0, 1).refusal, refusal);
    IS(livevec_samples_last(s, 1).refusal, refusal);
    IS(livevec_samples_value(s, LIVEVEC_SUM, 0, 1).refusal, refusal);
    IS(livevec_samples_value_of_last(s, LIVEVEC_SUM, 1).refusal, refusal);
    IS(x, 7);
}

static void misuse(void)
{
    livevec_samples s = {0};
    livevec_series series = {0};
    int64_t x = 7;
    IS(livevec_samples_new(NULL), LIVEVEC_NULL);
    IS(livevec_free_samples(NULL), LIVEVEC_NULL);
    refused_by(LIVEVEC_NULL, NULL);
    IS(livevec_samples_push_many(&s, NULL, &x, 1).refusal, LIVEVEC_NULL);
    IS(livevec_samples_push_many(&s, &x, NULL, 1).refusal, LIVEVEC_NULL);
    IS(livevec_free_samples(&s), LIVEVEC_NO_HANDLE);
    refused_by(LIVEVEC_NO_HANDLE, &s);
    IS(livevec_series_new(&series), 0);
    refused_by(LIVEVEC_NO_HANDLE, (livevec_samples *)&series);
    IS(livevec_samples_new((livevec_samples *)&series), LIVEVEC_IN_USE);
    IS(livevec_series_edits(&series).value, 0);
    IS(livevec_free_series(&series), 0);
    IS(livevec_samples_new(&s), 0);
    IS(livevec_samples_new(&s), LIVEVEC_IN_USE);
    IS(livevec_series_new(&s.values), LIVEVEC_IN_USE);
    IS(livevec_samples_push(&s, 3, 4).edit, 1);
    s.values.busy_ = 1;
    refused_by(LIVEVEC_BUSY, &s);
    IS(livevec_free_samples(&s), LIVEVEC_BUSY);
    IS(livevec_samples_new(&s), LIVEVEC_BUSY);
    s.values.busy_ = 0;
    IS(livevec_samples_value(&s, 6, 0, 9).refusal, LIVEVEC_BAD_KIND);
    IS(livevec_samples_value_of_last(&s, 6, 1).refusal, LIVEVEC_BAD_KIND);
    IS(livevec_samples_value(&s, LIVEVEC_SUM, 3, 4).values.sum, 4);
    IS(livevec_free_samples(&s), 0);
    IS(livevec_free_samples(&s), LIVEVEC_NO_HANDLE);
    IS(livevec_samples_new(&s), 0);
    IS(livevec_free_series(&s.values), 0);
    IS(livevec_free_samples(&s), LIVEVEC_NO_HANDLE);
}

/* Each request for memory of a push fails in turn, also over trees: nothing has changed then, and the same push goes on. */
static void want_of_memory(void)
{
    livevec_samples s = {0};
    int refused = 0;
    start(&s);
    until_failure = 1;
    IS(livevec_samples_value_of_last(&s, LIVEVEC_SUM, 9).refusal == LIVEVEC_NO_MEMORY || until_failure, 1);
    until_failure = 0;
    IS(livevec_series_ask(&s.values, 0, 0).refusal, 0);
    for (int round = 0; round < 1500; round++) {
        until_failure = 1 + round % 3;
        livevec_series_edited e = livevec_samples_push(&s, round, round);
        until_failure = 0;
        if (e.refusal) {
            refused++;
            IS(e.refusal, LIVEVEC_NO_MEMORY);
            IS(e.place + e.edit, 0);
            counts_are(&s);
            IS(livevec_samples_push(&s, round, round).edit, edits + 1);
        }
        times[size] = all[size] = round;
        size++, edits++;
    }
    IS(refused > 3, 1);
    counts_are(&s);
    windows_are(&s);
    IS(livevec_free_samples(&s), 0);
    until_failure = 1;
    IS(livevec_samples_new(&s), LIVEVEC_NO_MEMORY);
    until_failure = 0;
    IS(livevec_free_samples(&s), LIVEVEC_NO_HANDLE);
}

void samples(void)
{
    misuse();
    edits_of_values();
    far_times();
    random_edits();
    pushes_at_once();
    pushes_where_one_fails();
    times_in_pieces();
    want_of_memory();
}
