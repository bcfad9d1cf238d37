/* The commands whose reply has an entry for each element, sample or bucket of time: at most MOST_ENTRIES. They read in pieces. */
#include "module.h"

#include <string.h>

enum { MOST_ENTRIES = 100000, PIECE = 1024 };

__extension__ typedef __int128 wide;

/* Elements and their times, or running values by one kind, of the indices from `begin` up to `end`. An element is held as a sum. */
typedef struct piece {
    uint64_t begin, end;
    int64_t times[PIECE];
    union {
        uint64_t sums[PIECE];
        int64_t numbers[PIECE];
        livevec_total totals[PIECE];
        livevec_map maps[PIECE];
        livevec_states states[PIECE];
    } column;
} piece;

static bool are_too_many(call *it, uint64_t count)
{ return count > MOST_ENTRIES && !failed(it->ctx, "ERR more than 100000 entries for one reply: ask for less"); }

/* The forms of RedisTimeSeries have values as texts. */
static void reply_timed(call *it, int64_t time, const answer *result)
{
    char text[ANSWER_TEXT];
    RedisModule_ReplyWithArray(it->ctx, 2);
    RedisModule_ReplyWithLongLong(it->ctx, time);
    if (result->refusal) {
        refused(it->ctx, result->refusal);
    } else if (it->is_ts) {
        answer_text(text, it->kind, result);
        RedisModule_ReplyWithSimpleString(it->ctx, text);
    } else {
        reply_answer(it->ctx, it->kind, result);
    }
}

static void read_piece(call *it, bool scans, piece *piece)
{
    livevec_series *series = series_of(it->list);
    livevec_series_scanned read;
    bool is_inclusive = !it->said[0];
    piece->begin = piece->end;
    if (scans)
        read = livevec_series_scan(series, it->kind, is_inclusive, it->in.lo, piece->begin, it->in.hi, &piece->column, PIECE);
    else
        read = livevec_series_read(series, piece->begin, it->in.hi, piece->column.numbers, PIECE);
    if (!scans && it->list->has_times)
        read = livevec_samples_times(samples_of(it->list), piece->begin, it->in.hi, piece->times, PIECE);
    piece->end += read.length;
}

static livevec_values cell(const piece *piece, unsigned kind, uint64_t i)
{
    livevec_values values = {.sum = piece->column.sums[i]};
    switch (kind) {
    case LIVEVEC_SUM: return values;
    case LIVEVEC_LEAST: return (livevec_values){.least = piece->column.numbers[i]};
    case LIVEVEC_GREATEST: return (livevec_values){.greatest = piece->column.numbers[i]};
    case LIVEVEC_BEST: return (livevec_values){.best_low = piece->column.totals[i].low, .best_high = piece->column.totals[i].high};
    case LIVEVEC_AFFINE: return (livevec_values){.affine_a = piece->column.maps[i].a, .affine_b = piece->column.maps[i].b};
    default: break;
    }
    memcpy(values.automaton, piece->column.states[i].to, sizeof values.automaton);
    return values;
}

/* Of running values the first, if they are exclusive, is of no element. */
static void reply_entry(call *it, bool scans, const piece *piece, uint64_t at)
{
    uint64_t i = at - piece->begin;
    if (!scans && !it->list->has_times) {
        RedisModule_ReplyWithLongLong(it->ctx, piece->column.numbers[i]);
        return;
    }
    answer result = {.count = at - it->in.lo + !it->said[0], .values = cell(piece, it->kind, i)};
    if (scans)
        reply_answer(it->ctx, it->kind, &result);
    else
        reply_timed(it, piece->times[i], &result);
}

static uint32_t reply_entries(call *it, bool scans)
{
    piece piece;
    piece.end = it->in.lo;
    if (are_too_many(it, it->in.hi - it->in.lo))
        return LIVEVEC_OK;
    uint32_t refusal = scans ? livevec_series_prepare(series_of(it->list), it->kind) : (uint32_t)LIVEVEC_OK;
    if (refusal)
        return refusal;
    RedisModule_ReplyWithArray(it->ctx, (long)(it->in.hi - it->in.lo));
    for (uint64_t at = it->in.lo; at < it->in.hi; at++) {
        if (at == piece.end)
            read_piece(it, scans, &piece);
        reply_entry(it, scans, &piece, at);
    }
    return LIVEVEC_OK;
}

/* The samples from the index `at` on that are in one bucket: a bucket begins at a multiple of its span. */
static livevec_window bucket_at(call *it, uint64_t at, int64_t *begin)
{
    livevec_samples *samples = samples_of(it->list);
    int64_t time = livevec_samples_get(samples, at).time, into = time % it->span;
    wide start = (wide)time - (into < 0 ? into + it->span : into), end = start + it->span;
    *begin = start < INT64_MIN ? INT64_MIN : (int64_t)start;
    uint64_t hi = end > INT64_MAX ? it->in.hi : livevec_samples_between(samples, INT64_MIN, (int64_t)end).hi;
    return (livevec_window){.lo = at, .hi = hi < it->in.hi ? hi : it->in.hi};
}

/* Goes over buckets, at most so many, and counts them or also replies with each. */
static uint64_t buckets(call *it, uint64_t most, bool replies)
{
    uint64_t count = 0;
    for (uint64_t at = it->in.lo; at < it->in.hi && count < most; count++) {
        int64_t begin;
        livevec_window bucket = bucket_at(it, at, &begin);
        at = bucket.hi;
        if (!replies)
            continue;
        answer result = list_answer(it->list, it->kind, bucket);
        reply_timed(it, begin, &result);
    }
    return count;
}

/* The first answer of all makes the trees that the others need, so that one without memory is refused before the reply begins. */
static uint32_t reply_buckets(call *it)
{
    uint64_t count = buckets(it, it->most <= MOST_ENTRIES ? (uint64_t)it->most : MOST_ENTRIES + 1, false);
    answer all = list_answer(it->list, it->kind, it->in);
    if (all.refusal || are_too_many(it, count))
        return all.refusal;
    RedisModule_ReplyWithArray(it->ctx, (long)count);
    buckets(it, count, true);
    return LIVEVEC_OK;
}

uint32_t range_command(call *it)
{
    if (it->span)
        return reply_buckets(it);
    if (it->in.hi - it->in.lo > (uint64_t)it->most)
        it->in.hi = it->in.lo + (uint64_t)it->most;
    return reply_entries(it, false);
}

uint32_t scan_command(call *it) { return reply_entries(it, true); }

/* The last sample, or an empty array. */
uint32_t get_command(call *it)
{
    livevec_window last = list_range(it->list, (window){.sort = BY_LAST, .lo = 1});
    livevec_sample sample = livevec_samples_get(samples_of(it->list), last.lo);
    answer result = {.values.sum = (uint64_t)sample.value};
    if (last.lo == last.hi)
        return RedisModule_ReplyWithArray(it->ctx, 0);
    reply_timed(it, sample.time, &result);
    return LIVEVEC_OK;
}
