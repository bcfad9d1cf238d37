/* Questions at a series by one kind, of one range and of many, and columns in pieces: beside plain loops over the same elements. */
#include "tests.h"
#include "tests_plain.h"

#include <stdlib.h>
#include <string.h>

enum { SHARD = 32760, SIZE = SHARD + 3000, GONE = 400, PIECE = 300, MANY = 40 };

__extension__ typedef __int128 wide;

static uint64_t state = 31;

static uint64_t below(uint64_t bound)
{
    state = state * 6364136223846793005u + 1442695040888963407u;
    return (state >> 20) % bound;
}

/* The element under index i is at all[i], for GONE up to SIZE; `edits` edits were made. */
static int64_t all[SIZE];
static uint64_t edits;

static void start(livevec_series *s)
{
    for (int i = 0; i < SIZE; i++)
        all[i] = below(12) ? (int64_t)below(2001) - 1000 : below(2) ? INT64_MAX - (int64_t)below(3) : INT64_MIN + (int64_t)below(3);
    IS(livevec_series_new(s), 0);
    IS(livevec_series_push_many(s, all, SIZE).refusal, 0);
    IS(livevec_series_expire(s, GONE).refusal, 0);
    edits = SIZE + 1;
}

/* What a loop over elements has so far, in the cells of each kind; `ending` is the best total that ends with the last one. */
typedef struct cells {
    uint64_t sum;
    int64_t least, greatest;
    livevec_total best;
    livevec_map affine;
    livevec_states automaton;
    wide ending, total;
    bool any;
} cells;

static cells none(void)
{
    cells c;
    memset(&c, 0, sizeof c);
    c.affine.a = 1;
    for (uint8_t q = 0; q < 8; q++)
        c.automaton.to[q] = q;
    return c;
}

static cells after(cells c, int64_t x)
{
    int64_t low = ((x % 256) + 256) % 256;
    uint32_t a = (uint32_t)(uint64_t)((x - low) / 256);
    c.sum += (uint64_t)x;
    c.least = !c.any || x < c.least ? x : c.least;
    c.greatest = !c.any || x > c.greatest ? x : c.greatest;
    c.ending = !c.any || c.ending < 0 ? x : c.ending + x;
    c.total = !c.any || c.total < c.ending ? c.ending : c.total;
    c.best = (livevec_total){(uint64_t)c.total, (int64_t)(c.total >> 64)};
    c.affine = (livevec_map){a * c.affine.a, a * c.affine.b + (uint32_t)low};
    for (int q = 0; q < 8; q++)
        c.automaton.to[q] = (uint8_t)((2 * c.automaton.to[q] + low % 4) % 8);
    c.any = true;
    return c;
}

static cells plain(uint64_t lo, uint64_t hi)
{
    cells c = none();
    for (uint64_t i = lo; i < hi; i++)
        c = after(c, all[i]);
    return c;
}

/* The values of one kind alone: of the others 0. */
static livevec_values of_kind(cells c, uint32_t kind)
{
    livevec_values v;
    memset(&v, 0, sizeof v);
    switch (kind) {
    case LIVEVEC_SUM: v.sum = c.sum; break;
    case LIVEVEC_LEAST: v.least = c.least; break;
    case LIVEVEC_GREATEST: v.greatest = c.greatest; break;
    case LIVEVEC_BEST: v.best_low = c.best.low, v.best_high = c.best.high; break;
    case LIVEVEC_AFFINE: v.affine_a = c.affine.a, v.affine_b = c.affine.b; break;
    default: memcpy(v.automaton, c.automaton.to, 8);
    }
    v.any = c.any;
    return v;
}

static livevec_series_range some_range(uint64_t most)
{
    uint64_t lo = GONE + below(SIZE - GONE + 1), left = SIZE - lo;
    return (livevec_series_range){lo, lo + below((left < most ? left : most) + 1)};
}

/* Each kind, of ranges within a shard, over its end, empty ones and whole ones. */
static void by_each_kind(livevec_series *s)
{
    for (int round = 0; round < 60; round++)
        for (uint32_t kind = 0; kind < 6; kind++) {
            livevec_series_range r = round < 50 ? some_range(900) : some_range(SIZE);
            if (round == 0)
                r = (livevec_series_range){GONE, SIZE};
            livevec_series_reduced told = livevec_series_value(s, kind, r.lo, r.hi);
            IS(told.refusal, 0);
            IS(told.first, 0);
            IS(told.size, 0);
            IS(told.edit, edits);
            alike(told.values, of_kind(plain(r.lo, r.hi), kind));
        }
}

static void of_many_ranges(livevec_series *s)
{
    livevec_series_range ranges[MANY];
    livevec_values answers[MANY + 1];
    for (uint32_t kind = 0; kind < 6; kind++) {
        for (int i = 0; i < MANY; i++)
            ranges[i] = some_range(700);
        memset(answers, 85, sizeof answers);
        livevec_series_many told = livevec_series_value_many(s, kind, ranges, answers, MANY);
        IS(told.refusal, 0);
        IS(told.edit, edits);
        IS(told.done, MANY);
        IS(told.place, 0);
        for (int i = 0; i < MANY; i++)
            alike(answers[i], of_kind(plain(ranges[i].lo, ranges[i].hi), kind));
        IS(answers[MANY].sum, 0x5555555555555555);
    }
    memset(answers, 85, sizeof answers);
    ranges[7] = (livevec_series_range){GONE - 1, SIZE};
    ranges[9] = (livevec_series_range){9, 8};
    livevec_series_many refused = livevec_series_value_many(s, LIVEVEC_SUM, ranges, answers, MANY);
    IS(refused.refusal, LIVEVEC_OUT_OF_RANGE);
    IS(refused.first, GONE);
    IS(refused.size, SIZE);
    IS(refused.edit, 0);
    IS(refused.done, 0);
    IS(refused.place, 7);
    IS(answers[0].sum, 0x5555555555555555);
    ranges[7] = ranges[8];
    refused = livevec_series_value_many(s, LIVEVEC_SUM, ranges, answers, MANY);
    IS(refused.refusal, LIVEVEC_BAD_RANGE);
    IS(refused.place, 9);
    IS(refused.first, 0);
    ranges[9] = (livevec_series_range){SIZE, SIZE + 1};
    IS(livevec_series_value_many(s, LIVEVEC_SUM, ranges, answers, MANY).refusal, LIVEVEC_OUT_OF_RANGE);
    livevec_series_many nothing = livevec_series_value_many(s, LIVEVEC_BEST, NULL, NULL, 0);
    IS(nothing.refusal, 0);
    IS(nothing.edit, edits);
    IS(nothing.done, 0);
}

/* One column of a kind in pieces, with a place behind them that stays. */
#define COLUMN(way, kind, cell)                                                                                \
    do {                                                                                                       \
        cell column[PIECE + 1], mark;                                                                          \
        memset(&mark, 85, sizeof mark);                                                                        \
        column[PIECE] = mark;                                                                                  \
        for (uint64_t at = lo, took; at < hi; at += took) {                                                    \
            livevec_series_scanned did = livevec_series_scan_##way##_##kind(s, lo, at, hi, column, PIECE);     \
            took = hi - at < PIECE ? hi - at : PIECE;                                                          \
            IS(did.refusal, 0);                                                                                \
            IS(did.edit, edits);                                                                               \
            IS(did.length, took);                                                                              \
            for (uint64_t i = 0; i < took; i++)                                                                \
                if (memcmp(&column[i], &way[at - lo + i].kind, sizeof mark))                                   \
                    IS(at + i, -1);                                                                            \
            IS(memcmp(&column[PIECE], &mark, sizeof mark), 0);                                                 \
        }                                                                                                      \
    } while (0)

#define COLUMNS(way)                            \
    do {                                        \
        COLUMN(way, sum, uint64_t);             \
        COLUMN(way, least, int64_t);            \
        COLUMN(way, greatest, int64_t);         \
        COLUMN(way, best, livevec_total);       \
        COLUMN(way, affine, livevec_map);       \
        COLUMN(way, automaton, livevec_states); \
    } while (0)

static void in_pieces(livevec_series *s, uint64_t lo, uint64_t hi)
{
    static cells inclusive[SIZE], exclusive[SIZE];
    cells so_far = none();
    for (uint64_t i = lo; i < hi; i++) {
        exclusive[i - lo] = so_far;
        so_far = after(so_far, all[i]);
        inclusive[i - lo] = so_far;
    }
    COLUMNS(inclusive);
    COLUMNS(exclusive);
}

/* Refused and empty calls: the column stays. */
static void other_columns(livevec_series *s)
{
    int64_t least[2] = {5, 6};
    livevec_states states[1] = {{{9}}};
    livevec_series_scanned gone = livevec_series_scan_inclusive_least(s, GONE - 1, GONE, SIZE, least, 2);
    IS(gone.refusal, LIVEVEC_OUT_OF_RANGE);
    IS(gone.first, GONE);
    IS(gone.size, SIZE);
    IS(gone.length, 0);
    IS(livevec_series_scan_inclusive_least(s, GONE, GONE + 1, SIZE + 1, least, 2).refusal, LIVEVEC_OUT_OF_RANGE);
    IS(livevec_series_scan_exclusive_least(s, GONE + 2, GONE + 1, SIZE, least, 2).refusal, LIVEVEC_BAD_RANGE);
    IS(livevec_series_scan_exclusive_automaton(s, GONE, GONE + 2, GONE + 1, states, 1).refusal, LIVEVEC_BAD_RANGE);
    IS(livevec_series_scan_exclusive_least(s, GONE, SIZE, SIZE, least, 2).length, 0);
    IS(livevec_series_scan_inclusive_best(s, GONE, GONE, SIZE, NULL, 0).refusal, 0);
    IS(livevec_series_scan_inclusive_best(s, GONE, GONE, SIZE, NULL, 1).refusal, LIVEVEC_NULL);
    IS(least[0], 5);
    IS(least[1], 6);
    IS(states[0].to[0], 9);
}

static void misuse(livevec_series *s)
{
    livevec_series empty = {0};
    livevec_vector vector = {0};
    livevec_series_range range = {GONE, GONE + 1};
    livevec_values v;
    uint64_t sum = 7;
    IS(livevec_series_value(NULL, LIVEVEC_SUM, 0, 0).refusal, LIVEVEC_NULL);
    IS(livevec_series_value(s, 6, 9, 8).refusal, LIVEVEC_BAD_KIND);
    IS(livevec_series_value(&empty, 6, 0, 0).refusal, LIVEVEC_BAD_KIND);
    IS(livevec_series_value(&empty, LIVEVEC_LEAST, 0, 0).refusal, LIVEVEC_NO_HANDLE);
    IS(livevec_series_value(s, LIVEVEC_LEAST, GONE + 1, GONE).refusal, LIVEVEC_BAD_RANGE);
    livevec_series_reduced gone = livevec_series_value(s, LIVEVEC_BEST, GONE - 1, GONE);
    IS(gone.refusal, LIVEVEC_OUT_OF_RANGE);
    IS(gone.first, GONE);
    IS(gone.size, SIZE);
    IS(gone.edit, 0);
    IS(livevec_series_value_many(NULL, LIVEVEC_SUM, &range, &v, 1).refusal, LIVEVEC_NULL);
    IS(livevec_series_value_many(s, LIVEVEC_SUM, NULL, &v, 1).refusal, LIVEVEC_NULL);
    IS(livevec_series_value_many(s, LIVEVEC_SUM, &range, NULL, 1).refusal, LIVEVEC_NULL);
    IS(livevec_series_value_many(s, 77, &range, &v, 1).refusal, LIVEVEC_BAD_KIND);
    IS(livevec_series_value_many(&empty, LIVEVEC_SUM, &range, &v, 1).refusal, LIVEVEC_NO_HANDLE);
    IS(livevec_series_scan_inclusive_sum(NULL, 0, 0, 0, &sum, 1).refusal, LIVEVEC_NULL);
    IS(livevec_series_scan_inclusive_sum(&empty, 0, 0, 0, &sum, 1).refusal, LIVEVEC_NO_HANDLE);
    s->busy_ = 1;
    IS(livevec_series_value(s, LIVEVEC_SUM, GONE, SIZE).refusal, LIVEVEC_BUSY);
    IS(livevec_series_value_many(s, LIVEVEC_SUM, &range, &v, 1).refusal, LIVEVEC_BUSY);
    IS(livevec_series_scan_exclusive_sum(s, GONE, GONE, SIZE, &sum, 1).refusal, LIVEVEC_BUSY);
    s->busy_ = 0;
    IS(livevec_new(&vector, 1, 9), 0);
    IS(livevec_series_value((livevec_series *)&vector, LIVEVEC_SUM, 0, 0).refusal, LIVEVEC_NO_HANDLE);
    IS(livevec_series_scan_inclusive_sum((livevec_series *)&vector, 0, 0, 0, &sum, 1).refusal, LIVEVEC_NO_HANDLE);
    IS(livevec_value((livevec_vector *)s, LIVEVEC_SUM, 0, 0).refusal, LIVEVEC_NO_HANDLE);
    IS(livevec_free(&vector), 0);
    IS(sum, 7);
}

void series_kinds(void)
{
    livevec_series s = {0};
    start(&s);
    by_each_kind(&s);
    of_many_ranges(&s);
    in_pieces(&s, SHARD - 1000, SHARD + 800);
    in_pieces(&s, GONE, GONE + 1);
    in_pieces(&s, GONE, SIZE);
    other_columns(&s);
    misuse(&s);
    IS(livevec_series_write(&s, SHARD, 7).refusal, 0);
    edits++;
    all[SHARD] = 7;
    by_each_kind(&s);
    IS(livevec_free_series(&s), 0);
}
