/* A series beside a plain array whose start moves: random edits, a window that slides, refusals, pieces, want of memory, many writes. */
#include "tests.h"
#include "tests_plain.h"

#include <stdlib.h>
#include <string.h>

enum { ROOM = 300000, SHARD = 32760, PIECE = 500, MANY = 3 * SHARD };

static uint64_t state = 29;

static uint64_t below(uint64_t bound)
{
    state = state * 6364136223846793005u + 1442695040888963407u;
    return (state >> 20) % bound;
}

static int64_t element(void)
{
    switch (below(12)) {
    case 0: return INT64_MAX - (int64_t)below(3);
    case 1: return INT64_MIN + (int64_t)below(3);
    default: return (int64_t)below(2001) - 1000;
    }
}

/* The plain twin: the element under index i is at all[i], for `first` up to `size`. */
static int64_t all[ROOM];
static uint64_t first, size, edits;

static void start(livevec_series *s)
{
    first = size = edits = 0;
    IS(livevec_series_new(s), 0);
}

static livevec_values plain(uint64_t lo, uint64_t hi)
{
    livevec_table table = usual_table();
    return plainly(all + lo, hi - lo, &table);
}

/* The counts, and some range's values, are those of the twin. */
static void look(livevec_series *s)
{
    IS(livevec_series_first(s).value, first);
    IS(livevec_series_size(s).value, size);
    IS(livevec_series_edits(s).value, edits);
    uint64_t lo = first + below(size - first + 1);
    uint64_t hi = lo + below((size - lo < 400 ? size - lo : 400) + 1);
    livevec_series_reduced reduced = livevec_series_reduce(s, lo, hi), asked = livevec_series_ask(s, lo, hi);
    IS(reduced.refusal, 0);
    IS(reduced.edit, edits);
    alike(reduced.values, plain(lo, hi));
    alike(asked.values, reduced.values);
    IS(asked.edit, edits);
}

static void told_window(livevec_series_edited answer)
{
    IS(answer.refusal, LIVEVEC_OUT_OF_RANGE);
    IS(answer.first, first);
    IS(answer.size, size);
    IS(answer.edit, 0);
    IS(answer.place, 0);
    IS(answer.value, 0);
}

static void push_some(livevec_series *s, size_t many)
{
    for (size_t i = 0; i < many; i++)
        all[size + i] = element();
    livevec_series_pushed pushed = livevec_series_push_many(s, all + size, many);
    size += many;
    edits += many;
    IS(pushed.refusal, 0);
    IS(pushed.pushed, many);
    IS(pushed.edit, edits);
}

static void one_edit(livevec_series *s)
{
    livevec_series_edited e;
    uint64_t i = first + below(size - first + 3), j = first ? below(size + 2) : i;
    bool kept = i >= first && i < size, both = kept && j >= first && j < size;
    int64_t x = element(), there = kept ? all[i] : 0;
    switch (below(size - first > 90 ? 7 : 4)) {
    case 0:
    case 1:
        e = livevec_series_push(s, x);
        IS(e.refusal, 0);
        IS(e.place, size);
        all[size++] = x;
        break;
    case 2:
        e = livevec_series_write(s, i, x);
        if (!kept) {
            told_window(e);
            return;
        }
        IS(e.value, there);
        all[i] = x;
        break;
    case 3:
        e = livevec_series_swap(s, i, j);
        if (!both) {
            told_window(e);
            return;
        }
        all[i] = all[j];
        all[j] = there;
        IS(e.value, all[i]);
        break;
    case 4:
        e = livevec_series_pop(s);
        IS(e.value, all[--size]);
        break;
    case 5:
        e = livevec_series_truncate(s, size - below(4));
        size -= e.place;
        break;
    default:
        i = first + below(5);
        e = livevec_series_expire(s, i);
        IS(e.place, i - first);
        first = i;
    }
    IS(e.refusal, 0);
    IS(e.edit, ++edits);
    IS(e.first, 0);
    IS(e.size, 0);
}

/* Random edits, each looked at; elements are read one by one now and then. */
static void random_edits(void)
{
    livevec_series s = {0};
    start(&s);
    IS(livevec_series_pop(&s).refusal, LIVEVEC_EMPTY);
    push_some(&s, 100);
    for (int round = 0; round < 3000; round++) {
        one_edit(&s);
        if (round % 10 == 0)
            look(&s);
    }
    for (uint64_t i = first; i < size; i++)
        IS(livevec_series_get(&s, i).value, all[i]);
    IS(livevec_free_series(&s), 0);
}

/* A window of two shards that slides over seven: forgotten indices are told what is kept. */
static void sliding(void)
{
    livevec_series s = {0};
    start(&s);
    while (size < 7 * SHARD) {
        push_some(&s, 8190);
        if (size - first > 2 * SHARD) {
            uint64_t to = size - 2 * SHARD + below(100);
            livevec_series_edited e = livevec_series_expire(&s, to);
            IS(e.refusal, 0);
            IS(e.place, to - first);
            IS(e.edit, ++edits);
            first = to;
            told_window(livevec_series_write(&s, first - 1, 7));
            told_window(livevec_series_expire(&s, first - 1));
            told_window(livevec_series_swap(&s, first, first - 1));
            told_window(livevec_series_truncate(&s, size + 1));
        }
        look(&s);
        alike(livevec_series_reduce(&s, first, size).values, plain(first, size));
    }
    livevec_series_element gone = livevec_series_get(&s, first - 1);
    IS(gone.refusal, LIVEVEC_OUT_OF_RANGE);
    IS(gone.first, first);
    IS(gone.size, size);
    IS(livevec_series_get(&s, first).value, all[first]);
    IS(livevec_series_reduce(&s, first - 1, size).first, first);
    IS(livevec_series_reduce(&s, size, first).refusal, LIVEVEC_BAD_RANGE);
    IS(livevec_series_expire(&s, size).refusal, 0);
    IS(livevec_series_pop(&s).refusal, LIVEVEC_EMPTY);
    IS(livevec_series_push(&s, 7).place, size);
    IS(livevec_free_series(&s), 0);
}

/* Elements and running values, in pieces; behind them, and where a call is refused, the buffer stays. */
static void pieces(void)
{
    static int64_t elements[PIECE + 1];
    static livevec_values values[PIECE + 1];
    livevec_series s = {0};
    start(&s);
    push_some(&s, SHARD + 2000);
    IS(livevec_series_expire(&s, 700).place, 700);
    first = 700;
    uint64_t lo = SHARD - 900, hi = SHARD + 1000, took = 0;
    elements[PIECE] = -5;
    for (uint64_t at = lo; at < hi; at += took) {
        livevec_series_scanned read = livevec_series_read(&s, at, hi, elements, PIECE);
        took = hi - at < PIECE ? hi - at : PIECE;
        IS(read.refusal, 0);
        IS(read.length, took);
        IS(read.edit, SHARD + 2001);
        IS(memcmp(elements, all + at, took * sizeof *elements), 0);
        IS(elements[PIECE], -5);
    }
    values[PIECE].sum = 77;
    livevec_table table = usual_table();
    running so_far = of_none();
    for (uint64_t at = lo; at < hi; at += took) {
        livevec_values before = so_far.values;
        livevec_series_scanned scanned = livevec_series_scan_inclusive(&s, lo, at, hi, values, PIECE);
        took = scanned.length;
        IS(scanned.refusal, 0);
        IS(took, hi - at < PIECE ? hi - at : PIECE);
        for (uint64_t i = 0; i < took; i++) {
            so_far = with(so_far, all[at + i], &table);
            alike(values[i], so_far.values);
        }
        livevec_values last = values[took - 1], one_before = took > 1 ? values[took - 2] : before;
        scanned = livevec_series_scan_exclusive(&s, lo, at, hi, values, PIECE);
        IS(scanned.length, took);
        alike(values[0], before);
        alike(values[took - 1], one_before);
        alike(so_far.values, last);
        IS(values[PIECE].sum, 77);
    }
    IS(livevec_series_scan_inclusive(&s, lo, hi, hi, values, PIECE).length, 0);
    IS(livevec_series_scan_inclusive(&s, lo, lo - 1, hi, values, PIECE).refusal, LIVEVEC_BAD_RANGE);
    IS(livevec_series_scan_inclusive(&s, lo, hi + 1, hi, values, PIECE).refusal, LIVEVEC_BAD_RANGE);
    livevec_series_scanned refused = livevec_series_scan_exclusive(&s, 699, 800, hi, values, PIECE);
    IS(refused.refusal, LIVEVEC_OUT_OF_RANGE);
    IS(refused.first, 700);
    IS(refused.size, size);
    IS(livevec_series_read(&s, lo, size + 1, elements, PIECE).size, size);
    IS(livevec_series_read(&s, hi, lo, elements, PIECE).refusal, LIVEVEC_BAD_RANGE);
    IS(livevec_series_read(&s, lo, hi, NULL, 0).length, 0);
    IS(livevec_series_scan_exclusive(&s, lo, lo, hi, NULL, 0).length, 0);
    IS(livevec_free_series(&s), 0);
}

/* Each request for memory fails in turn, for as long as one does: nothing has changed then, and the next call goes on. The tree of each
 * kind is made first, so that a push may want memory for any of them. */
static void want_of_memory(void)
{
    livevec_series s = {0};
    start(&s);
    push_some(&s, 900);
    look(&s);
    int refused = 0;
    for (int round = 0; round < 1200; round++) {
        until_failure = 1;
        livevec_series_edited e = livevec_series_push(&s, round);
        until_failure = 0;
        if (e.refusal) {
            refused++;
            IS(e.refusal, LIVEVEC_NO_MEMORY);
            IS(livevec_series_size(&s).value, size);
            IS(livevec_series_edits(&s).value, edits);
            IS(livevec_series_push(&s, round).place, size);
        }
        all[size++] = round;
        edits++;
    }
    IS(refused > 0, 1);
    alike(livevec_series_reduce(&s, 900, size).values, plain(900, size));
    int nth = 0;
    livevec_series_pushed p = {0};
    for (size_t i = 0; i < MANY; i++)
        all[size + i] = element();
    do {
        until_failure = nth += 1 + nth / 8;
        p = livevec_series_push_many(&s, all + size, MANY);
        until_failure = 0;
        IS(p.refusal == 0 || p.refusal == LIVEVEC_NO_MEMORY, 1);
        IS(p.pushed, p.refusal ? 0 : MANY);
        IS(p.edit, p.refusal ? 0 : edits + MANY);
        size += p.pushed;
        edits += p.pushed;
        look(&s);
    } while (p.refusal && nth < 10000);
    IS(nth > 5 && p.refusal == 0, 1);
    alike(livevec_series_reduce(&s, first, size).values, plain(first, size));
    IS(livevec_free_series(&s), 0);
    until_failure = 1;
    IS(livevec_series_new(&s), LIVEVEC_NO_MEMORY);
    until_failure = 0;
    IS(livevec_free_series(&s), LIVEVEC_NO_HANDLE);
}

/* Where there is no memory for a tree its question is refused, and nothing has changed; answers that need no tree go on. */
static void want_of_trees(void)
{
    livevec_series s = {0};
    livevec_series_range range = {3, 900};
    livevec_values answer = {.sum = 77};
    start(&s);
    push_some(&s, 1000);
    for (uint32_t kind = 0; kind < 6; kind++) {
        until_failure = 1;
        livevec_series_reduced told = livevec_series_value(&s, kind, 3, 900);
        IS(told.refusal, LIVEVEC_NO_MEMORY);
        IS(told.edit, 0);
        IS(told.first, 0);
        until_failure = 1;
        IS(livevec_series_prepare(&s, kind), LIVEVEC_NO_MEMORY);
        until_failure = 1;
        livevec_series_many many = livevec_series_value_many(&s, kind, &range, &answer, 1);
        IS(many.refusal, LIVEVEC_NO_MEMORY);
        IS(many.done, 0);
        IS(answer.sum, 77);
        until_failure = 1;
        told = livevec_series_ask(&s, 3, 900);
        IS(told.refusal, LIVEVEC_NO_MEMORY);
        IS(told.edit, 0);
        IS(livevec_series_value(&s, kind, 3, 1001).refusal, LIVEVEC_OUT_OF_RANGE);
        alike(livevec_series_reduce(&s, 3, 900).values, plain(3, 900));
        IS(livevec_series_edits(&s).value, edits);
        until_failure = 0;
        IS(livevec_series_prepare(&s, kind), 0);
        until_failure = 1;
        IS(livevec_series_prepare(&s, kind), 0);
        IS(livevec_series_value(&s, kind, 3, 900).refusal, 0);
        IS(livevec_series_value_many(&s, kind, &range, &answer, 1).refusal, 0);
        until_failure = 0;
        answer.sum = 77;
    }
    until_failure = 1;
    livevec_series_reduced asked = livevec_series_ask(&s, 3, 900);
    until_failure = 0;
    IS(asked.refusal, 0);
    alike(asked.values, plain(3, 900));
    IS(livevec_free_series(&s), 0);
}

/* Many writes at once: all are made, or none. An index may come twice. */
static void writes_at_once(void)
{
    static uint64_t indices[200];
    static int64_t values[200];
    livevec_series s = {0};
    start(&s);
    push_some(&s, 500);
    first = 40;
    IS(livevec_series_expire(&s, first).edit, ++edits);
    for (int round = 0; round < 60; round++) {
        size_t length = below(200);
        for (size_t i = 0; i < length; i++) {
            indices[i] = first + below(size - first);
            values[i] = element();
        }
        size_t wrong = round % 3 && length ? below(length) : length;
        if (wrong < length)
            indices[wrong] = below(2) ? first - 1 - below(40) : size + below(3);
        livevec_series_many did = livevec_series_write_many(&s, indices, values, length);
        IS(did.refusal, wrong < length ? LIVEVEC_OUT_OF_RANGE : 0);
        IS(did.first, wrong < length ? first : 0);
        IS(did.size, wrong < length ? size : 0);
        IS(did.place, wrong < length ? wrong : 0);
        IS(did.done, wrong < length ? 0 : length);
        if (wrong == length) {
            edits += length;
            for (size_t i = 0; i < length; i++)
                all[indices[i]] = values[i];
        }
        IS(did.edit, wrong < length ? 0 : edits);
        look(&s);
        alike(livevec_series_reduce(&s, first, size).values, plain(first, size));
    }
    IS(livevec_series_write_many(&s, NULL, NULL, 0).edit, edits);
    IS(livevec_free_series(&s), 0);
}

/* Elements that expire give their memory back, and their part of each tree too. */
static void memory_comes_back(void)
{
    size_t before = memory_held();
    livevec_series s = {0};
    IS(livevec_series_new(&s), LIVEVEC_OK);
    for (int64_t x = 0; x < 200000; x++)
        IS(livevec_series_push(&s, x).refusal, LIVEVEC_OK);
    for (uint32_t kind = 0; kind < 6; kind++)
        IS(livevec_series_prepare(&s, kind), LIVEVEC_OK);
    IS(memory_held() - before > 200000 * sizeof(int64_t), true);
    IS(livevec_series_expire(&s, 199800).place, 199800);
    IS(memory_held() - before < 32768, true);
    IS(livevec_series_value(&s, LIVEVEC_GREATEST, 199800, 200000).values.greatest, 199999);
    IS(livevec_free_series(&s), LIVEVEC_OK);
    IS(memory_held(), before);
}

void series(void)
{
    misuse_of_series();
    random_edits();
    sliding();
    pieces();
    want_of_memory();
    want_of_trees();
    memory_comes_back();
    writes_at_once();
}
