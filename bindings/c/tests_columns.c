/* Scans by one kind into columns, and by all six into values, beside plain loops over the same elements; and that each free is of its own type. */
#include "tests.h"
#include "tests_plain.h"

#include <stdlib.h>
#include <string.h>

enum { MOST = 3000, ROUNDS = 60, BEHIND = 3 };

static uint64_t state = 11;

static uint32_t below(uint32_t bound)
{
    return draw(&state, bound);
}

/* A place of each column, by a loop's variables. */
typedef struct cells {
    uint64_t sum;
    int64_t least, greatest;
    livevec_total best;
    livevec_map affine;
    livevec_states automaton;
} cells;

/* The cells of no elements, and those with one element more. `ending` is the best total that ends with the last one. */
static cells none(void)
{
    cells c = {.affine = {1, 0}};
    for (uint8_t q = 0; q < 8; q++)
        c.automaton.to[q] = q;
    return c;
}

static cells with_cell(cells c, bool first, int64_t x, wide *ending, wide *best)
{
    int64_t low = ((x % 256) + 256) % 256;
    uint32_t a = (uint32_t)(uint64_t)((x - low) / 256);
    c.sum += (uint64_t)x;
    c.least = first || x < c.least ? x : c.least;
    c.greatest = first || x > c.greatest ? x : c.greatest;
    *ending = first || *ending < 0 ? x : *ending + x;
    *best = first || *best < *ending ? *ending : *best;
    c.best = (livevec_total){(uint64_t)*best, (int64_t)(*best >> 64)};
    c.affine = (livevec_map){a * c.affine.a, a * c.affine.b + (uint32_t)low};
    for (int q = 0; q < 8; q++)
        c.automaton.to[q] = (uint8_t)((2 * c.automaton.to[q] + low % 4) % 8);
    return c;
}

static cells inclusive[MOST], exclusive[MOST];

static void loop(const int64_t *xs, uint32_t length)
{
    cells c = none();
    wide ending = 0, best = 0;
    for (uint32_t i = 0; i < length; i++) {
        exclusive[i] = c;
        c = with_cell(c, i == 0, xs[i], &ending, &best);
        inclusive[i] = c;
    }
}

/* One column of a kind, of so many places and some behind, which stay as they were. */
#define COLUMN(way, kind, cell)                                                                                       \
    do {                                                                                                              \
        cell *column = malloc((length + BEHIND) * sizeof *column), mark;                                              \
        memset(column, 85, (length + BEHIND) * sizeof *column);                                                       \
        memset(&mark, 85, sizeof mark);                                                                               \
        livevec_scanned did = livevec_scan_##way##_##kind(v, lo, hi, column, length + BEHIND);                        \
        IS(did.refusal, 0);                                                                                           \
        IS(did.detail, 0);                                                                                            \
        IS(did.edit, edits);                                                                                          \
        IS(did.length, length);                                                                                       \
        for (uint32_t i = 0; i < length + BEHIND; i++)                                                                \
            if (memcmp(&column[i], i < length ? (const void *)&way[i].kind : (const void *)&mark, sizeof mark))       \
                IS(i, -1);                                                                                            \
        free(column);                                                                                                 \
    } while (0)

#define COLUMNS(way)                            \
    do {                                        \
        COLUMN(way, sum, uint64_t);             \
        COLUMN(way, least, int64_t);            \
        COLUMN(way, greatest, int64_t);         \
        COLUMN(way, best, livevec_total);       \
        COLUMN(way, affine, livevec_map);       \
        COLUMN(way, automaton, livevec_states); \
    } while (0)

/* All six at once, into values and some behind, which stay as they were. */
static void scan_six(livevec_vector *v, bool whole, const cells *wanted, uint32_t lo, uint32_t hi, uint32_t edits)
{
    uint32_t length = hi - lo;
    livevec_values *got = malloc((length + BEHIND) * sizeof *got);
    unsigned char marks[BEHIND * sizeof *got];
    memset(got, 85, (length + BEHIND) * sizeof *got);
    memset(marks, 85, sizeof marks);
    livevec_scanned did = (whole ? livevec_scan_inclusive : livevec_scan_exclusive)(v, lo, hi, got, length + BEHIND);
    IS(did.refusal + did.detail, 0);
    IS(did.edit, edits);
    IS(did.length, length);
    for (uint32_t i = 0; i < length; i++) {
        const livevec_values *a = &got[i];
        const cells *b = &wanted[i];
        if (a->sum != b->sum || a->least != b->least || a->greatest != b->greatest || a->best_low != b->best.low || a->best_high != b->best.high ||
            a->affine_a != b->affine.a || a->affine_b != b->affine.b || memcmp(a->automaton, b->automaton.to, 8) || a->any != (whole || i > 0))
            IS(i, -1);
    }
    IS(memcmp(got + length, marks, sizeof marks), 0);
    free(got);
}

static void scan_all(livevec_vector *v, const int64_t *xs, uint32_t lo, uint32_t hi, uint32_t edits)
{
    uint32_t length = hi - lo;
    loop(xs + lo, length);
    COLUMNS(inclusive);
    COLUMNS(exclusive);
    scan_six(v, true, inclusive, lo, hi, edits);
    scan_six(v, false, exclusive, lo, hi, edits);
}

/* All kinds over random ranges of a vector that is edited meanwhile: its last write may lie inside a range. */
static void beside_loops(void)
{
    static int64_t xs[MOST];
    uint32_t edits = 0;
    livevec_vector v = {0};
    IS(livevec_new(&v, 17, 1000000), 0);
    scan_all(&v, xs, 0, 0, 0);
    for (uint32_t i = 0; i < MOST; i++) {
        IS(livevec_push(&v, xs[i] = draw_element(&state)).refusal, 0);
        edits++;
    }
    scan_all(&v, xs, 0, MOST, edits);
    for (int round = 0; round < ROUNDS; round++) {
        uint32_t at = below(MOST), other = below(MOST), a = below(MOST + 1), b = below(MOST + 1);
        IS(livevec_write(&v, at, xs[at] = draw_element(&state)).edit, ++edits);
        scan_all(&v, xs, a < b ? a : b, a < b ? b : a, edits);
        IS(livevec_swap(&v, at, other).edit, ++edits);
        int64_t x = xs[at];
        xs[at] = xs[other];
        xs[other] = x;
        if (below(3) == 0)
            IS(livevec_value(&v, LIVEVEC_SUM, a < b ? a : b, a < b ? b : a).refusal, 0);
        scan_all(&v, xs, at < other ? at : other, MOST, edits);
    }
    IS(livevec_edits(&v).value, edits);
    IS(livevec_free(&v), 0);
}

/* The automaton goes by the vector's own table. */
static void by_its_own_table(void)
{
    livevec_vector v = {0};
    livevec_table table;
    livevec_states to[2];
    memset(&table, 5, sizeof table);
    IS(livevec_new_with_table(&v, 1, 100, &table), 0);
    IS(livevec_push(&v, 3).refusal + livevec_push(&v, 0).refusal, 0);
    IS(livevec_scan_exclusive_automaton(&v, 0, 2, to, 2).length, 2);
    IS(to[0].to[3], 3);
    IS(to[1].to[3], 5);
    IS(livevec_free(&v), 0);
}

/* Each refusal, in the header's order; no place is written then. */
static void refused(void)
{
    uint64_t column[] = {7, 7, 7};
    livevec_vector v = {0};
    IS(livevec_scan_inclusive_sum(NULL, 0, 0, column, 3).refusal, LIVEVEC_NULL);
    IS(livevec_scan_inclusive_sum(&v, 0, 0, NULL, 1).refusal, LIVEVEC_NULL);
    IS(livevec_scan_inclusive_sum(&v, 1, 0, column, 0).refusal, LIVEVEC_NO_HANDLE);
    IS(livevec_new(&v, 1, 100), 0);
    IS(livevec_push(&v, 5).refusal + livevec_push(&v, 6).refusal + livevec_push(&v, 1).refusal, 0);
    IS(livevec_scan_inclusive_sum(&v, 4, 3, column, 0).refusal, LIVEVEC_BAD_RANGE);
    livevec_scanned did = livevec_scan_inclusive_sum(&v, 0, 4, column, 0);
    IS(did.refusal, LIVEVEC_OUT_OF_RANGE);
    IS(did.detail, 3);
    IS(did.edit + did.length, 0);
    did = livevec_scan_exclusive_sum(&v, 0, 3, column, 2);
    IS(did.refusal, LIVEVEC_SHORT_BUFFER);
    IS(did.detail, 3);
    IS(did.edit + did.length, 0);
    did = livevec_scan_exclusive_sum(&v, 0, 3, NULL, 0);
    IS(did.refusal, LIVEVEC_SHORT_BUFFER);
    v.busy_ = 1;
    IS(livevec_scan_inclusive_sum(&v, 0, 3, column, 3).refusal, LIVEVEC_BUSY);
    v.busy_ = 0;
    IS(column[0] + column[1] + column[2], 21);
    did = livevec_scan_exclusive_sum(&v, 2, 2, NULL, 0);
    IS(did.refusal, 0);
    IS(did.edit, 3);
    IS(did.length, 0);
    until_failure = 1;
    IS(livevec_scan_exclusive_sum(&v, 0, 3, column, 3).refusal, 0);
    IS(until_failure, 1);
    until_failure = 0;
    IS(column[0], 0);
    IS(column[1], 5);
    IS(column[2], 11);
    IS(livevec_free(&v), 0);
    IS(livevec_scan_inclusive_sum(&v, 0, 0, column, 3).refusal, LIVEVEC_NO_HANDLE);
}

/* What a free of another type finds stays, and is freed by its own. */
static void freed_by_type(void)
{
    livevec_vector v = {0};
    livevec_job job = {0};
    livevec_outcome outcome = {0};
    livevec_board board = {0};
    livevec_seat seat = {0};
    IS(livevec_new(&v, 1, 100), 0);
    for (int i = 0; i < 8; i++)
        IS(livevec_push(&v, i).refusal, 0);
    IS(livevec_claim(&v, &job).found, true);
    IS(livevec_free((livevec_vector *)&job), LIVEVEC_NO_HANDLE);
    IS(livevec_free_outcome((livevec_outcome *)&job), LIVEVEC_NO_HANDLE);
    IS(livevec_run(&job, &outcome), 0);
    IS(livevec_free_job((livevec_job *)&outcome), LIVEVEC_NO_HANDLE);
    IS(livevec_free_job((livevec_job *)&v), LIVEVEC_NO_HANDLE);
    IS(livevec_free_board((livevec_board *)&v), LIVEVEC_NO_HANDLE);
    IS(livevec_free_seat((livevec_seat *)&v), LIVEVEC_NO_HANDLE);
    IS(livevec_size(&v).value, 8);
    IS(livevec_accept(&v, &outcome).became, LIVEVEC_INSTALLED);
    IS(livevec_board_new(&board, LIVEVEC_SUM, 1, 100, 1), 0);
    IS(livevec_board_sit(&board, &seat), 0);
    IS(livevec_free((livevec_vector *)&board), LIVEVEC_NO_HANDLE);
    IS(livevec_free_board((livevec_board *)&seat), LIVEVEC_NO_HANDLE);
    IS(livevec_free_seat((livevec_seat *)&board), LIVEVEC_NO_HANDLE);
    IS(livevec_board_take_back(&board, &seat), 0);
    IS(livevec_board_close(&board).refusal, 0);
    IS(livevec_free_seat((livevec_seat *)&board), LIVEVEC_NO_HANDLE);
    IS(livevec_free_board(&board), 0);
    IS(livevec_free_outcome(&outcome), 0);
    IS(livevec_free(&v), 0);
    IS(livevec_free_job(&job), LIVEVEC_NO_HANDLE);
}

void columns(void)
{
    beside_loops();
    by_its_own_table();
    refused();
    freed_by_type();
}
