/* Good and bad use of boards and their seats. Each expected value is worked out by hand, or follows from the rules. */
#include "tests_board.h"

#include <stdlib.h>

static const livevec_board empty_board;
static const livevec_seat empty_seat;

void open_with_seat(livevec_board *board, livevec_seat *seat, livevec_kind kind, uint32_t buckets, uint32_t edits)
{
    IS(livevec_board_new(board, kind, buckets, edits, 1), LIVEVEC_OK);
    IS(livevec_board_sit(board, seat), LIVEVEC_OK);
}

void free_both(livevec_board *board, livevec_seat *seat)
{
    IS(livevec_board_take_back(board, seat), LIVEVEC_OK);
    IS(livevec_free_board(board), LIVEVEC_OK);
}

/* Limits, kinds and numbers of seats. */
static void births(void)
{
    livevec_board b = empty_board;
    IS(livevec_board_new(&b, LIVEVEC_AUTOMATON + 1, 9, 10, 1), LIVEVEC_BAD_LIMITS);
    IS(livevec_board_new(&b, UINT32_MAX, 9, 10, 1), LIVEVEC_BAD_LIMITS);
    IS(livevec_board_new(&b, LIVEVEC_SUM, 0, 10, 1), LIVEVEC_BAD_LIMITS);
    IS(livevec_board_new(&b, LIVEVEC_SUM, 10, 10, 1), LIVEVEC_BAD_LIMITS);
    IS(livevec_board_new(&b, LIVEVEC_SUM, 9, 0, 1), LIVEVEC_BAD_LIMITS);
    IS(livevec_board_new(&b, LIVEVEC_SUM, 9, 16777216, 1), LIVEVEC_BAD_LIMITS);
    IS(livevec_board_new(&b, LIVEVEC_SUM, 9, 10, 0), LIVEVEC_BAD_LIMITS);
    IS(livevec_board_new(&b, LIVEVEC_SUM, 9, 10, 9), LIVEVEC_BAD_LIMITS);
    IS(livevec_free_board(&b), LIVEVEC_NO_HANDLE);
    IS(livevec_board_new(&b, LIVEVEC_SUM, 9, 16777215, 8), LIVEVEC_OK);
    IS(livevec_board_new(&b, LIVEVEC_SUM, 9, 10, 8), LIVEVEC_IN_USE);
    IS(livevec_free_board(&b), LIVEVEC_OK);
}

/* Two seats of two, and no third until one is back; not where one is freed. */
static void sitting(void)
{
    livevec_board b = empty_board;
    livevec_seat one = empty_seat, two = empty_seat, three = empty_seat;
    IS(livevec_board_new(&b, LIVEVEC_SUM, 1, 10, 2), LIVEVEC_OK);
    IS(livevec_board_sit(&b, &one), LIVEVEC_OK);
    IS(livevec_board_sit(&b, &one), LIVEVEC_IN_USE);
    IS(livevec_board_sit(&b, &two), LIVEVEC_OK);
    IS(livevec_board_sit(&b, &three), LIVEVEC_NO_SEAT);
    IS(livevec_seat_push(&three, 1, ONCE).refusal, LIVEVEC_NO_HANDLE);
    IS(livevec_board_take_back(&b, &one), LIVEVEC_OK);
    IS(livevec_board_take_back(&b, &one), LIVEVEC_NO_HANDLE);
    IS(livevec_seat_push(&one, 1, ONCE).refusal, LIVEVEC_NO_HANDLE);
    IS(livevec_board_sit(&b, &three), LIVEVEC_OK);
    IS(livevec_board_sit(&b, &one), LIVEVEC_NO_SEAT);
    IS(livevec_free_seat(&three), LIVEVEC_OK);
    IS(livevec_board_sit(&b, &three), LIVEVEC_NO_SEAT);
    /* a seat outlives its board */
    IS(livevec_free_board(&b), LIVEVEC_OK);
    IS(livevec_seat_push(&two, 7, ONCE).edit, 1);
    IS(livevec_seat_get(&two, 0).value, 7);
    IS(livevec_free_seat(&two), LIVEVEC_OK);
}

/* A seat of another board is refused and stays good, whatever the boards' kinds are. */
static void strangers(void)
{
    livevec_board sums = empty_board, others = empty_board, leasts = empty_board;
    livevec_seat one = empty_seat, two = empty_seat;
    open_with_seat(&sums, &one, LIVEVEC_SUM, 1, 10);
    open_with_seat(&others, &two, LIVEVEC_SUM, 1, 10);
    IS(livevec_board_new(&leasts, LIVEVEC_LEAST, 1, 10, 1), LIVEVEC_OK);
    IS(livevec_board_take_back(&others, &one), LIVEVEC_OTHER_BOARD);
    IS(livevec_board_take_back(&leasts, &one), LIVEVEC_OTHER_BOARD);
    IS(livevec_seat_push(&one, 7, ONCE).edit, 1);
    IS(livevec_board_close(&others).refusal, LIVEVEC_SEATS_OUT);
    IS(livevec_board_take_back(&others, &two), LIVEVEC_OK);
    IS(livevec_board_close(&others).value, 0);
    IS(livevec_board_take_back(&others, &one), LIVEVEC_NO_HANDLE);
    IS(livevec_board_take_back(&sums, &one), LIVEVEC_OK);
    IS(livevec_board_close(&sums).value, 1);
    IS(livevec_free_board(&sums), LIVEVEC_OK);
    IS(livevec_free_board(&others), LIVEVEC_OK);
    IS(livevec_free_board(&leasts), LIVEVEC_OK);
}

/* Edits at two seats are one list; each refusal of an edit, in order. */
static void edits(void)
{
    livevec_board b = empty_board;
    livevec_seat one = empty_seat, two = empty_seat;
    IS(livevec_board_new(&b, LIVEVEC_SUM, 1, 13, 2), LIVEVEC_OK);
    IS(livevec_board_sit(&b, &one), LIVEVEC_OK);
    IS(livevec_board_sit(&b, &two), LIVEVEC_OK);
    IS(livevec_seat_size(&one).value, 0);
    IS(livevec_seat_pop(&one, ONCE).refusal, LIVEVEC_EMPTY);
    livevec_edited e = livevec_seat_push(&one, -32768, ONCE);
    IS(e.refusal, LIVEVEC_OK);
    IS(e.edit, 1);
    IS(e.place, 0);
    e = livevec_seat_push(&two, 32767, 0); /* no tries are one try */
    IS(e.edit, 2);
    IS(e.place, 1);
    IS(livevec_seat_push(&one, -32769, ONCE).refusal, LIVEVEC_TOO_WIDE);
    IS(livevec_seat_push(&one, 32768, ONCE).refusal, LIVEVEC_TOO_WIDE);
    IS(livevec_seat_write(&one, 9, INT64_MIN, ONCE).refusal, LIVEVEC_TOO_WIDE);
    e = livevec_seat_write(&two, 0, 5, UINT32_MAX);
    IS(e.edit, 3);
    IS(e.value, -32768);
    e = livevec_seat_write(&two, 2, 5, ONCE);
    IS(e.refusal, LIVEVEC_OUT_OF_RANGE);
    IS(e.detail, 2);
    IS(e.edit, 0);
    IS(livevec_seat_get(&one, 0).value, 5);
    IS(livevec_seat_get(&one, 1).value, 32767);
    livevec_element none = livevec_seat_get(&one, 2);
    IS(none.refusal, LIVEVEC_OUT_OF_RANGE);
    IS(none.detail, 2);
    e = livevec_seat_pop(&one, ONCE);
    IS(e.edit, 4);
    IS(e.value, 32767);
    for (int64_t i = 1; i < 8; i++)
        IS(livevec_seat_push(&two, i, ONCE).place, i);
    IS(livevec_seat_push(&one, 8, ONCE).refusal, LIVEVEC_FULL);
    IS(livevec_seat_pop(&one, ONCE).edit, 12);
    IS(livevec_seat_push(&one, 8, ONCE).edit, 13);
    IS(livevec_seat_pop(&two, ONCE).refusal, LIVEVEC_WORN);
    IS(livevec_seat_push(&two, 32768, ONCE).refusal, LIVEVEC_TOO_WIDE);
    IS(livevec_seat_size(&two).value, 8);
    IS(livevec_board_take_back(&b, &one), LIVEVEC_OK);
    free_both(&b, &two);
}

/* The values of 4, -6, 1027, 1025 by one kind; the first seven fields of `wanted` are looked at, and the automaton's state from 0. */
static void reduces_by(livevec_kind kind, livevec_values wanted)
{
    static const int64_t elements[] = {4, -6, 1027, 1025};
    livevec_board b = empty_board;
    livevec_seat s = empty_seat;
    open_with_seat(&b, &s, kind, 9, 100);
    for (int i = 0; i < 4; i++)
        IS(livevec_seat_push(&s, elements[i], ONCE).edit, i + 1);
    livevec_reduced r = livevec_seat_reduce(&s, 0, 4);
    IS(r.refusal, LIVEVEC_OK);
    IS(r.edit, 4);
    IS(r.cells, 4);
    IS(r.summaries, 0);
    IS(r.values.any, true);
    IS(r.values.sum, wanted.sum);
    IS(r.values.least, wanted.least);
    IS(r.values.greatest, wanted.greatest);
    IS(r.values.best_low, wanted.best_low);
    IS(r.values.best_high, wanted.best_high);
    IS(r.values.affine_a, wanted.affine_a);
    IS(r.values.affine_b, wanted.affine_b);
    IS(r.values.automaton[0], wanted.automaton[0]);
    IS(livevec_seat_reduce(&s, 2, 2).refusal, LIVEVEC_OK);
    IS(livevec_seat_reduce(&s, 2, 2).values.any, false);
    IS(livevec_seat_reduce(&s, 5, 4).refusal, LIVEVEC_BAD_RANGE);
    r = livevec_seat_reduce(&s, 0, 5);
    IS(r.refusal, LIVEVEC_OUT_OF_RANGE);
    IS(r.detail, 4);
    IS(r.edit, 0);
    free_both(&b, &s);
}

/* As in tests.c, where each is worked out; the other kinds' values are 0. */
static void reductions(void)
{
    reduces_by(LIVEVEC_SUM, (livevec_values){.sum = 2050});
    reduces_by(LIVEVEC_LEAST, (livevec_values){.least = -6});
    reduces_by(LIVEVEC_GREATEST, (livevec_values){.greatest = 1027});
    reduces_by(LIVEVEC_BEST, (livevec_values){.best_low = 2052});
    reduces_by(LIVEVEC_AFFINE, (livevec_values){.affine_b = 3949});
    reduces_by(LIVEVEC_AUTOMATON, (livevec_values){.automaton = {7}});
}

/* A block's summary is read in place of its eight cells, until an edit touches it. */
static void refreshes(void)
{
    livevec_board b = empty_board;
    livevec_seat s = empty_seat;
    open_with_seat(&b, &s, LIVEVEC_SUM, 2, 100);
    for (int64_t i = 0; i < 7; i++)
        IS(livevec_seat_push(&s, i, ONCE).refusal, LIVEVEC_OK);
    livevec_renewed r = livevec_seat_refresh(&s, 0);
    IS(r.refusal, LIVEVEC_OUT_OF_RANGE);
    IS(r.detail, 7);
    IS(livevec_seat_push(&s, 7, ONCE).edit, 8);
    IS(livevec_seat_push(&s, 100, ONCE).edit, 9);
    r = livevec_seat_refresh(&s, 0);
    IS(r.refusal, LIVEVEC_OK);
    IS(r.edit, 9);
    IS(r.version, 8);
    livevec_reduced told = livevec_seat_reduce(&s, 0, 9);
    IS(told.values.sum, 128);
    IS(told.cells, 1);
    IS(told.summaries, 1);
    IS(livevec_seat_write(&s, 3, -3, ONCE).edit, 10);
    told = livevec_seat_reduce(&s, 0, 9);
    IS(told.values.sum, 122);
    IS(told.cells, 9);
    IS(told.summaries, 0);
    IS(livevec_seat_refresh(&s, UINT32_MAX).refusal, LIVEVEC_OUT_OF_RANGE);
    free_both(&b, &s);
}

/* A board closes once its seats are back, one of them never taken; and never, once one is freed. */
static void closes(void)
{
    livevec_board b = empty_board;
    livevec_seat s = empty_seat;
    int64_t read[3] = {-1, -1, -1};
    uint32_t count = 77;
    IS(livevec_board_new(&b, LIVEVEC_LEAST, 9, 100, 2), LIVEVEC_OK);
    IS(livevec_board_sit(&b, &s), LIVEVEC_OK);
    IS(livevec_seat_push(&s, 11, ONCE).edit, 1);
    IS(livevec_closed_size(&b).refusal, LIVEVEC_NO_HANDLE);
    IS(livevec_closed_read(&b, read, 3, &count), LIVEVEC_NO_HANDLE);
    IS(count, 77);
    IS(livevec_board_close(&b).refusal, LIVEVEC_SEATS_OUT);
    IS(livevec_board_close(&b).value, 0);
    /* nothing has changed by that */
    IS(livevec_seat_push(&s, -12, ONCE).edit, 2);
    IS(livevec_seat_push(&s, 13, ONCE).edit, 3);
    IS(livevec_seat_write(&s, 0, 14, ONCE).edit, 4);
    IS(livevec_board_take_back(&b, &s), LIVEVEC_OK);
    livevec_count closed = livevec_board_close(&b);
    IS(closed.refusal, LIVEVEC_OK);
    IS(closed.value, 4);
    IS(livevec_board_close(&b).refusal, LIVEVEC_NO_HANDLE);
    IS(livevec_board_sit(&b, &s), LIVEVEC_NO_HANDLE);
    IS(livevec_board_take_back(&b, &s), LIVEVEC_NO_HANDLE);
    IS(livevec_closed_size(&b).value, 3);
    IS(livevec_closed_get(&b, 1).value, -12);
    livevec_element none = livevec_closed_get(&b, 3);
    IS(none.refusal, LIVEVEC_OUT_OF_RANGE);
    IS(none.detail, 3);
    IS(livevec_closed_read(&b, read, 2, &count), LIVEVEC_SHORT_BUFFER);
    IS(count, 3);
    IS(read[0], -1);
    IS(livevec_closed_read(&b, read, 3, &count), LIVEVEC_OK);
    IS(count, 3);
    IS(read[0], 14);
    IS(read[1], -12);
    IS(read[2], 13);
    IS(livevec_free_board(&b), LIVEVEC_OK);
    IS(livevec_closed_size(&b).refusal, LIVEVEC_NO_HANDLE);
    IS(livevec_free_board(&b), LIVEVEC_NO_HANDLE);
    /* a board that nobody sat at */
    IS(livevec_board_new(&b, LIVEVEC_LEAST, 1, 1, 8), LIVEVEC_OK);
    IS(livevec_board_close(&b).value, 0);
    IS(livevec_closed_read(&b, read, 0, &count), LIVEVEC_OK);
    IS(count, 0);
    IS(livevec_free_board(&b), LIVEVEC_OK);
    /* a seat that is freed is gone */
    open_with_seat(&b, &s, LIVEVEC_LEAST, 1, 1);
    IS(livevec_free_seat(&s), LIVEVEC_OK);
    IS(livevec_board_close(&b).refusal, LIVEVEC_SEATS_OUT);
    IS(livevec_free_board(&b), LIVEVEC_OK);
}

void boards(void)
{
    births();
    sitting();
    strangers();
    edits();
    reductions();
    refreshes();
    closes();
    misuse_of_boards();
    starved_boards();
    threads_at_boards();
}
