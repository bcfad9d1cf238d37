/* Exports that may want memory: `exports ROW` makes the call of that row, and says what it came to. Without such a row it says nothing.
 * tools/soak_memory refuses the call's requests for memory in turn. */
/* what a row begins from is looked at as a whole */
#define LIVEVEC_MUST_USE
#include "livevec.h"

#include <limits.h>
#include <stdio.h>
#include <stdlib.h>
#include <string.h>
#include <unistd.h>

static livevec_vector vector;
static livevec_job job;
static livevec_outcome outcome;
static livevec_batch batch;
static livevec_board board;
static livevec_seat seat;
static livevec_series series;
static livevec_samples samples;
static livevec_queries queries;

/* Elements 1, how many there are; how many of them a subtree has; how many samples fill their room; and the names that a set of queries is asked for. */
enum { MANY = 32761, SUBTREE = 4096, SAMPLES = 128, NAMES = 2 };
static const char *const names[NAMES] = {"all", "new"};
static int64_t ones[MANY];
static const uint32_t places[100] = {7, 3, 7};
static const uint64_t long_places[100] = {7, 3, 7};
static const livevec_table table;
/* eight elements 1 as bytes */
static uint8_t saved[88 + 8 * 8];

/* What the last call answered beside its refusal. */
static livevec_edited edited;
static livevec_claimed claimed;
static livevec_count closed;
static livevec_pushed pushed;
static livevec_many written;
static livevec_reduced answered;
static livevec_noted noted;
static livevec_note notes[2];
static livevec_series_edited long_edited;
static livevec_series_pushed long_pushed;
static livevec_series_many long_written;
static livevec_series_reduced long_answered;
static livevec_series_found found;
static livevec_series_scanned long_saved;
static livevec_scanned short_saved;
static livevec_series_summed summed;
#define KEPT(it, call) ((it) = (call)).refusal

/* What a vector, a series, samples and a set of queries show, all zeros where there is none, and whether the other slots are full. */
typedef struct {
    uint64_t first, size, edits, sum;
    bool is_full;
} long_shown;
typedef struct {
    uint32_t size, capacity, edits, cells, summaries, query_refusal[NAMES];
    uint64_t sum, query_sum[NAMES];
    long_shown series, samples;
    bool has_vector, has_board_closed, has_seat;
} shown;

static void see_series(long_shown *now, livevec_series *it)
{
    now->is_full = livevec_series_size(it).refusal == LIVEVEC_OK;
    if (!now->is_full)
        return;
    now->first = livevec_series_first(it).value;
    now->size = livevec_series_size(it).value;
    now->edits = livevec_series_edits(it).value;
    now->sum = livevec_series_reduce(it, now->first, now->size).values.sum;
}

static shown seen(void)
{
    shown now;
    memset(&now, 0, sizeof now);
    now.has_vector = livevec_size(&vector).refusal == LIVEVEC_OK;
    now.size = livevec_size(&vector).value;
    now.capacity = livevec_capacity(&vector).value;
    now.edits = livevec_edits(&vector).value;
    livevec_reduced all = livevec_reduce(&vector, 0, now.size);
    now.cells = all.cells;
    now.summaries = all.summaries;
    now.sum = all.values.sum;
    now.has_board_closed = livevec_closed_size(&board).refusal == LIVEVEC_OK;
    now.has_seat = livevec_seat_size(&seat).refusal == LIVEVEC_OK;
    see_series(&now.series, &series);
    see_series(&now.samples, &samples.values);
    for (int i = 0; i < NAMES; i++) {
        livevec_reduced answer = livevec_answer(&queries, &vector, names[i], 3);
        now.query_refusal[i] = answer.refusal;
        now.query_sum[i] = answer.values.sum;
    }
    return now;
}

/* What a row begins from. Elements are 1, and so many of them; of a series each kind has a tree where that is said. */
static void vector_of(uint32_t count)
{
    livevec_new(&vector, 17, count ? 10000 : 1000);
    if (count)
        livevec_push_many(&vector, ones, count);
}

/* Eight elements, whose block is fresh, or wants a job; or a set of one query, of their sum. */
static void eight(void)
{
    livevec_new(&vector, 17, 1000);
    for (int i = 0; i < 8; i++)
        livevec_push(&vector, 1);
    livevec_refresh(&vector, 1);
}

static void stale(void)
{
    eight();
    livevec_write(&vector, 0, 1);
}

static void watched(void)
{
    eight();
    livevec_queries_new(&queries);
    livevec_watch(&queries, names[0], 3, LIVEVEC_SUM, 0, 100);
}

/* A board with one edit, whose seat is handed in. */
static void board_pushed(void)
{
    livevec_board_new(&board, LIVEVEC_SUM, 9, 100, 2);
    livevec_board_sit(&board, &seat);
    livevec_seat_push(&seat, 42, 1);
    livevec_board_take_back(&board, &seat);
}

static void series_of(uint64_t count, bool has_trees)
{
    livevec_series_new(&series);
    for (uint64_t i = 0; i < count && count < 100; i++)
        livevec_series_push(&series, 1);
    if (count >= 100)
        livevec_series_push_many(&series, ones, count);
    if (has_trees)
        livevec_series_ask(&series, 0, count);
}

/* A slot that is loaded, to which no byte was given. */
static void loader(void)
{
    series_of(8, false);
    livevec_series_save(&series, 0, saved, sizeof saved);
    livevec_free_series(&series);
    livevec_series_begin_load(&series);
}

/* Samples 1 at the times from 1 on. */
static void samples_of(int64_t count, bool has_trees)
{
    livevec_samples_new(&samples);
    for (int64_t time = 1; time <= count; time++)
        livevec_samples_push(&samples, time, 1);
    if (has_trees)
        livevec_series_ask(&samples.values, 0, (uint64_t)count);
}

/* What is right after a call. */
static bool is_empty(void) { return seen().has_vector && livevec_edits(&vector).value == 0; }
static bool is_edit(uint32_t number) { return edited.edit == number && livevec_edits(&vector).value == number; }
static bool is_long_edit(uint64_t number) { return long_edited.edit == number && livevec_series_edits(&series).value == number; }
static bool is_sampled(uint64_t place, uint64_t size) { return long_edited.edit == SAMPLES + 1 && long_edited.place == place && seen().samples.size == size; }
static bool is_saved(uint64_t length, uint64_t edit) { return length == sizeof saved && edit == 8 && saved[0] == 'l'; }
static bool is_answered(uint64_t edit) { return long_answered.values.sum == 100 && long_answered.edit == edit; }

static bool has_pushed(uint64_t many, uint64_t all)
{
    long_shown now = seen().series;
    return long_pushed.pushed == many && long_pushed.edit == all && now.size == all && now.edits == all && now.sum == all;
}

static bool is_loaded(void) { return livevec_series_end_load(&series) == LIVEVEC_OK && seen().series.edits == 8 && seen().series.sum == 8; }
static bool is_begun(void) { return livevec_series_load(&series, saved, sizeof saved) == LIVEVEC_OK && livevec_series_end_load(&series) == LIVEVEC_NOT_SAVED; }
static bool is_subtree(void) { return livevec_accept_subtree(&vector, &batch).value == 585 && seen().summaries == 1 && seen().sum == SUBTREE; }
static uint32_t note(void) { return KEPT(noted, livevec_notes(&queries, &vector, notes, 2)); }

/* Of each row: its name, what it begins from, the call's refusal, and whether what it came to is right. */
#define ROWS(ROW) \
    ROW("livevec_new", (void)0, livevec_new(&vector, 17, 1000), is_empty()) \
    ROW("livevec_new_of", (void)0, livevec_new_of(&vector, LIVEVEC_SUM, 17, 1000), is_empty()) \
    ROW("livevec_new_with_table", (void)0, livevec_new_with_table(&vector, 17, 1000, &table), is_empty()) \
    ROW("livevec_reserve 56 from nothing", vector_of(0), KEPT(edited, livevec_reserve(&vector, 56)), is_edit(1)) \
    ROW("livevec_push, the first", vector_of(0), KEPT(edited, livevec_push(&vector, 1)), is_edit(1)) \
    ROW("livevec_push that opens the second bucket", eight(), KEPT(edited, livevec_push(&vector, 1)), is_edit(9) && livevec_capacity(&vector).value == 24) \
    ROW("livevec_pop", eight(), KEPT(edited, livevec_pop(&vector)), is_edit(9)) \
    ROW("livevec_write", eight(), KEPT(edited, livevec_write(&vector, 3, 9)), is_edit(9)) \
    ROW("livevec_swap", eight(), KEPT(edited, livevec_swap(&vector, 0, 7)), is_edit(9)) \
    ROW("livevec_truncate", eight(), KEPT(edited, livevec_truncate(&vector, 3)), is_edit(9)) \
    ROW("livevec_claim", stale(), KEPT(claimed, livevec_claim(&vector, &job)), claimed.level == 1 && claimed.number == 0 && claimed.version == 9) \
    ROW("livevec_run", (stale(), livevec_claim(&vector, &job)), livevec_run(&job, &outcome), livevec_vet(&vector, &outcome).refusal == LIVEVEC_OK) \
    ROW("livevec_blocks", stale(), livevec_blocks(&vector, &batch, 0, 1).refusal, livevec_run_blocks(&batch) == LIVEVEC_OK) \
    ROW("livevec_run_blocks", (stale(), livevec_blocks(&vector, &batch, 0, 1)), livevec_run_blocks(&batch), livevec_accept_blocks(&vector, &batch).installed == 1) \
    ROW("livevec_subtree", vector_of(SUBTREE), livevec_subtree(&vector, &batch, 0).refusal, livevec_run_blocks(&batch) == LIVEVEC_OK) \
    ROW("livevec_run_blocks of a subtree", (vector_of(SUBTREE), livevec_subtree(&vector, &batch, 0)), livevec_run_blocks(&batch), is_subtree()) \
    ROW("livevec_board_new", (void)0, livevec_board_new(&board, LIVEVEC_AFFINE, 9, 100, 8), livevec_board_sit(&board, &seat) == LIVEVEC_OK) \
    ROW("livevec_board_sit", livevec_board_new(&board, LIVEVEC_SUM, 9, 100, 2), livevec_board_sit(&board, &seat), livevec_seat_push(&seat, 42, 1).edit == 1) \
    ROW("livevec_board_close", board_pushed(), KEPT(closed, livevec_board_close(&board)), closed.value == 1 && livevec_closed_get(&board, 0).value == 42) \
    ROW("livevec_push_many", eight(), KEPT(pushed, livevec_push_many(&vector, ones, 100)), pushed.pushed == 100 && pushed.edit == 108 && seen().sum == 108) \
    ROW("livevec_write_many", eight(), KEPT(written, livevec_write_many(&vector, places, ones, 100)), written.done == 100 && written.edit == 108 && seen().sum == 8) \
    ROW("livevec_save", eight(), KEPT(short_saved, livevec_save(&vector, 0, saved, sizeof saved)), is_saved(short_saved.length, short_saved.edit)) \
    ROW("livevec_push_saved", (eight(), livevec_save(&vector, 0, saved, sizeof saved)), KEPT(pushed, livevec_push_saved(&vector, saved, sizeof saved)), pushed.pushed == 8 && pushed.edit == 16 && seen().sum == 16) \
    ROW("livevec_series_new", (void)0, livevec_series_new(&series), seen().series.is_full && seen().series.edits == 0) \
    ROW("livevec_series_push, the first", series_of(0, false), KEPT(long_edited, livevec_series_push(&series, 1)), is_long_edit(1) && long_edited.place == 0 && livevec_series_size(&series).value == 1) \
    ROW("livevec_series_push_many from nothing", series_of(0, false), KEPT(long_pushed, livevec_series_push_many(&series, ones, 100)), has_pushed(100, 100)) \
    ROW("livevec_series_push_many", series_of(8, false), KEPT(long_pushed, livevec_series_push_many(&series, ones, MANY)), has_pushed(MANY, MANY + 8)) \
    ROW("livevec_series_push_many over trees", series_of(8, true), KEPT(long_pushed, livevec_series_push_many(&series, ones, MANY)), has_pushed(MANY, MANY + 8)) \
    ROW("livevec_series_pop", series_of(8, false), KEPT(long_edited, livevec_series_pop(&series)), is_long_edit(9)) \
    ROW("livevec_series_write", series_of(8, false), KEPT(long_edited, livevec_series_write(&series, 5, 9)), is_long_edit(9)) \
    ROW("livevec_series_swap", series_of(8, false), KEPT(long_edited, livevec_series_swap(&series, 0, 7)), is_long_edit(9)) \
    ROW("livevec_series_truncate", series_of(8, false), KEPT(long_edited, livevec_series_truncate(&series, 3)), is_long_edit(9)) \
    ROW("livevec_series_expire", series_of(MANY, true), KEPT(long_edited, livevec_series_expire(&series, MANY - 1)), is_long_edit(MANY + 1) && livevec_series_first(&series).value == MANY - 1) \
    ROW("livevec_series_write_many", series_of(8, true), KEPT(long_written, livevec_series_write_many(&series, long_places, ones, 100)), long_written.done == 100 && long_written.edit == 108 && seen().series.sum == 8) \
    ROW("livevec_series_prepare", series_of(100, false), livevec_series_prepare(&series, LIVEVEC_BEST), livevec_series_value(&series, LIVEVEC_BEST, 0, 100).values.best_low == 100) \
    ROW("livevec_series_value, the first", series_of(100, false), KEPT(long_answered, livevec_series_value(&series, LIVEVEC_SUM, 0, 100)), is_answered(100)) \
    ROW("livevec_series_ask, the first", series_of(100, false), KEPT(long_answered, livevec_series_ask(&series, 0, 100)), is_answered(100)) \
    ROW("livevec_series_exact_sum, the first", series_of(100, false), KEPT(summed, livevec_series_exact_sum(&series, 0, 100)), summed.sum.low == 100 && summed.sum.high == 0 && summed.edit == 100) \
    ROW("livevec_series_where_best, the first", series_of(100, false), KEPT(found, livevec_series_where_best(&series, 0, 100)), found.lo == 0 && found.hi == 100 && found.sum_low == 100) \
    ROW("livevec_series_save", series_of(8, false), KEPT(long_saved, livevec_series_save(&series, 0, saved, sizeof saved)), is_saved(long_saved.length, long_saved.edit)) \
    ROW("livevec_series_begin_load", (void)0, livevec_series_begin_load(&series), is_begun()) \
    ROW("livevec_series_load", loader(), livevec_series_load(&series, saved, sizeof saved), is_loaded()) \
    ROW("livevec_samples_new", (void)0, livevec_samples_new(&samples), seen().samples.is_full && seen().samples.edits == 0) \
    ROW("livevec_samples_push_many of the first", samples_of(0, false), KEPT(long_written, livevec_samples_push_many(&samples, ones, ones, 1)), long_written.done == 1 && long_written.edit == 1 && seen().samples.size == 1) \
    ROW("livevec_samples_push", samples_of(SAMPLES, false), KEPT(long_edited, livevec_samples_push(&samples, SAMPLES + 1, 1)), is_sampled(SAMPLES, SAMPLES + 1) && seen().samples.sum == SAMPLES + 1) \
    ROW("livevec_samples_push over trees", samples_of(SAMPLES, true), KEPT(long_edited, livevec_samples_push(&samples, SAMPLES + 1, 1)), is_sampled(SAMPLES, SAMPLES + 1) && seen().samples.sum == SAMPLES + 1) \
    ROW("livevec_samples_expire_before", samples_of(SAMPLES, true), KEPT(long_edited, livevec_samples_expire_before(&samples, 100)), is_sampled(99, SAMPLES)) \
    ROW("livevec_samples_value, the first", samples_of(SAMPLES, false), KEPT(long_answered, livevec_samples_value(&samples, LIVEVEC_SUM, 1, SAMPLES)), long_answered.values.sum == SAMPLES - 1 && long_answered.edit == SAMPLES) \
    ROW("livevec_queries_new", (void)0, livevec_queries_new(&queries), livevec_watch(&queries, names[0], 3, LIVEVEC_SUM, 0, 8) == LIVEVEC_OK) \
    ROW("livevec_watch", livevec_queries_new(&queries), livevec_watch(&queries, names[1], 3, LIVEVEC_SUM, 0, 4), livevec_answer(&queries, &vector, names[1], 3).refusal == LIVEVEC_NO_HANDLE) \
    ROW("livevec_unwatch", watched(), livevec_unwatch(&queries, names[0], 3), seen().query_refusal[0] == LIVEVEC_NO_SUCH_NAME) \
    ROW("livevec_answer", watched(), KEPT(answered, livevec_answer(&queries, &vector, names[0], 3)), answered.values.sum == 8 && answered.edit == 8) \
    ROW("livevec_notes", watched(), note(), noted.count == 1 && notes[0].values.sum == 8 && note() == LIVEVEC_OK && noted.count == 0)

enum { NAME, PREPARE, CALL, JUDGE };
static const char *name;

/* Does one of these of a row: its name, what it begins from, its call, or whether that is right. Says the refusal, or the judgement. */
static uint32_t row(unsigned long wanted, int what)
{
    unsigned long at = 0;
#define ROW(its_name, begin, call, is_right) \
    if (wanted == at++) { \
        name = its_name; \
        return what == CALL ? (call) : what == JUDGE ? (is_right) : what == PREPARE ? ((begin), 0u) : 0u; \
    }
    ROWS(ROW)
    return 0;
}

int main(int count, char **words)
{
    unsigned long wanted = count == 2 ? strtoul(words[1], NULL, 10) : ULONG_MAX;
    row(wanted, NAME);
    if (!name)
        return 0;
    for (size_t i = 0; i < sizeof ones / sizeof *ones; i++)
        ones[i] = 1;
    row(wanted, PREPARE);
    shown before = seen();
    /* tools/starved.c takes these two out of standard error, and counts requests between them */
    (void)!write(2, "begin\n", 6);
    uint32_t refusal = row(wanted, CALL);
    (void)!write(2, "end\n", 4);
    const char *told = "Wrong";
    if (refusal == LIVEVEC_OK) {
        told = row(wanted, JUDGE) ? "Answered" : told;
    } else if (refusal == LIVEVEC_NO_MEMORY) {
        shown after = seen();
        if (!memcmp(&before, &after, sizeof before) && row(wanted, CALL) == LIVEVEC_OK && row(wanted, JUDGE))
            told = "Refused";
    }
    printf("%s: %s\n", name, told);
    return 0;
}
