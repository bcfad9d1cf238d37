/* Standing queries, beside a plain model: a list of queries, and of each what it was told last. */
#include "tests.h"
#include "tests_plain.h"

#include <string.h>

enum { MOST = 300, ROUNDS = 1500, NAMES = 12 };

static uint64_t state = 11;

static uint32_t below(uint32_t bound)
{
    return draw(&state, bound);
}

/* Whether two answers of a kind are one: an empty list has no least, greatest or best, and that is no 0. */
static bool one_answer(uint32_t kind, livevec_values a, livevec_values b)
{
    bool told_apart = kind == LIVEVEC_LEAST || kind == LIVEVEC_GREATEST || kind == LIVEVEC_BEST;
    if (!told_apart)
        a.any = b.any;
    return same(a, b);
}

/* The model: the elements, the queries in order, and what each counts as told. */
typedef struct query {
    char name[LIVEVEC_NAME_BYTES + 1];
    uint32_t kind, lo, hi;
    livevec_values told;
} query;

typedef struct model {
    livevec_vector v;
    livevec_queries set;
    livevec_table table;
    int64_t xs[MOST];
    uint32_t size, edits, count;
    query queries[NAMES];
} model;

static livevec_values answer_now(model *m, const query *q)
{
    uint32_t hi = q->hi < m->size ? q->hi : m->size, lo = q->lo < hi ? q->lo : hi;
    return only(plainly(m->xs + lo, hi - lo, &m->table), q->kind);
}

static query *named(model *m, const char *name)
{
    for (uint32_t i = 0; i < m->count; i++)
        if (!strcmp(m->queries[i].name, name))
            return &m->queries[i];
    return NULL;
}

static const char *const names[NAMES] = {"a", "b", "dips", "total", "latest_100", "x9", "_", "0", "sixteen_bytes_16", "peak", "run", "q"};

static void watch_some(model *m)
{
    const char *name = names[below(NAMES)];
    uint32_t kind = below(6), lo = below(MOST), hi = below(2 * MOST);
    uint32_t wanted = hi < lo ? LIVEVEC_BAD_RANGE : named(m, name) ? LIVEVEC_NAME_TAKEN : LIVEVEC_OK;
    IS(livevec_watch(&m->set, name, strlen(name), kind, lo, hi), wanted);
    if (wanted)
        return;
    query *q = &m->queries[m->count++];
    memset(q, 0, sizeof *q);
    strcpy(q->name, name);
    q->kind = kind, q->lo = lo, q->hi = hi;
    q->told = only(of_none().values, kind);
}

static void unwatch_some(model *m)
{
    const char *name = names[below(NAMES)];
    query *q = named(m, name);
    IS(livevec_unwatch(&m->set, name, strlen(name)), q ? LIVEVEC_OK : LIVEVEC_NO_SUCH_NAME);
    if (!q)
        return;
    memmove(q, q + 1, (size_t)(m->queries + m->count - (q + 1)) * sizeof *q);
    m->count--;
}

static void edit_some(model *m)
{
    uint32_t which = below(10);
    int64_t x = (int64_t)below(41) - 20;
    if (which < 6 && m->size < MOST) {
        IS(livevec_push(&m->v, x).refusal, 0);
        m->xs[m->size++] = x;
    } else if (which < 8 && m->size) {
        uint32_t at = below(m->size);
        IS(livevec_write(&m->v, at, x).refusal, 0);
        m->xs[at] = x;
    } else if (which < 9 && m->size) {
        IS(livevec_pop(&m->v).refusal, 0);
        m->size--;
    } else {
        m->size -= m->size / 8;
        IS(livevec_truncate(&m->v, m->size).refusal, 0);
    }
    m->edits++;
}

/* All notes that are due, in order, and none where the room is short. */
static void notes_due(model *m)
{
    livevec_note notes[NAMES + 1], before[NAMES + 1];
    memset(notes, 85, sizeof notes);
    memcpy(before, notes, sizeof notes);
    uint32_t due = 0;
    for (uint32_t i = 0; i < m->count; i++)
        due += !one_answer(m->queries[i].kind, m->queries[i].told, answer_now(m, &m->queries[i]));
    if (due) {
        livevec_noted none = livevec_notes(&m->set, &m->v, notes, due - 1);
        IS(none.refusal, LIVEVEC_SHORT_BUFFER);
        IS(none.detail, due);
        IS(none.edit + none.count, 0);
        IS(memcmp(notes, before, sizeof notes), 0);
    }
    livevec_noted told = livevec_notes(&m->set, &m->v, notes, NAMES + 1);
    IS(told.refusal + told.detail, 0);
    IS(told.edit, m->edits);
    IS(told.count, due);
    uint32_t at = 0;
    for (uint32_t i = 0; i < m->count; i++) {
        query *q = &m->queries[i];
        livevec_values now = answer_now(m, q);
        if (one_answer(q->kind, q->told, now))
            continue;
        IS(strcmp(notes[at].name, q->name), 0);
        IS(notes[at].kind, q->kind);
        IS(notes[at].edit, m->edits);
        IS(same(notes[at].values, now), true);
        at++;
        q->told = now;
    }
    IS(at, due);
    IS(memcmp(notes + due, before + due, (NAMES + 1 - due) * sizeof *notes), 0);
    IS(livevec_notes(&m->set, &m->v, NULL, 0).count, 0);
}

static void answers(model *m)
{
    const char *name = names[below(NAMES)];
    query *q = named(m, name);
    livevec_reduced told = livevec_answer(&m->set, &m->v, name, strlen(name));
    IS(told.refusal, q ? LIVEVEC_OK : LIVEVEC_NO_SUCH_NAME);
    IS(told.edit, q ? m->edits : 0);
    if (q)
        IS(same(told.values, answer_now(m, q)), true);
}

/* Random queries and edits, with the automaton of livevec_new or one of the caller's. */
static void as_the_model(bool own_table)
{
    static model m;
    memset(&m, 0, sizeof m);
    livevec_table table;
    for (uint32_t q = 0; q < 8; q++)
        for (uint32_t r = 0; r < 4; r++)
            table.next[q][r] = (uint8_t)(own_table ? (q + 3 * r) % 8 : (2 * q + r) % 8);
    m.table = table;
    IS(own_table ? livevec_new_with_table(&m.v, 8, 9999, &table) : livevec_new(&m.v, 8, 9999), 0);
    IS(livevec_queries_new(&m.set), 0);
    for (int round = 0; round < ROUNDS; round++) {
        if (below(4) == 0)
            watch_some(&m);
        if (below(12) == 0)
            unwatch_some(&m);
        if (below(3))
            edit_some(&m);
        if (below(3))
            notes_due(&m);
        answers(&m);
    }
    IS(livevec_free_queries(&m.set), 0);
    IS(livevec_free(&m.v), 0);
}

/* What is refused, in which order, and that nothing has changed then. */
static void refused(void)
{
    livevec_queries set = {0}, other = {0};
    livevec_vector v = {0};
    livevec_note notes[2];
    IS(livevec_queries_new(NULL), LIVEVEC_NULL);
    IS(livevec_watch(&set, NULL, 0, 0, 0, 0), LIVEVEC_NULL);
    IS(livevec_watch(&set, "", 0, 9, 1, 0), LIVEVEC_BAD_NAME);
    IS(livevec_watch(&set, "A", 1, 9, 1, 0), LIVEVEC_BAD_NAME);
    IS(livevec_watch(&set, "seventeen_bytes_17", 17, 9, 1, 0), LIVEVEC_BAD_NAME);
    IS(livevec_watch(&set, "a", 1, 6, 1, 0), LIVEVEC_BAD_KIND);
    IS(livevec_watch(&set, "a", 1, LIVEVEC_SUM, 1, 0), LIVEVEC_NO_HANDLE);
    IS(livevec_unwatch(&set, "a b", 3), LIVEVEC_BAD_NAME);
    IS(livevec_unwatch(&set, "a", 1), LIVEVEC_NO_HANDLE);
    IS(livevec_answer(&set, &v, "a", 1).refusal, LIVEVEC_NO_HANDLE);
    IS(livevec_notes(&set, &v, NULL, 1).refusal, LIVEVEC_NULL);
    IS(livevec_notes(&set, &v, notes, 2).refusal, LIVEVEC_NO_HANDLE);
    IS(livevec_free_queries(&set), LIVEVEC_NO_HANDLE);

    IS(livevec_queries_new(&set), 0);
    IS(livevec_queries_new(&set), LIVEVEC_IN_USE);
    IS(livevec_watch(&set, "a", 1, LIVEVEC_SUM, 1, 0), LIVEVEC_BAD_RANGE);
    IS(livevec_watch(&set, "a", 1, LIVEVEC_SUM, 0, UINT32_MAX), 0);
    IS(livevec_watch(&set, "a", 1, LIVEVEC_LEAST, 0, 1), LIVEVEC_NAME_TAKEN);
    IS(livevec_answer(&set, &v, "b", 1).refusal, LIVEVEC_NO_SUCH_NAME);
    IS(livevec_answer(&set, &v, "a", 1).refusal, LIVEVEC_NO_HANDLE);
    IS(livevec_notes(&set, &v, notes, 2).refusal, LIVEVEC_NO_HANDLE);
    IS(livevec_free((livevec_vector *)&set), LIVEVEC_NO_HANDLE);
    IS(livevec_notes(&set, (livevec_vector *)&other, notes, 2).refusal, LIVEVEC_NO_HANDLE);

    /* a vector of one kind answers that kind, and tells nothing where another is among the queries */
    IS(livevec_new_of(&v, LIVEVEC_SUM, 2, 9), 0);
    IS(livevec_push(&v, 5).refusal, 0);
    IS(livevec_watch(&set, "b", 1, LIVEVEC_LEAST, 0, 1), 0);
    IS(livevec_answer(&set, &v, "a", 1).values.sum, 5);
    IS(livevec_answer(&set, &v, "b", 1).refusal, LIVEVEC_BAD_KIND);
    livevec_noted none = livevec_notes(&set, &v, notes, 0);
    IS(none.refusal, LIVEVEC_BAD_KIND);
    IS(none.detail, 1);
    IS(livevec_unwatch(&set, "b", 1), 0);
    IS(livevec_notes(&set, &v, notes, 2).count, 1);
    IS(notes[0].values.sum, 5);
    IS(livevec_free_queries((livevec_queries *)&v), LIVEVEC_NO_HANDLE);
    IS(livevec_free(&v), 0);
    IS(livevec_free_queries(&set), 0);
}

/* As many queries as a set may have, and no memory for one more. */
static void many(void)
{
    livevec_queries set = {0};
    char name[LIVEVEC_NAME_BYTES] = "q00";
    until_failure = 1;
    IS(livevec_queries_new(&set), LIVEVEC_NO_MEMORY);
    IS(livevec_queries_new(&set), 0);
    for (int i = 0; i < LIVEVEC_MOST_QUERIES; i++) {
        name[1] = (char)('0' + i / 10), name[2] = (char)('0' + i % 10);
        until_failure = 1;
        uint32_t first = livevec_watch(&set, name, 3, LIVEVEC_SUM, 0, 9);
        until_failure = 0;
        if (first == LIVEVEC_NO_MEMORY)
            first = livevec_watch(&set, name, 3, LIVEVEC_SUM, 0, 9);
        IS(first, 0);
    }
    IS(livevec_watch(&set, "q00", 3, LIVEVEC_SUM, 0, 9), LIVEVEC_NAME_TAKEN);
    IS(livevec_watch(&set, "more", 4, LIVEVEC_SUM, 0, 9), LIVEVEC_TOO_MANY);
    livevec_vector v = {0};
    livevec_note notes[LIVEVEC_MOST_QUERIES];
    IS(livevec_new(&v, 2, 9), 0);
    IS(livevec_push(&v, 3).refusal, 0);
    until_failure = 1; /* takes no memory */
    IS(livevec_notes(&set, &v, notes, LIVEVEC_MOST_QUERIES - 1).detail, LIVEVEC_MOST_QUERIES);
    IS(livevec_notes(&set, &v, notes, LIVEVEC_MOST_QUERIES).count, LIVEVEC_MOST_QUERIES);
    IS(livevec_notes(&set, &v, notes, LIVEVEC_MOST_QUERIES).count, 0);
    IS(livevec_answer(&set, &v, "q63", 3).values.sum, 3);
    IS(until_failure, 1);
    until_failure = 0;
    IS(strcmp(notes[63].name, "q63"), 0);
    IS(livevec_free_queries(&set), 0);
    IS(livevec_free(&v), 0);
}

/* Values that are worked by hand: the last so many, bounds, and windows of time, by a vector, a series and samples. */
static void watch_as(livevec_queries *set, const char *name, livevec_query query)
{
    IS(livevec_watch_query(set, name, strlen(name), &query), 0);
}

static livevec_queries three_spans(void)
{
    livevec_queries set = {0};
    IS(livevec_queries_new(&set), 0);
    watch_as(&set, "last", (livevec_query){.kind = LIVEVEC_SUM, .span = LIVEVEC_LAST, .lo = 2});
    watch_as(&set, "high", (livevec_query){.kind = LIVEVEC_GREATEST, .span = LIVEVEC_LAST, .lo = 3, .bound = LIVEVEC_AT_LEAST, .x = 10});
    watch_as(&set, "low", (livevec_query){.kind = LIVEVEC_LEAST, .lo = 1, .hi = UINT64_MAX, .bound = LIVEVEC_AT_MOST, .x = -1});
    return set;
}

/* What is pushed one after another, and which notes there are after each: the sum of the last two, whether the greatest of the last three is at
 * least 10, and whether the least of all but the first is at most -1. */
static const struct step {
    int64_t pushed, sum, high, low;
    const char *told[3];
} steps[] = {
    {4, 4, 4, 0, {"last"}},              /* 4 */
    {10, 14, 10, 10, {"last", "high"}},  /* 4 10: begins to be at least 10 */
    {4, 14, 10, 4, {NULL}},              /* 4 10 4: the sum is 14 again, and is not told twice */
    {12, 16, 12, 4, {"last"}},           /* 10 4 12: stays at least 10 */
    {-1, 11, 12, -1, {"last", "low"}},   /* 4 12 -1: the least of all but the first begins to be at most -1 */
    {0, -1, 12, -1, {"last"}},           /* 12 -1 0 */
    {1, 1, 1, -1, {"last", "high"}},     /* -1 0 1: ends to be at least 10 */
};
enum { STEPS = sizeof steps / sizeof *steps };

static void told_as(const struct step *step, uint32_t edit, livevec_noted noted, const livevec_note *notes)
{
    uint32_t count = 0;
    IS(noted.refusal, 0);
    IS(noted.edit, edit);
    for (; count < 3 && step->told[count]; count++) {
        IS(strcmp(notes[count].name, step->told[count]), 0);
        IS(notes[count].edit, edit);
        const livevec_values *now = &notes[count].values;
        int64_t value = *step->told[count] == 'h' ? now->greatest : step->told[count][1] == 'o' ? now->least : (int64_t)now->sum;
        IS(value, *step->told[count] == 'h' ? step->high : step->told[count][1] == 'o' ? step->low : step->sum);
    }
    IS(noted.count, count);
}

static livevec_noted narrow(livevec_series_noted told)
{
    return (livevec_noted){.refusal = told.refusal, .detail = told.detail, .edit = (uint32_t)told.edit, .count = told.count};
}

static void spans_and_bounds(void)
{
    livevec_queries of_vector = three_spans(), of_series = three_spans(), of_samples = three_spans();
    livevec_vector v = {0};
    livevec_series s = {0};
    livevec_samples t = {0};
    livevec_note notes[4];
    IS(livevec_new(&v, 4, 99), 0);
    IS(livevec_series_new(&s), 0);
    IS(livevec_samples_new(&t), 0);
    for (uint32_t i = 0; i < STEPS; i++) {
        const struct step *step = &steps[i];
        IS(livevec_push(&v, step->pushed).refusal + livevec_series_push(&s, step->pushed).refusal + livevec_samples_push(&t, i, step->pushed).refusal, 0);
        told_as(step, i + 1, livevec_notes(&of_vector, &v, notes, 4), notes);
        told_as(step, i + 1, narrow(livevec_series_notes(&of_series, &s, notes, 4)), notes);
        told_as(step, i + 1, narrow(livevec_series_notes(&of_samples, &t.values, notes, 4)), notes);
        IS(livevec_answer(&of_vector, &v, "last", 4).values.sum, step->sum);
        livevec_series_reduced told = livevec_series_answer(&of_series, &s, "high", 4);
        IS(told.values.greatest, step->high);
        IS(told.edit, i + 1);
        told = livevec_series_answer(&of_samples, &t.values, "low", 3);
        IS(told.values.least, step->low);
        IS(told.values.any, i > 0);
    }
    /* an expiry leaves of the range what is kept: 1 alone, behind -1 and 0. So the least ends to be at most -1, and the sum of the last two is 1 */
    IS(livevec_series_expire(&s, 6).refusal, 0);
    IS(livevec_series_notes(&of_series, &s, notes, 4).count, 1);
    IS(strcmp(notes[0].name, "low"), 0);
    IS(notes[0].values.least, 1);
    IS(livevec_free_queries(&of_vector) + livevec_free_queries(&of_series) + livevec_free_queries(&of_samples), 0);
    IS(livevec_free(&v) + livevec_free_series(&s) + livevec_free_samples(&t), 0);
}

/* Of the last 10 of time: samples at 0, 5, 9, 15 and 30 that are 7, 1, 2, 3 and -4. */
static void windows_of_time(void)
{
    static const int64_t times[] = {0, 5, 9, 15, 30}, values[] = {7, 1, 2, 3, -4};
    static const uint64_t sums[] = {7, 8, 10, 5, (uint64_t)-4};
    livevec_queries set = {0};
    livevec_samples t = {0};
    livevec_series s = {0};
    livevec_vector v = {0};
    livevec_note notes[3];
    IS(livevec_queries_new(&set), 0);
    IS(livevec_samples_new(&t), 0);
    watch_as(&set, "ten", (livevec_query){.kind = LIVEVEC_SUM, .span = LIVEVEC_WITHIN, .lo = 10});
    watch_as(&set, "busy", (livevec_query){.kind = LIVEVEC_SUM, .span = LIVEVEC_WITHIN, .lo = 10, .bound = LIVEVEC_AT_LEAST, .x = 8});
    watch_as(&set, "none", (livevec_query){.kind = LIVEVEC_LEAST, .span = LIVEVEC_WITHIN});
    for (uint32_t i = 0; i < 5; i++) {
        IS(livevec_samples_push(&t, times[i], values[i]).refusal, 0);
        livevec_series_noted told = livevec_series_notes(&set, &t.values, notes, 3);
        IS(told.count, i == 1 || i == 3 ? 2 : 1); /* 8 begins to be at least 8, 5 ends to be */
        IS(notes[0].values.sum, sums[i]);
        if (told.count == 2)
            IS(strcmp(notes[1].name, "busy"), 0);
        IS(livevec_series_answer(&set, &t.values, "none", 4).values.any, false);
    }
    /* what has no times isn't asked, and is told nothing */
    IS(livevec_series_new(&s), 0);
    IS(livevec_new(&v, 2, 9), 0);
    IS(livevec_series_answer(&set, &s, "ten", 3).refusal, LIVEVEC_BAD_KIND);
    IS(livevec_answer(&set, &v, "busy", 4).refusal, LIVEVEC_BAD_KIND);
    IS(livevec_unwatch(&set, "ten", 3), 0);
    watch_as(&set, "all", (livevec_query){.kind = LIVEVEC_SUM, .hi = 9});
    livevec_series_noted refused = livevec_series_notes(&set, &s, notes, 3);
    IS(refused.refusal, LIVEVEC_BAD_KIND);
    IS(refused.detail, 0);
    IS(livevec_unwatch(&set, "busy", 4), 0);
    IS(livevec_notes(&set, &v, notes, 3).refusal, LIVEVEC_BAD_KIND);
    IS(livevec_unwatch(&set, "none", 4), 0);
    IS(livevec_notes(&set, &v, notes, 3).refusal, 0);
    IS(livevec_free_queries(&set) + livevec_free_samples(&t) + livevec_free_series(&s) + livevec_free(&v), 0);
}

/* Numbers that name nothing, and no memory for a tree: the kind goes over the elements then, and the answer is the same. */
static void refused_by_numbers(void)
{
    livevec_queries set = {0};
    livevec_series s = {0};
    livevec_note note;
    IS(livevec_queries_new(&set), 0);
    IS(livevec_watch_query(&set, "a", 1, NULL), LIVEVEC_NULL);
    IS(livevec_watch_query(&set, "A", 1, &(livevec_query){.kind = 6}), LIVEVEC_BAD_NAME);
    IS(livevec_watch_query(&set, "a", 1, &(livevec_query){.kind = 6}), LIVEVEC_BAD_KIND);
    IS(livevec_watch_query(&set, "a", 1, &(livevec_query){.span = 3}), LIVEVEC_BAD_KIND);
    IS(livevec_watch_query(&set, "a", 1, &(livevec_query){.bound = 3}), LIVEVEC_BAD_KIND);
    IS(livevec_watch_query(&set, "a", 1, &(livevec_query){.lo = 2, .hi = 1}), LIVEVEC_BAD_RANGE);
    IS(livevec_watch_query(&set, "a", 1, &(livevec_query){.span = LIVEVEC_LAST, .lo = 2, .hi = 1}), 0);
    IS(livevec_series_answer(&set, &s, "a", 1).refusal, LIVEVEC_NO_HANDLE);
    IS(livevec_series_notes(&set, NULL, &note, 1).refusal, LIVEVEC_NULL);
    IS(livevec_series_new(&s), 0);
    for (int64_t x = 1; x <= 100; x++)
        IS(livevec_series_push(&s, x).refusal, 0);
    until_failure = 1;
    IS(livevec_series_notes(&set, &s, &note, 1).count, 1);
    IS(until_failure, 0);
    IS(note.values.sum, 99 + 100);
    IS(livevec_series_notes(&set, &s, &note, 0).detail, 0);
    IS(livevec_series_push(&s, 6).refusal, 0);
    IS(livevec_series_notes(&set, &s, &note, 0).refusal, LIVEVEC_SHORT_BUFFER);
    IS(livevec_series_answer(&set, &s, "a", 1).values.sum, 106);
    IS(livevec_free_queries(&set) + livevec_free_series(&s), 0);
}

void queries(void)
{
    spans_and_bounds();
    windows_of_time();
    refused_by_numbers();
    as_the_model(false);
    as_the_model(true);
    refused();
    many();
}
