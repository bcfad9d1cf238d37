/* Questions by one kind, one or many at once, beside plain loops over the same elements. */
#include "tests.h"
#include "tests_plain.h"

#include <stdlib.h>
#include <string.h>

enum { MOST = 700, ROUNDS = 400, ASKED = 40 };

/* The numbers of a fixed sequence, from 0 up to `below`. */
static uint64_t state;

static uint32_t below(uint32_t bound)
{
    return draw(&state, bound);
}

/* A vector and the plain list that it stands for. */
typedef struct pair {
    livevec_vector v;
    int64_t xs[MOST];
    uint32_t size, edits;
} pair;

/* One edit of a random kind, at both. */
static void edit(pair *p)
{
    uint32_t at = p->size ? below(p->size) : 0, other = p->size ? below(p->size) : 0, kept = below(p->size + 1);
    int64_t x = draw_element(&state);
    livevec_edited did = {0};
    uint32_t which = below(40);
    if (which < 18 && p->size < MOST) {
        did = livevec_push(&p->v, x);
        p->xs[p->size++] = x;
    } else if (which < 24 && p->size) {
        did = livevec_pop(&p->v);
        p->size--;
    } else if (which < 36 && p->size) {
        did = livevec_write(&p->v, at, x);
        p->xs[at] = x;
    } else if (which < 39 && p->size) {
        did = livevec_swap(&p->v, at, other);
        x = p->xs[at];
        p->xs[at] = p->xs[other];
        p->xs[other] = x;
    } else if (kept > p->size / 2) {
        did = livevec_truncate(&p->v, kept);
        p->size = kept;
    } else {
        return;
    }
    IS(did.refusal, 0);
    IS(did.edit, ++p->edits);
}

/* Writes of random places at once, at both; a place may come twice. */
static void write_some(pair *p)
{
    uint32_t indices[20];
    int64_t values[20];
    size_t length = p->size ? below(20) : 0;
    for (size_t i = 0; i < length; i++) {
        indices[i] = below(p->size);
        values[i] = draw_element(&state);
        p->xs[indices[i]] = values[i];
    }
    livevec_many did = livevec_write_many(&p->v, indices, values, length);
    p->edits += (uint32_t)length;
    IS(did.refusal, 0);
    IS(did.done, length);
    IS(did.edit, p->edits);
}

static livevec_range some_range(const pair *p)
{
    uint32_t a = below(p->size + 1), b = below(p->size + 1);
    return (livevec_range){a < b ? a : b, a < b ? b : a};
}

/* A question by each kind, alone and as one of many. */
static void ask(pair *p)
{
    livevec_table table = usual_table();
    livevec_range ranges[ASKED];
    livevec_values answers[ASKED];
    for (uint32_t kind = LIVEVEC_SUM; kind <= LIVEVEC_AUTOMATON; kind++) {
        uint32_t length = below(ASKED + 1);
        for (uint32_t i = 0; i < length; i++)
            ranges[i] = some_range(p);
        livevec_many did = livevec_value_many(&p->v, kind, ranges, answers, length);
        IS(did.refusal, 0);
        IS(did.edit, p->edits);
        IS(did.done, length);
        for (uint32_t i = 0; i < length; i++)
            IS(same(answers[i], only(plainly(p->xs + ranges[i].lo, ranges[i].hi - ranges[i].lo, &table), kind)), true);
        livevec_range one = some_range(p);
        livevec_reduced told = livevec_value(&p->v, kind, one.lo, one.hi);
        IS(told.refusal, 0);
        IS(told.edit, p->edits);
        IS(told.cells + told.summaries, 0);
        IS(same(told.values, only(plainly(p->xs + one.lo, one.hi - one.lo, &table), kind)), true);
        if (below(4) == 0)
            IS(same(livevec_ask(&p->v, one.lo, one.hi).values, plainly(p->xs + one.lo, one.hi - one.lo, &table)), true);
    }
}

/* Random edits and questions, also beside summaries that refresh delivers. */
static void beside_plain_loops(void)
{
    static pair p;
    state = 7;
    IS(livevec_new(&p.v, 17, 1000000), 0);
    for (int round = 0; round < ROUNDS; round++) {
        for (uint32_t i = below(12); i > 0; i--)
            edit(&p);
        write_some(&p);
        if (below(5) == 0)
            IS(livevec_refresh(&p.v, below(30)).refusal, 0);
        ask(&p);
    }
    IS(livevec_edits(&p.v).value, p.edits);
    IS(livevec_free(&p.v), 0);
}

/* A table of the vector's own. */
static void by_its_own_table(void)
{
    static const int64_t xs[] = {3, 0, 1};
    livevec_vector v = {0};
    livevec_table table;
    memset(&table, 5, sizeof table);
    IS(livevec_new_with_table(&v, 1, 100, &table), 0);
    IS(livevec_push_many(&v, xs, 3).refusal, 0);
    livevec_reduced told = livevec_value(&v, LIVEVEC_AUTOMATON, 1, 2);
    IS(told.values.automaton[0], 5);
    IS(told.values.any, true);
    IS(livevec_value(&v, LIVEVEC_AUTOMATON, 1, 1).values.automaton[3], 3);
    IS(livevec_value(&v, LIVEVEC_AUTOMATON, 1, 1).values.any, false);
    IS(livevec_free(&v), 0);
}

/* Each refusal of one question and of many; no answer is written then. */
static void questions_refused(void)
{
    static const int64_t xs[] = {3, 1, 2};
    livevec_range ranges[] = {{0, 3}, {1, 4}, {3, 2}};
    livevec_values answers[3];
    memset(answers, 9, sizeof answers);
    livevec_vector v = {0};
    IS(livevec_value(NULL, LIVEVEC_SUM, 0, 0).refusal, LIVEVEC_NULL);
    IS(livevec_value(&v, LIVEVEC_SUM, 0, 0).refusal, LIVEVEC_NO_HANDLE);
    IS(livevec_value(&v, 6, 0, 0).refusal, LIVEVEC_BAD_KIND);
    IS(livevec_value_many(&v, LIVEVEC_SUM, NULL, NULL, 0).refusal, LIVEVEC_NO_HANDLE);
    IS(livevec_new(&v, 1, 100), 0);
    IS(livevec_push_many(&v, xs, 3).refusal, 0);
    IS(livevec_value(&v, UINT32_MAX, 0, 3).refusal, LIVEVEC_BAD_KIND);
    IS(livevec_value(&v, LIVEVEC_LEAST, 2, 1).refusal, LIVEVEC_BAD_RANGE);
    livevec_reduced told = livevec_value(&v, LIVEVEC_LEAST, 2, 4);
    IS(told.refusal, LIVEVEC_OUT_OF_RANGE);
    IS(told.detail, 3);
    IS(told.edit, 0);
    livevec_many many = livevec_value_many(&v, LIVEVEC_LEAST, ranges, answers, 3);
    IS(many.refusal, LIVEVEC_OUT_OF_RANGE);
    IS(many.detail, 3);
    IS(many.place, 1);
    IS(many.done, 0);
    IS(many.edit, 0);
    ranges[1].hi = 3;
    many = livevec_value_many(&v, LIVEVEC_LEAST, ranges, answers, 3);
    IS(many.refusal, LIVEVEC_BAD_RANGE);
    IS(many.place, 2);
    IS(livevec_value_many(&v, 6, ranges, answers, 2).refusal, LIVEVEC_BAD_KIND);
    IS(livevec_value_many(&v, LIVEVEC_SUM, NULL, answers, 1).refusal, LIVEVEC_NULL);
    IS(livevec_value_many(&v, LIVEVEC_SUM, ranges, NULL, 1).refusal, LIVEVEC_NULL);
    IS(livevec_value_many(NULL, LIVEVEC_SUM, NULL, NULL, 0).refusal, LIVEVEC_NULL);
    for (size_t i = 0; i < sizeof answers; i++)
        if (((unsigned char *)answers)[i] != 9)
            IS(i, -1);
    many = livevec_value_many(&v, LIVEVEC_SUM, NULL, NULL, 0);
    IS(many.refusal, 0);
    IS(many.edit, 3);
    IS(livevec_edits(&v).value, 3);
    IS(livevec_free(&v), 0);
}

/* A job's slot is no vector's. */
static void other_things(void)
{
    livevec_vector v = {0};
    livevec_job job = {0};
    IS(livevec_new(&v, 1, 100), 0);
    for (int i = 0; i < 8; i++)
        IS(livevec_push(&v, i).refusal, 0);
    IS(livevec_claim(&v, &job).found, true);
    IS(livevec_value((livevec_vector *)&job, LIVEVEC_SUM, 0, 0).refusal, LIVEVEC_NO_HANDLE);
    IS(livevec_write_many((livevec_vector *)&job, NULL, NULL, 0).refusal, LIVEVEC_NO_HANDLE);
    IS(livevec_free_job(&job), 0);
    IS(livevec_free(&v), 0);
}

void kinds(void)
{
    beside_plain_loops();
    by_its_own_table();
    questions_refused();
    many_writes();
    other_things();
}
