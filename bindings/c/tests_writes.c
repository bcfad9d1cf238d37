/* Many writes and many pushes at once: what is refused, and want of memory. */
#include "tests.h"

#include <stdlib.h>

/* Many writes are all made, or none. */
static void writes_refused(void)
{
    static const int64_t xs[] = {3, 1, 2}, values[] = {7, 8, 9};
    uint32_t indices[] = {2, 0, 3};
    livevec_vector v = {0};
    IS(livevec_write_many(NULL, NULL, NULL, 0).refusal, LIVEVEC_NULL);
    IS(livevec_write_many(&v, indices, values, 3).refusal, LIVEVEC_NO_HANDLE);
    IS(livevec_new(&v, 1, 6), 0);
    IS(livevec_push_many(&v, xs, 3).refusal, 0);
    IS(livevec_write_many(&v, NULL, values, 1).refusal, LIVEVEC_NULL);
    IS(livevec_write_many(&v, indices, NULL, 1).refusal, LIVEVEC_NULL);
    livevec_many many = livevec_write_many(&v, indices, values, 3);
    IS(many.refusal, LIVEVEC_OUT_OF_RANGE);
    IS(many.detail, 3);
    IS(many.place, 2);
    IS(many.done, 0);
    IS(livevec_edits(&v).value, 3);
    many = livevec_write_many(&v, indices, values, 2);
    IS(many.refusal, 0);
    IS(many.edit, 5);
    IS(many.done, 2);
    IS(livevec_value(&v, LIVEVEC_SUM, 0, 3).values.sum, 16);
    /* one in the middle is refused: none is made */
    indices[1] = 9, indices[2] = 1;
    many = livevec_write_many(&v, indices, values, 3);
    IS(many.refusal, LIVEVEC_WORN);
    IS(many.place, 1);
    indices[1] = 0;
    many = livevec_write_many(&v, indices, values, 3);
    IS(many.refusal, LIVEVEC_WORN);
    IS(many.place, 1);
    IS(many.done, 0);
    IS(livevec_edits(&v).value, 5);
    IS(livevec_get(&v, 2).value, 7);
    IS(livevec_push_many(&v, values, 2).refusal, LIVEVEC_WORN);
    IS(livevec_push_many(&v, values, 2).pushed, 0);
    IS(livevec_size(&v).value, 3);
    IS(livevec_edits(&v).value, 5);
    IS(livevec_write_many(&v, NULL, NULL, 0).edit, 5);
    /* a slot that is entered */
    v.busy_ = 1;
    IS(livevec_value(&v, LIVEVEC_SUM, 0, 0).refusal, LIVEVEC_BUSY);
    IS(livevec_value_many(&v, LIVEVEC_SUM, NULL, NULL, 0).refusal, LIVEVEC_BUSY);
    IS(livevec_write_many(&v, NULL, NULL, 0).refusal, LIVEVEC_BUSY);
    v.busy_ = 0;
    IS(livevec_free(&v), 0);
    IS(livevec_value(&v, LIVEVEC_SUM, 0, 0).refusal, LIVEVEC_NO_HANDLE);
    IS(livevec_write_many(&v, indices, values, 1).refusal, LIVEVEC_NO_HANDLE);
}

/* Pushes of many at once, each request for memory of which fails in turn: all are made or none. Tells how many requests were refused. */
static uint32_t push_starved(livevec_vector *v, const int64_t *values, uint32_t length)
{
    uint32_t size = livevec_size(v).value, edits = livevec_edits(v).value;
    int64_t before = (int64_t)livevec_value(v, LIVEVEC_SUM, 0, size).values.sum;
    for (uint32_t refused = 0;; refused++) {
        until_failure = (int)refused + 1;
        livevec_pushed did = livevec_push_many(v, values, length);
        until_failure = 0;
        if (!did.refusal) {
            IS(did.pushed, length);
            IS(did.edit, edits + length);
            return refused;
        }
        IS(did.refusal, LIVEVEC_NO_MEMORY);
        IS(did.pushed == 0 && did.edit == 0, true);
        IS(livevec_size(v).value, size);
        IS(livevec_edits(v).value, edits);
        IS((int64_t)livevec_value(v, LIVEVEC_SUM, 0, size).values.sum, before);
    }
}

/* Where many writes, or many pushes, find no memory none is made; a push that finds none changes nothing; a question wants none. */
static void without_memory(void)
{
    enum { WRITES = 500, PUSHES = 3000 };
    static const int64_t more[PUSHES];
    static uint32_t indices[WRITES];
    static int64_t values[WRITES];
    livevec_vector v = {0};
    IS(livevec_new(&v, 17, 1000000), 0);
    uint32_t size = 0, refused = 0;
    while (size < 1200) {
        until_failure = refused + 1;
        livevec_edited did = livevec_push(&v, size);
        until_failure = 0;
        refused = did.refusal ? refused + 1 : 0;
        IS(did.refusal == 0 || did.refusal == LIVEVEC_NO_MEMORY, true);
        size += !did.refusal;
        IS(livevec_edits(&v).value, size);
    }
    uint32_t edits = size;
    for (int i = 0; i < WRITES; i++)
        indices[i] = (uint32_t)i, values[i] = 1;
    IS(push_starved(&v, more, PUSHES) > 0, true);
    size += PUSHES;
    edits += PUSHES;
    bool stopped = false;
    for (int round = 0; round < 4 || !stopped; round++) {
        until_failure = 1;
        livevec_many did = livevec_write_many(&v, indices, values, WRITES);
        until_failure = 0;
        edits += (uint32_t)did.done;
        stopped = stopped || did.refusal;
        IS(did.refusal == 0 ? did.done == WRITES : did.refusal == LIVEVEC_NO_MEMORY && did.done == 0, true);
        IS(did.place, 0);
        IS(did.edit, did.done ? edits : 0);
        IS(livevec_edits(&v).value, edits);
        IS(livevec_get(&v, WRITES).value, WRITES);
        IS(livevec_value(&v, LIVEVEC_SUM, 0, WRITES).values.sum, did.done ? WRITES : WRITES * (WRITES - 1) / 2);
        for (uint32_t i = 0; i < did.done; i++)
            IS(livevec_write(&v, i, i).edit, ++edits);
        if (round > 60)
            break;
    }
    IS(stopped, true);
    until_failure = 1;
    for (uint32_t kind = LIVEVEC_SUM; kind <= LIVEVEC_AUTOMATON; kind++)
        IS(livevec_value(&v, kind, 1, size).refusal, 0);
    IS(until_failure, 1);
    until_failure = 0;
    IS(livevec_free(&v), 0);
}

void many_writes(void)
{
    writes_refused();
    without_memory();
}
