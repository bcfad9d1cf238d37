/* Jobs of whole subtrees: who refuses what, what is kept of one, late ones, want of memory, and four threads that share the work. */
#include "tests.h"
#include "tests_plain.h"

#include <pthread.h>
#include <stdlib.h>

enum { ONE = 4096, SUMMARIES = 585, TWO = 2 * ONE + 12, SUBTREES = 20, THREADS = 4 };

/* Elements of many sizes, from a state on, pushed at a new vector. */
static void filled(livevec_vector *v, uint32_t size, uint64_t state)
{
    int64_t *elements = malloc(size * sizeof *elements);
    for (uint32_t i = 0; i < size; i++)
        elements[i] = draw_element(&state);
    IS(livevec_new(v, 17, 1000000), LIVEVEC_OK);
    IS(livevec_push_many(v, elements, size).refusal, LIVEVEC_OK);
    free(elements);
}

/* What plain loops make of a range. */
static livevec_values looped(livevec_vector *v, uint32_t lo, uint32_t hi)
{
    livevec_table table = usual_table();
    running so_far = of_none();
    for (uint32_t i = lo; i < hi; i++)
        so_far = with(so_far, livevec_get(v, i).value, &table);
    return so_far.values;
}

/* A range reads so many elements and so many summaries, and its values are those of plain loops. */
static void reads(livevec_vector *v, uint32_t lo, uint32_t hi, uint32_t cells, uint32_t summaries)
{
    livevec_reduced told = livevec_reduce(v, lo, hi);
    IS(told.cells, cells);
    IS(told.summaries, summaries);
    alike(told.values, looped(v, lo, hi));
}

/* A subtree, copied and run. */
static void ran(livevec_vector *v, livevec_batch *batch, uint32_t number)
{
    IS(livevec_subtree(v, batch, number).value, SUMMARIES);
    IS(livevec_run_blocks(batch), LIVEVEC_OK);
}

/* Takes one in, sees how many summaries are kept, and frees it. */
static void takes(livevec_vector *v, livevec_batch *batch, uint32_t value)
{
    livevec_count taken = livevec_accept_subtree(v, batch);
    IS(taken.refusal, LIVEVEC_OK);
    IS(taken.value, value);
    IS(livevec_free_batch(batch), LIVEVEC_OK);
}

static void refusals(void)
{
    livevec_vector v = {0}, none = {0};
    livevec_batch batch = {0}, blocks = {0};
    livevec_job job = {0};
    IS(livevec_subtree(NULL, &batch, 0).refusal, LIVEVEC_NULL);
    IS(livevec_subtree(&v, NULL, 0).refusal, LIVEVEC_NULL);
    IS(livevec_accept_subtree(NULL, &batch).refusal, LIVEVEC_NULL);
    IS(livevec_accept_subtree(&v, NULL).refusal, LIVEVEC_NULL);
    IS(livevec_subtree(&none, &batch, 0).refusal, LIVEVEC_NO_HANDLE);
    filled(&v, ONE, 1);
    IS(livevec_accept_subtree(&v, &batch).refusal, LIVEVEC_NO_HANDLE);
    IS(livevec_subtree(&v, &batch, 0).value, SUMMARIES);
    IS(livevec_subtree(&v, &batch, 0).refusal, LIVEVEC_IN_USE);
    /* a full slot of the batch is told first */
    IS(livevec_subtree(&none, &batch, 0).refusal, LIVEVEC_IN_USE);
    IS(livevec_subtree((livevec_vector *)&batch, &blocks, 0).refusal, LIVEVEC_NO_HANDLE);
    /* one that is not run is not taken in, nor is one that was, by the call of many blocks */
    IS(livevec_accept_subtree(&v, &batch).refusal, LIVEVEC_NO_HANDLE);
    IS(livevec_run_blocks(&batch), LIVEVEC_OK);
    IS(livevec_run_blocks(&batch), LIVEVEC_NO_HANDLE);
    IS(livevec_accept_blocks(&v, &batch).refusal, LIVEVEC_NO_HANDLE);
    IS(livevec_accept_subtree(&none, &batch).refusal, LIVEVEC_NO_HANDLE);
    IS(livevec_accept_subtree((livevec_vector *)&batch, (livevec_batch *)&v).refusal, LIVEVEC_NO_HANDLE);
    IS(livevec_free_job((livevec_job *)&batch), LIVEVEC_NO_HANDLE);
    IS(livevec_blocks(&v, &blocks, 0, 1).value, 1);
    IS(livevec_run_blocks(&blocks), LIVEVEC_OK);
    IS(livevec_accept_subtree(&v, &blocks).refusal, LIVEVEC_NO_HANDLE);
    IS(livevec_claim(&v, &job).refusal, LIVEVEC_OK);
    IS(livevec_free_batch((livevec_batch *)&job), LIVEVEC_NO_HANDLE);
    reads(&v, 0, ONE, ONE, 0);
    takes(&v, &batch, SUMMARIES);
    reads(&v, 0, ONE, 0, 1);
    IS(livevec_free_batch(&batch), LIVEVEC_NO_HANDLE);
    IS(livevec_free_batch(&blocks) + livevec_free_job(&job) + livevec_free(&v), LIVEVEC_OK);
}

/* What is kept of one: each of its levels, and nothing beside it. What it was worth is told no more, and what is left is refreshed. */
static void kept(void)
{
    livevec_vector v = {0};
    livevec_batch batch = {0};
    livevec_job job = {0};
    livevec_outcome outcome = {0};
    filled(&v, TWO, 2);
    /* a job that was claimed before comes to what is kept already */
    IS(livevec_claim(&v, &job).refusal, LIVEVEC_OK);
    IS(livevec_subtree(&v, &batch, 2).value, 0);
    IS(livevec_subtree(&v, &batch, UINT32_MAX).value, 0);
    IS(livevec_free_batch(&batch), LIVEVEC_NO_HANDLE);
    ran(&v, &batch, 0);
    takes(&v, &batch, SUMMARIES);
    IS(livevec_subtree(&v, &batch, 0).value, 0);
    IS(livevec_blocks(&v, &batch, 0, ONE / 8).value, 0);
    reads(&v, 0, ONE, 0, 1);
    reads(&v, 0, 8, 0, 1);
    reads(&v, 8, ONE, 0, 21);
    reads(&v, 1, ONE - 1, 14, 34);
    reads(&v, ONE, 2 * ONE, ONE, 0);
    reads(&v, 0, TWO, ONE + 12, 1);
    IS(livevec_run(&job, &outcome), LIVEVEC_OK);
    IS(livevec_accept(&v, &outcome).became, LIVEVEC_HELD);
    IS(livevec_free_outcome(&outcome), LIVEVEC_OK);
    /* freed before it was run */
    IS(livevec_subtree(&v, &batch, 1).value, SUMMARIES);
    IS(livevec_free_batch(&batch), LIVEVEC_OK);
    IS(livevec_refresh(&v, UINT32_MAX).value, SUMMARIES + 1);
    IS(livevec_subtree(&v, &batch, 1).value, 0);
    reads(&v, 0, TWO, 4, 3);
    /* it is worth a job only where its first block and its last want one */
    IS(livevec_write(&v, 800, 7).refusal, LIVEVEC_OK);
    IS(livevec_subtree(&v, &batch, 0).value, 0);
    IS(livevec_write(&v, 0, 7).refusal, LIVEVEC_OK);
    IS(livevec_subtree(&v, &batch, 0).value, 0);
    IS(livevec_write(&v, ONE - 1, 7).refusal, LIVEVEC_OK);
    ran(&v, &batch, 0);
    takes(&v, &batch, SUMMARIES);
    reads(&v, 0, TWO, 4, 3);
    IS(livevec_free(&v), LIVEVEC_OK);
}

/* Late ones: the elements are compared, and nothing else counts. */
static void late(void)
{
    livevec_vector v = {0};
    livevec_batch batch = {0}, twice = {0};
    filled(&v, ONE + 5, 3);
    ran(&v, &batch, 0);
    ran(&v, &twice, 0);
    livevec_edited edited = livevec_write(&v, 2049, 12345678);
    IS(edited.refusal, LIVEVEC_OK);
    IS(livevec_accept_subtree(&v, &batch).value, 0);
    reads(&v, 0, ONE, ONE, 0);
    IS(livevec_truncate(&v, ONE - 1).refusal, LIVEVEC_OK);
    IS(livevec_accept_subtree(&v, &batch).value, 0);
    reads(&v, 0, ONE - 1, ONE - 1, 0);
    IS(livevec_free_batch(&batch), LIVEVEC_OK);
    int64_t last = 11;
    IS(livevec_push(&v, last).refusal, LIVEVEC_OK);
    ran(&v, &batch, 0);
    IS(livevec_write(&v, 2049, edited.value).refusal, LIVEVEC_OK);
    IS(livevec_accept_subtree(&v, &batch).value, 0);
    IS(livevec_accept_subtree(&v, &twice).value, 0);
    IS(livevec_write(&v, 2049, 12345678).refusal, LIVEVEC_OK);
    /* the same elements stand there again; what was taken in once is spent */
    IS(livevec_accept_subtree(&v, &batch).value, SUMMARIES);
    reads(&v, 0, ONE, 0, 1);
    IS(livevec_accept_subtree(&v, &batch).value, 0);
    IS(livevec_run_blocks(&batch), LIVEVEC_NO_HANDLE);
    IS(livevec_write(&v, 1, last).refusal, LIVEVEC_OK);
    reads(&v, 0, ONE, 8, 21);
    IS(livevec_free_batch(&batch) + livevec_free_batch(&twice) + livevec_free(&v), LIVEVEC_OK);
}

/* Those of another vector: one of the same elements and the same table is as good, and no other is. */
static void strangers(void)
{
    livevec_vector v = {0}, same = {0}, longer = {0}, other = {0}, by_table = {0}, shorter = {0};
    livevec_batch batch = {0};
    livevec_table table = {{{1}}};
    filled(&v, ONE, 4);
    filled(&same, ONE, 4);
    filled(&longer, 2 * ONE, 4);
    filled(&other, ONE, 5);
    filled(&shorter, ONE - 1, 4);
    IS(livevec_new_with_table(&by_table, 17, ONE, &table), LIVEVEC_OK);
    for (uint32_t i = 0; i < ONE; i++)
        IS(livevec_push(&by_table, livevec_get(&v, i).value).refusal, LIVEVEC_OK);
    ran(&v, &batch, 0);
    IS(livevec_accept_subtree(&other, &batch).value, 0);
    IS(livevec_accept_subtree(&by_table, &batch).value, 0);
    IS(livevec_accept_subtree(&shorter, &batch).value, 0);
    reads(&other, 0, ONE, ONE, 0);
    IS(livevec_accept_subtree(&same, &batch).value, SUMMARIES);
    IS(livevec_accept_subtree(&v, &batch).value, 0);
    reads(&same, 0, ONE, 0, 1);
    reads(&v, 0, ONE, ONE, 0);
    IS(livevec_free_batch(&batch), LIVEVEC_OK);
    ran(&longer, &batch, 1);
    IS(livevec_accept_subtree(&v, &batch).value, 0);
    IS(livevec_free_batch(&batch), LIVEVEC_OK);
    ran(&longer, &batch, 0);
    takes(&v, &batch, SUMMARIES);
    reads(&v, 0, ONE, 0, 1);
    IS(livevec_free(&v) + livevec_free(&same) + livevec_free(&longer) + livevec_free(&other), LIVEVEC_OK);
    IS(livevec_free(&by_table) + livevec_free(&shorter), LIVEVEC_OK);
}

/* Each request for memory fails in turn: nothing has changed then. */
static void wanting(void)
{
    livevec_vector v = {0};
    livevec_batch batch = {0};
    filled(&v, ONE, 6);
    int refused = 0;
    for (until_failure = 1; livevec_subtree(&v, &batch, 0).refusal == LIVEVEC_NO_MEMORY; until_failure = ++refused + 1)
        IS(livevec_free_batch(&batch), LIVEVEC_NO_HANDLE);
    until_failure = 0;
    IS(refused, 2);
    for (until_failure = 1, refused = 0; livevec_run_blocks(&batch) == LIVEVEC_NO_MEMORY; until_failure = ++refused + 1)
        IS(livevec_accept_subtree(&v, &batch).refusal, LIVEVEC_NO_HANDLE);
    IS(refused, 4);
    until_failure = 1;
    takes(&v, &batch, SUMMARIES);
    IS(until_failure, 1);
    until_failure = 0;
    reads(&v, 0, ONE, 0, 1);
    IS(livevec_free(&v), LIVEVEC_OK);
}

/* What threads share: a vector under a lock, from which subtree on nobody has any yet, and how many were taken in. */
static struct {
    pthread_mutex_t lock;
    livevec_vector vector;
    uint32_t next, taken;
} work = {.lock = PTHREAD_MUTEX_INITIALIZER};

static void *worker(void *at)
{
    livevec_batch batch = {0}, spent = {0};
    uint32_t wrong = 0;
    while (true) {
        pthread_mutex_lock(&work.lock);
        work.taken += livevec_accept_subtree(&work.vector, &batch).value == SUMMARIES;
        spent = batch;
        batch = (livevec_batch){0};
        uint32_t number = work.next++;
        livevec_count copied = livevec_subtree(&work.vector, &batch, number);
        /* a write that comes between: of every fourth nothing is taken in */
        if (copied.value && number % 4 == 0)
            wrong += livevec_write(&work.vector, number * ONE + 77, -1).refusal;
        pthread_mutex_unlock(&work.lock);
        livevec_free_batch(&spent);
        wrong += copied.refusal;
        if (!copied.value)
            break;
        wrong += livevec_run_blocks(&batch);
    }
    *(uint32_t *)at = wrong;
    return NULL;
}

static void by_threads(void)
{
    pthread_t threads[THREADS];
    uint32_t wrong[THREADS];
    filled(&work.vector, SUBTREES * ONE, 7);
    for (int i = 0; i < THREADS; i++)
        IS(pthread_create(&threads[i], NULL, worker, &wrong[i]), 0);
    for (int i = 0; i < THREADS; i++) {
        IS(pthread_join(threads[i], NULL), 0);
        IS(wrong[i], 0);
    }
    IS(work.taken, SUBTREES - SUBTREES / 4);
    reads(&work.vector, 0, SUBTREES * ONE, SUBTREES / 4 * ONE, SUBTREES - SUBTREES / 4);
    IS(livevec_refresh(&work.vector, UINT32_MAX).value, SUBTREES / 4 * SUMMARIES + 2);
    reads(&work.vector, 0, SUBTREES * ONE, 0, 6);
    IS(livevec_free(&work.vector), LIVEVEC_OK);
}

void subtrees(void)
{
    refusals();
    kept();
    late();
    strangers();
    wanting();
    by_threads();
}
