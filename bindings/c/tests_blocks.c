/* Jobs of many blocks at once: who refuses what, late batches, want of memory, and four threads that share the work. */
#include "tests.h"

#include <pthread.h>
#include <stdlib.h>

enum { SIZE = 100004, BLOCKS = SIZE / 8, AT_ONCE = 256, THREADS = 4, ROUNDS = 5 };

/* A vector of the elements 0, 1 and so on, so many. */
static void filled(livevec_vector *v, uint32_t size)
{
    int64_t *elements = malloc(SIZE * sizeof *elements);
    for (uint32_t i = 0; i < size; i++)
        elements[i] = i;
    IS(livevec_new(v, 17, 16777215), LIVEVEC_OK);
    IS(livevec_push_many(v, elements, size).refusal, LIVEVEC_OK);
    free(elements);
}

/* Takes a batch in that was run, and sees what became of it. */
static void takes(livevec_vector *v, livevec_batch *batch, uint64_t installed, uint64_t held, uint64_t stale, uint64_t strangers)
{
    livevec_taken taken = livevec_accept_blocks(v, batch);
    IS(taken.refusal, LIVEVEC_OK);
    IS(taken.installed, installed);
    IS(taken.held, held);
    IS(taken.stale, stale);
    IS(taken.strangers, strangers);
    IS(livevec_free_batch(batch), LIVEVEC_NO_HANDLE);
}

static void refusals(void)
{
    livevec_vector v = {0}, none = {0};
    livevec_batch batch = {0}, empty = {0};
    IS(livevec_blocks(NULL, &batch, 0, 1).refusal, LIVEVEC_NULL);
    IS(livevec_blocks(&v, NULL, 0, 1).refusal, LIVEVEC_NULL);
    IS(livevec_run_blocks(NULL), LIVEVEC_NULL);
    IS(livevec_accept_blocks(NULL, &batch).refusal, LIVEVEC_NULL);
    IS(livevec_accept_blocks(&v, NULL).refusal, LIVEVEC_NULL);
    IS(livevec_free_batch(NULL), LIVEVEC_NULL);
    IS(livevec_blocks(&none, &batch, 0, 1).refusal, LIVEVEC_NO_HANDLE);
    filled(&v, 100);
    IS(livevec_run_blocks(&batch), LIVEVEC_NO_HANDLE);
    IS(livevec_accept_blocks(&v, &batch).refusal, LIVEVEC_NO_HANDLE);
    IS(livevec_blocks(&v, &batch, 0, 100).value, 12);
    IS(livevec_blocks(&v, &batch, 0, 100).refusal, LIVEVEC_IN_USE);
    /* jobs that are not run are not taken in */
    IS(livevec_accept_blocks(&v, &batch).refusal, LIVEVEC_NO_HANDLE);
    IS(livevec_run_blocks(&batch), LIVEVEC_OK);
    IS(livevec_run_blocks(&batch), LIVEVEC_NO_HANDLE);
    IS(livevec_accept_blocks(&none, &batch).refusal, LIVEVEC_NO_HANDLE);
    IS(livevec_free_job((livevec_job *)&batch), LIVEVEC_NO_HANDLE);
    IS(livevec_free_batch((livevec_batch *)&v), LIVEVEC_NO_HANDLE);
    takes(&v, &batch, 12, 0, 0, 0);
    IS(livevec_accept_blocks(&v, &empty).refusal, LIVEVEC_NO_HANDLE);
    IS(livevec_free(&v), LIVEVEC_OK);
}

/* Which blocks are handed out: those that are whole and not fresh, and no more than were asked for. */
static void ranges(void)
{
    livevec_vector v = {0};
    livevec_batch batch = {0};
    filled(&v, 100);
    IS(livevec_blocks(&v, &batch, 12, 100).value, 0);
    IS(livevec_blocks(&v, &batch, UINT32_MAX, UINT32_MAX).value, 0);
    IS(livevec_blocks(&v, &batch, 3, 0).value, 0);
    IS(livevec_free_batch(&batch), LIVEVEC_NO_HANDLE);
    IS(livevec_blocks(&v, &batch, 3, 4).value, 4);
    IS(livevec_run_blocks(&batch), LIVEVEC_OK);
    takes(&v, &batch, 4, 0, 0, 0);
    IS(livevec_blocks(&v, &batch, 3, 4).value, 0);
    IS(livevec_blocks(&v, &batch, 0, UINT32_MAX).value, 8);
    IS(livevec_free_batch(&batch), LIVEVEC_OK);
    /* the blocks that are fresh are read by their summaries */
    livevec_reduced all = livevec_reduce(&v, 24, 56);
    IS(all.values.sum, (24 + 55) * 16);
    IS(all.cells, 0);
    IS(all.summaries, 4);
    IS(livevec_refresh(&v, 100).value, 9);
    IS(livevec_free(&v), LIVEVEC_OK);
}

/* Batches that come late: of blocks that were written to, that are whole no longer, that were handed in before, and of another vector. */
static void late(void)
{
    livevec_vector v = {0}, other = {0};
    livevec_batch batch = {0}, twice = {0}, before = {0};
    filled(&v, 100);
    filled(&other, 100);
    IS(livevec_blocks(&v, &batch, 0, 12).value, 12);
    IS(livevec_blocks(&v, &twice, 0, 12).value, 12);
    IS(livevec_blocks(&v, &before, 0, 12).value, 12);
    IS(livevec_write(&v, 17, 1000).refusal, LIVEVEC_OK);
    IS(livevec_truncate(&v, 90).refusal, LIVEVEC_OK);
    IS(livevec_run_blocks(&batch), LIVEVEC_OK);
    takes(&v, &batch, 10, 0, 2, 0);
    IS(livevec_run_blocks(&twice), LIVEVEC_OK);
    takes(&v, &twice, 0, 10, 2, 0);
    IS(livevec_reduce(&v, 0, 90).values.sum, 89 * 45 - 17 + 1000);
    IS(livevec_refresh(&v, 100).value, 2);
    IS(livevec_reduce(&v, 0, 90).values.sum, 89 * 45 - 17 + 1000);
    /* the same elements by the same edits are no strangers; others are */
    IS(livevec_run_blocks(&before), LIVEVEC_OK);
    takes(&other, &before, 12, 0, 0, 0);
    livevec_vector third = {0};
    IS(livevec_new(&third, 17, 1000), LIVEVEC_OK);
    for (int i = 0; i < 100; i++)
        IS(livevec_push(&third, -i).refusal, LIVEVEC_OK);
    livevec_batch strange = {0};
    IS(livevec_blocks(&third, &strange, 0, 12).value, 12);
    IS(livevec_run_blocks(&strange), LIVEVEC_OK);
    livevec_vector fourth = {0};
    filled(&fourth, 100);
    takes(&fourth, &strange, 0, 0, 0, 12);
    IS(livevec_reduce(&fourth, 0, 100).values.sum, 4950);
    IS(livevec_free(&v) + livevec_free(&other) + livevec_free(&third) + livevec_free(&fourth), LIVEVEC_OK);
}

/* Each request for memory fails in turn: nothing has changed then. */
static void wanting(void)
{
    livevec_vector v = {0};
    livevec_batch batch = {0};
    filled(&v, 100);
    int refused = 0;
    for (until_failure = 1; livevec_blocks(&v, &batch, 0, 100).refusal == LIVEVEC_NO_MEMORY; until_failure = ++refused + 1)
        IS(livevec_free_batch(&batch), LIVEVEC_NO_HANDLE);
    until_failure = 0;
    IS(refused, 2);
    for (until_failure = 1, refused = 0; livevec_run_blocks(&batch) == LIVEVEC_NO_MEMORY; until_failure = ++refused + 1)
        IS(livevec_accept_blocks(&v, &batch).refusal, LIVEVEC_NO_HANDLE);
    IS(refused, 1);
    until_failure = 1;
    takes(&v, &batch, 12, 0, 0, 0);
    until_failure = 0;
    IS(livevec_free(&v), LIVEVEC_OK);
}

/* What threads share: a vector under a lock, from which block on nobody has any yet, and what became of all. */
static struct {
    pthread_mutex_t lock;
    livevec_vector vector;
    uint32_t next;
    livevec_taken told;
} work = {.lock = PTHREAD_MUTEX_INITIALIZER};

static void *worker(void *at)
{
    livevec_batch batch = {0};
    uint32_t wrong = 0;
    while (true) {
        pthread_mutex_lock(&work.lock);
        livevec_taken taken = livevec_accept_blocks(&work.vector, &batch);
        work.told.installed += taken.installed;
        work.told.held += taken.held;
        work.told.stale += taken.stale;
        work.told.strangers += taken.strangers;
        uint32_t first = work.next;
        work.next += AT_ONCE;
        livevec_count copied = livevec_blocks(&work.vector, &batch, first, AT_ONCE);
        /* a write that comes between: its block's outcome is stale, and asked for again by nobody */
        if (copied.value)
            wrong += livevec_write(&work.vector, first * 8, -1).refusal;
        pthread_mutex_unlock(&work.lock);
        wrong += copied.refusal;
        if (!copied.value)
            break;
        wrong += livevec_run_blocks(&batch);
    }
    *(uint32_t *)at = wrong;
    return NULL;
}

/* Threads go over all blocks again and again, while each batch has one block that was written to meanwhile. */
static void by_threads(void)
{
    filled(&work.vector, SIZE);
    uint32_t batches = (BLOCKS + AT_ONCE - 1) / AT_ONCE;
    for (int round = 0; round < ROUNDS; round++) {
        pthread_t threads[THREADS];
        uint32_t wrong[THREADS];
        work.next = 0;
        work.told = (livevec_taken){0};
        for (int i = 0; i < THREADS; i++)
            IS(pthread_create(&threads[i], NULL, worker, &wrong[i]), 0);
        for (int i = 0; i < THREADS; i++) {
            IS(pthread_join(threads[i], NULL), 0);
            IS(wrong[i], 0);
        }
        /* by the second round nothing but what was written to is wanted, and is written to again */
        IS(work.told.installed, round ? 0 : BLOCKS - batches);
        IS(work.told.stale, batches);
        IS(work.told.held + work.told.strangers, 0);
        int64_t lost = 0;
        for (uint32_t i = 0; i < batches; i++)
            lost += (int64_t)i * AT_ONCE * 8 + 1;
        IS(livevec_reduce(&work.vector, 0, SIZE).values.sum, (int64_t)SIZE * (SIZE - 1) / 2 - lost);
    }
    livevec_reduced before = livevec_reduce(&work.vector, 0, SIZE);
    livevec_refresh(&work.vector, SIZE);
    livevec_reduced after = livevec_reduce(&work.vector, 0, SIZE);
    IS(after.values.sum, before.values.sum);
    IS(after.values.best_low, before.values.best_low);
    IS(after.summaries < 84 && after.cells < 14, true);
    IS(livevec_free(&work.vector), LIVEVEC_OK);
}

void blocks(void)
{
    refusals();
    ranges();
    late();
    wanting();
    by_threads();
}
