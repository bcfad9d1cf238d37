/* Threads that share a vector and a series: who pushes, who listens, and workers. Expected values are worked out by hand. */
#define _POSIX_C_SOURCE 200809L /* of nanosleep */
#include "tests_shared.h"

#include <pthread.h>
#include <time.h>

enum { THREADS = 4, ROUNDS = 2000, MANY = 20000 };
static const uint64_t for_ever = UINT64_MAX;

/* What threads share. */
static livevec_vector vector;
static livevec_series series_of_all;
static livevec_shared shared_vector, shared_series;

/* One that pushes, and one that listens. */
struct feeder {
    pthread_t thread;
    uint64_t last;
    uint32_t wrong;
};
struct listener {
    pthread_t thread;
    livevec_subscriber told_by;
    uint64_t last, sum;
    uint32_t lists, wrong;
};

/* Twos, so that the sum tells how many there are; the numbers that a thread is told rise. */
static void *feed(void *given)
{
    struct feeder *me = given;
    for (int i = 0; i < ROUNDS; i++) {
        me->wrong += livevec_shared_enter(&shared_series) || livevec_series_push(&series_of_all, 2).refusal;
        me->wrong += !livevec_shared_leave(&shared_series).is_edited;
        uint64_t edit = push(&shared_vector, &vector, 2);
        me->wrong += edit <= me->last;
        me->last = edit;
    }
    return NULL;
}

/* Of a vector and a series that are only pushed to, the sum is twice the number of the edit. */
static void *listen(void *given)
{
    struct listener *me = given;
    livevec_note note;
    for (;;) {
        livevec_told told = livevec_subscriber_next(&me->told_by, &note, 1, for_ever);
        if (told.is_over)
            return NULL;
        me->wrong += told.refusal || told.count != 1 || told.edit <= me->last || note.values.sum != 2 * told.edit || note.edit != told.edit;
        me->last = told.edit;
        me->sum = note.values.sum;
        me->lists++;
    }
}

static void *work(void *worker)
{
    livevec_worker_work(worker);
    return NULL;
}

static void threads_feed_and_listen(void)
{
    static struct feeder feeders[THREADS];
    static struct listener listeners[2];
    livevec_queries sum = {0}, of_series = {0};
    livevec_worker worker = {0};
    pthread_t works;
    begin(&shared_vector, &vector, 16777215);
    IS(livevec_series_new(&series_of_all), 0);
    IS(livevec_shared_new_series(&shared_series, &series_of_all), 0);
    watch(&sum, "sum", LIVEVEC_SUM);
    IS(livevec_shared_subscribe(&shared_vector, &listeners[0].told_by, &sum), 0);
    watch(&of_series, "sum", LIVEVEC_SUM);
    IS(livevec_shared_subscribe(&shared_series, &listeners[1].told_by, &of_series), 0);
    IS(livevec_subscriber_set_pause(&listeners[1].told_by, 0), 0);
    IS(livevec_shared_hire(&shared_vector, &worker), 0);
    IS(pthread_create(&works, NULL, work, &worker), 0);
    for (int i = 0; i < 2; i++)
        IS(pthread_create(&listeners[i].thread, NULL, listen, &listeners[i]), 0);
    for (int i = 0; i < THREADS; i++)
        IS(pthread_create(&feeders[i].thread, NULL, feed, &feeders[i]), 0);
    uint64_t last = 0;
    for (int i = 0; i < THREADS; i++) {
        IS(pthread_join(feeders[i].thread, NULL), 0);
        IS(feeders[i].wrong, 0);
        last = feeders[i].last > last ? feeders[i].last : last;
    }
    IS(last, THREADS * ROUNDS);
    IS(livevec_shared_close(&shared_vector), 0);
    IS(livevec_free_shared(&shared_series), 0);
    IS(pthread_join(works, NULL), 0);
    for (int i = 0; i < 2; i++) {
        IS(pthread_join(listeners[i].thread, NULL), 0);
        IS(listeners[i].wrong, 0);
        IS(listeners[i].lists > 0, true);
        IS(listeners[i].last, THREADS * ROUNDS);
        IS(listeners[i].sum, 2 * THREADS * ROUNDS);
        IS(livevec_free_subscriber(&listeners[i].told_by), 0);
    }
    IS(livevec_free_worker(&worker), 0);
    IS(livevec_free_shared(&shared_vector), 0);
    IS(livevec_free_queries(&sum) + livevec_free_queries(&of_series), 0);
    IS(livevec_value(&vector, LIVEVEC_SUM, 0, THREADS * ROUNDS).values.sum, 2 * THREADS * ROUNDS);
    IS(livevec_free(&vector), 0);
    IS(livevec_free_series(&series_of_all), 0);
}

/* How many cells a reduction of all elements reads, beside the workers. */
static uint32_t cells(uint32_t elements)
{
    IS(livevec_shared_enter(&shared_vector), 0);
    uint32_t read = livevec_reduce(&vector, 0, elements).cells;
    IS(livevec_shared_leave(&shared_vector).refusal, 0);
    return read;
}

/* Nothing keeps summaries here but the workers: those of what is pushed, also of one that goes on as its copy. 20,000 elements are 2,500 blocks. */
static void workers_compute(void)
{
    static int64_t elements[MANY];
    livevec_vector fresh = {0};
    livevec_worker workers[THREADS] = {{0}};
    pthread_t threads[THREADS];
    begin(&shared_vector, &vector, 16777215);
    for (int i = 0; i < THREADS; i++) {
        IS(livevec_shared_hire(&shared_vector, &workers[i]), 0);
        IS(pthread_create(&threads[i], NULL, work, &workers[i]), 0);
    }
    for (int i = 0; i < MANY; i++)
        elements[i] = i;
    for (int round = 0; round < 2; round++) {
        IS(livevec_shared_enter(&shared_vector), 0);
        IS(livevec_push_many(&vector, elements, MANY).pushed, MANY);
        IS(livevec_shared_leave(&shared_vector).is_edited, true);
        for (int tries = 0; tries < 20000 && cells((uint32_t)(round + 1) * MANY); tries++)
            nanosleep(&(struct timespec){.tv_nsec = 1000000}, NULL);
        IS(cells((uint32_t)(round + 1) * MANY), 0);
    }
    IS(livevec_worker_dismiss(&workers[0]), 0);
    IS(pthread_join(threads[0], NULL), 0);
    IS(livevec_new(&fresh, 17, 16777215), 0);
    IS(livevec_shared_enter(&shared_vector), 0);
    IS(livevec_shared_renew(&shared_vector, &fresh), 0);
    IS(livevec_shared_leave(&shared_vector).edit, 2 * MANY);
    IS(livevec_free(&vector), 0);
    for (uint32_t read = 1, tries = 0; tries < 20000 && read; tries++) {
        IS(livevec_shared_enter(&shared_vector), 0);
        read = livevec_reduce(&fresh, 0, 2 * MANY).cells;
        IS(livevec_shared_leave(&shared_vector).edit, 2 * MANY);
        nanosleep(&(struct timespec){.tv_nsec = 1000000}, NULL);
    }
    IS(livevec_free_shared(&shared_vector), 0);
    for (int i = 1; i < THREADS; i++)
        IS(pthread_join(threads[i], NULL), 0);
    for (int i = 0; i < THREADS; i++)
        IS(livevec_free_worker(&workers[i]), 0);
    livevec_reduced all = livevec_reduce(&fresh, 0, 2 * MANY);
    IS(all.cells, 0);
    IS(all.values.sum, 399980000);
    IS(livevec_free(&fresh), 0);
}

void shared_by_threads(void)
{
    threads_feed_and_listen();
    workers_compute();
}
