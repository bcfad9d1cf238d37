/* Calls beside one another at one slot. A read beside reads is answered. Beside an edit each call is answered too, or is told LIVEVEC_BUSY with
 * nothing done. */
#define _XOPEN_SOURCE 700 /* of timers */
#include "tests.h"

#include <pthread.h>
#include <sched.h>
#include <signal.h>
#include <string.h>
#include <sys/time.h>
#include <time.h>

enum { THREADS = 4, READERS = 8, CALLS = 20000, READS = 3000, ELEMENTS = 1000, WRITES = 200000, PLACES = 8 };

static livevec_vector shared;
static livevec_samples shared_samples;

/* What one thread was answered. */
struct told {
    pthread_t thread;
    uint32_t accepted, busy, other;
};

/* Counts one answer: of a call that went through, of one that found the slot busy, or of any other. */
static void count(struct told *told, uint32_t refusal)
{
    if (refusal == LIVEVEC_OK)
        told->accepted++;
    else if (refusal == LIVEVEC_BUSY)
        told->busy++;
    else
        told->other++;
}

static void *push_ones(void *at)
{
    struct told *told = at;
    for (int i = 0; i < CALLS; i++)
        count(told, livevec_push(&shared, 1).refusal);
    return NULL;
}

/* Edits and reads in turn: each is made, or finds the slot busy. */
static void *push_and_read(void *at)
{
    struct told *told = at;
    for (int i = 0; i < CALLS; i++)
        count(told, i % 2 ? livevec_push(&shared, 1).refusal : livevec_value(&shared, LIVEVEC_SUM, 0, 1).refusal);
    return NULL;
}

/* Each read of a vector in turn; what it should be told is counted, all else is `other`. Elements are ones. */
static uint32_t read_nth(int i)
{
    static const livevec_range ranges[] = {{0, 9}, {3, 700}};
    livevec_values values[2] = {{.sum = 0}};
    int64_t elements[9];
    uint64_t sums[9];
    uint8_t bytes[88];
    livevec_reduced r = {.refusal = 0};
    switch (i % 10) {
    case 0: r = livevec_reduce(&shared, 1, ELEMENTS); return r.refusal ? r.refusal : r.values.sum != ELEMENTS - 1;
    case 1: r = livevec_ask(&shared, 0, 7); return r.refusal ? r.refusal : r.values.sum != 7;
    case 2: r = livevec_value(&shared, LIVEVEC_BEST, 5, 605); return r.refusal ? r.refusal : r.values.best_low != 600;
    case 3: {
        livevec_found found = livevec_where_reaches(&shared, 5, ELEMENTS, 100);
        return found.refusal ? found.refusal : found.hi != 105;
    }
    case 4: {
        livevec_many many = livevec_value_many(&shared, LIVEVEC_SUM, ranges, values, 2);
        return many.refusal ? many.refusal : values[1].sum != 697;
    }
    case 5: {
        livevec_scanned read = livevec_read(&shared, 2, 11, elements, 9);
        return read.refusal ? read.refusal : elements[8] != 1;
    }
    case 6: {
        livevec_scanned scan = livevec_scan_inclusive_sum(&shared, 2, 11, sums, 9);
        return scan.refusal ? scan.refusal : sums[8] != 9;
    }
    case 7: {
        livevec_summed sum = livevec_exact_sum(&shared, 3, 700);
        return sum.refusal ? sum.refusal : sum.sum.low != 697 || sum.sum.high;
    }
    case 8: {
        livevec_scanned did = livevec_save(&shared, 0, bytes, sizeof bytes);
        return did.refusal ? did.refusal : did.length != sizeof bytes || bytes[80] != 1;
    }
    default: {
        livevec_count size = livevec_size(&shared);
        return size.refusal ? size.refusal : size.value != ELEMENTS || livevec_get(&shared, 7).value != 1 || livevec_verdict_push(&shared, 1).refusal;
    }
    }
}

static void *read_all(void *at)
{
    struct told *told = at;
    for (int i = 0; i < READS; i++)
        count(told, read_nth(i));
    return NULL;
}

/* Of samples: pushes of one and of many, searches of the values, windows, and bytes. A push that finds the slot busy is made again, for a minute at
 * most: one whose thread lost its processor in the midst of a call is at the slot for as long as others have that. */
static void *push_samples(void *at)
{
    static const int64_t ones[] = {1, 1};
    struct told *told = at;
    time_t end = time(NULL) + 60;
    for (int i = 0; i < CALLS; i++) {
        uint32_t why;
        do
            why = i % 2 ? livevec_samples_push(&shared_samples, 1, 1).refusal : livevec_samples_push_many(&shared_samples, ones, ones, 2).refusal;
        while (why == LIVEVEC_BUSY && time(NULL) < end && !sched_yield());
        count(told, why);
    }
    return NULL;
}

static void *ask_samples(void *at)
{
    struct told *told = at;
    uint8_t bytes[88];
    for (int i = 0; i < READS; i++)
        switch (i % 4) {
        case 0: count(told, livevec_series_where_best(&shared_samples.values, 0, 9).refusal); break;
        case 1: count(told, livevec_samples_value_of_last(&shared_samples, LIVEVEC_SUM, 1).refusal); break;
        case 2: count(told, livevec_samples_between(&shared_samples, 0, 9).refusal); break;
        default: count(told, livevec_series_save(&shared_samples.values, 0, bytes, sizeof bytes).refusal);
        }
    return NULL;
}

/* Runs some threads that make so many calls each at the slot, and sees that each call is counted once. Gives how many went through. */
static uint32_t run(int threads, uint32_t many, void *(*calls)(void *))
{
    struct told told[READERS] = {{0}};
    uint32_t accepted = 0;
    for (int i = 0; i < threads; i++)
        IS(pthread_create(&told[i].thread, NULL, calls, &told[i]), 0);
    for (int i = 0; i < threads; i++) {
        IS(pthread_join(told[i].thread, NULL), 0);
        IS(told[i].accepted + told[i].busy, many);
        IS(told[i].other, 0);
        accepted += told[i].accepted;
    }
    return accepted;
}

/* One that writes at every second place, and what it wrote there last. */
struct writer {
    struct told told;
    uint32_t calls, edit, lost;
    int64_t kept[PLACES];
};

/* The program, and the handler of a signal. */
static struct writer writers[2];

/* Writes at a writer's next place. What it wrote there before is lost where the answer tells another value. */
static void write_next(struct writer *w)
{
    uint32_t place = w->calls++ % PLACES;
    livevec_edited e = livevec_write(&shared, 2 * place + (uint32_t)(w - writers), w->calls);
    if (e.refusal == LIVEVEC_OK) {
        w->lost += e.edit <= w->edit || e.value != w->kept[place];
        w->edit = e.edit;
        w->kept[place] = w->calls;
    }
    if (e.refusal != LIVEVEC_NO_MEMORY)
        count(&w->told, e.refusal);
}

/* A handler may not call malloc: a write that wants memory is refused it, and does nothing. */
static void strike(int signal)
{
    (void)signal;
    until_failure = 1;
    write_next(&writers[1]);
    until_failure = 0;
}

/* Writes while a timer's handler writes at the same slot. In the midst of a write the handler is told LIVEVEC_BUSY; the write never is. */
static void struck(void)
{
    static const struct itimerval often = {{0, 50}, {0, 50}}, never;
    memset(writers, 0, sizeof writers);
    IS(livevec_new(&shared, 17, 10 * WRITES), 0);
    for (int i = 0; i < 2 * PLACES; i++)
        IS(livevec_push(&shared, 0).refusal, 0);
    IS(sigaction(SIGALRM, &(struct sigaction){.sa_handler = strike}, NULL), 0);
    IS(setitimer(ITIMER_REAL, &often, NULL), 0);
    for (int i = 0; i < WRITES; i++)
        write_next(&writers[0]);
    IS(setitimer(ITIMER_REAL, &never, NULL), 0);
    IS(sigaction(SIGALRM, &(struct sigaction){.sa_handler = SIG_IGN}, NULL), 0);
    IS(writers[0].told.accepted, WRITES);
    IS(writers[1].told.busy > 0, true);
    IS(livevec_edits(&shared).value, 2 * PLACES + WRITES + writers[1].told.accepted);
    IS(livevec_size(&shared).value, 2 * PLACES);
    int64_t sum = 0;
    for (uint32_t w = 0; w < 2; w++) {
        IS(writers[w].told.other, 0);
        IS(writers[w].lost, 0);
        for (uint32_t i = 0; i < PLACES; i++) {
            IS(livevec_get(&shared, 2 * i + w).value, writers[w].kept[i]);
            sum += writers[w].kept[i];
        }
    }
    IS(livevec_value(&shared, LIVEVEC_SUM, 0, 2 * PLACES).values.sum, sum);
    IS(livevec_free(&shared), 0);
}

static void beside_at_samples(void)
{
    IS(livevec_samples_new(&shared_samples), 0);
    IS(run(THREADS, CALLS, push_samples), THREADS * CALLS);
    uint64_t size = livevec_series_size(&shared_samples.values).value;
    IS(size, THREADS * CALLS / 2 * 3);
    IS(livevec_series_edits(&shared_samples.values).value, size);
    IS(livevec_samples_value(&shared_samples, LIVEVEC_SUM, 1, 2).values.sum, size);
    IS(run(READERS, READS, ask_samples), READERS * READS);
    IS(livevec_series_edits(&shared_samples.values).value, size);
    IS(livevec_free_samples(&shared_samples), 0);
}

/* Eight threads read, and none is told that the slot is busy. */
static void read_beside_reads(uint32_t pushed)
{
    IS(livevec_truncate(&shared, ELEMENTS).refusal, 0);
    IS(run(READERS, READS, read_all), READERS * READS);
    IS(livevec_edits(&shared).value, pushed + 1);
    uint32_t before = livevec_edits(&shared).value;
    run(THREADS, CALLS, push_and_read);
    uint32_t more = livevec_edits(&shared).value - before;
    IS(more > 0, true);
    IS(livevec_value(&shared, LIVEVEC_SUM, 0, ELEMENTS + more).values.sum, ELEMENTS + more);
    IS(livevec_truncate(&shared, ELEMENTS).refusal, 0);
    /* no edit goes through beside a read */
    shared.busy_ = 3;
    IS(livevec_write(&shared, 0, 1).refusal, LIVEVEC_BUSY);
    IS(livevec_free(&shared), LIVEVEC_BUSY);
    shared.busy_ = 0;
}

void beside(void)
{
    /* this process has begun no thread so far: its slots are marked otherwise until then */
    struck();
    IS(livevec_new(&shared, 17, 2 * THREADS * CALLS), 0);
    uint32_t pushed = run(THREADS, CALLS, push_ones);
    IS(livevec_edits(&shared).value, pushed);
    IS(livevec_size(&shared).value, pushed);
    IS(livevec_reduce(&shared, 0, pushed).values.sum, pushed);
    read_beside_reads(pushed);
    /* a slot that is entered, as by the call that a signal interrupted */
    shared.busy_ = 1;
    IS(livevec_push(&shared, 1).refusal, LIVEVEC_BUSY);
    IS(livevec_push_many(&shared, NULL, 0).refusal, LIVEVEC_BUSY);
    IS(livevec_read(&shared, 0, 0, NULL, 0).refusal, LIVEVEC_BUSY);
    livevec_job job = {0};
    IS(livevec_claim(&shared, &job).refusal, LIVEVEC_BUSY);
    IS(livevec_run(&job, &(livevec_outcome){0}), LIVEVEC_NO_HANDLE);
    IS(livevec_free(&shared), LIVEVEC_BUSY);
    shared.busy_ = 0;
    IS(livevec_size(&shared).value, ELEMENTS);
    IS(livevec_free(&shared), 0);
    beside_at_samples();
    struck();
}
