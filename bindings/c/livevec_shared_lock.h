/* What the lock of a shared form guards, for livevec_shared.c and livevec_shared_workers.c. Not installed. */
#ifndef LIVEVEC_SHARED_LOCK_H
#define LIVEVEC_SHARED_LOCK_H

#define _GNU_SOURCE      /* of syscall */
#define LIVEVEC_MUST_USE /* an answer that tells nothing new is dropped here */
#include "livevec_slots.h"

#include <linux/futex.h>
#include <pthread.h>
#include <stdlib.h>
#include <string.h>
#include <sys/syscall.h>
#include <unistd.h>

/* Where the workers are that share many blocks: from which block on nobody has any yet, how many batches and subtrees are in hand, and how many
 * summaries above may be computed in place once all are back. */
typedef struct shared_sweep {
    uint32_t next, above;
    size_t out;
    bool is_under_way;
} shared_sweep;

/* A lock, what it guards, and who sleeps at it. Nothing is computed under it but between enter and leave, in a subscriber's look, and by the 256 the
 * summaries above blocks and subtrees that workers went over. */
typedef struct shared_lock {
    pthread_mutex_t mutex;
    bool is_taken;      /* what the mutex says, for who only looks */
    const char *holder; /* the thread that has entered, by a place of its own; or null */
    /* Bells: where workers sleep while there is no job, subscribers while nothing has changed, and who pauses, whom no edit wakes. */
    uint32_t work, change, pause;
    /* One of the two, and which. */
    livevec_vector *vector;
    livevec_series *series;
    bool is_series, closed, unaware;
    /* What is added to the handle's numbers; the handle's last one that is known; the sum of the two when a thread left last. */
    uint64_t base, edits, told;
    uint64_t changes; /* grows with each change */
    /* How many workers there are, how many of them sleep, and how many of those are called. */
    size_t working, idle, calls;
    shared_sweep over;
    struct shared_seat *seats;
    size_t holders; /* how many slots lead here: the last one frees it */
} shared_lock;

/* Whether this thread has entered. No other thread stores its place. */
bool livevec_private_is_within(const shared_lock *at);

static inline uint32_t take_lock(shared_lock *at)
{
    if (livevec_private_is_within(at))
        return LIVEVEC_BUSY;
    pthread_mutex_lock(&at->mutex);
    __atomic_store_n(&at->is_taken, true, __ATOMIC_RELAXED);
    return LIVEVEC_OK;
}

static inline void give_lock(shared_lock *at)
{
    __atomic_store_n(&at->is_taken, false, __ATOMIC_RELAXED);
    pthread_mutex_unlock(&at->mutex);
}

/* Takes the lock, or is refused where it is closed or round a handle of the other sort. */
static inline uint32_t take_open(shared_lock *at, bool is_series)
{
    uint32_t why = take_lock(at);
    if (why || (!at->closed && at->is_series == is_series))
        return why;
    give_lock(at);
    return LIVEVEC_NO_HANDLE;
}

/* Sleep is by the kernel's own call, and time by that of a clock that nobody sets: those of the C library for it are so new that each program which
 * loads the shared object would need a new one. */
static inline uint64_t now(void)
{
    struct timespec it;
    syscall(SYS_clock_gettime, CLOCK_MONOTONIC, &it);
    return (uint64_t)it.tv_sec * 1000000000 + (uint64_t)it.tv_nsec;
}

/* Lets the lock go until a bell rings, or until a time, or sooner. */
static inline void sleep_till(shared_lock *at, uint32_t *bell, uint64_t till)
{
    uint32_t rung = __atomic_load_n(bell, __ATOMIC_RELAXED);
    uint64_t start = now(), rest = till > start ? till - start : 0;
    struct timespec most = {.tv_sec = (time_t)(rest / 1000000000), .tv_nsec = (long)(rest % 1000000000)};
    give_lock(at);
    if (rest)
        syscall(SYS_futex, bell, FUTEX_WAIT_PRIVATE, rung, till == UINT64_MAX ? NULL : &most, NULL, 0);
    take_lock(at);
}

/* Wakes so many who sleep at a bell. */
static inline void ring(uint32_t *bell, int sleepers)
{
    __atomic_add_fetch(bell, 1, __ATOMIC_RELAXED);
    syscall(SYS_futex, bell, FUTEX_WAKE_PRIVATE, sleepers, NULL, NULL, 0);
}
enum { ALL = INT32_MAX };

/* Calls a worker that sleeps, if there is one, which is to be woken then. */
static inline bool call_worker(shared_lock *at)
{
    bool some = at->idle > at->calls;
    at->calls += some;
    return some;
}

/* One slot more, or one less, leads to a lock. */
static inline void hold(shared_lock *at)
{
    __atomic_add_fetch(&at->holders, 1, __ATOMIC_RELAXED);
}
static inline void let_go(shared_lock *at)
{
    if (__atomic_sub_fetch(&at->holders, 1, __ATOMIC_ACQ_REL))
        return;
    pthread_mutex_destroy(&at->mutex);
    free(at);
}

/* Memory of zeros, or none. An embedder names no calloc, of which gcc would make a call if it saw where the memory comes from. */
static inline void *zeros(size_t size)
{
    void *made = malloc(size);
    __asm__("" : "+r"(made));
    return made ? memset(made, 0, size) : NULL;
}

/* What refuses a slot that should lead to something, and one that should be empty, of those whose type is its own. */
#define LEADS(slot) (!(slot) ? LIVEVEC_NULL : (slot)->at_ ? LIVEVEC_OK : LIVEVEC_NO_HANDLE)
#define IS_EMPTY(slot) (!(slot) ? LIVEVEC_NULL : (slot)->at_ ? LIVEVEC_IN_USE : LIVEVEC_OK)

#endif
