/** @file
 * Part of livevec.h, which is what programs include: a vector, a series or samples that threads share.
 *
 * A shared form is a lock round one handle: of a vector, of a series, or of samples, which are shared by `&samples.values`. The handle stays where it
 * is and is the shared form's until the close: no call at it but by a thread that has entered. A thread enters for one call or for several, which are
 * then those of livevec.h at the handle, and leaves. Subscribers sleep until an edit changes an answer of theirs, and workers, threads of the
 * caller's, compute the summaries of a vector beside all that. No call here starts or ends a thread.
 *
 * Each call below may be made by any thread at any time, but those that free. NO_HANDLE is also for a shared form that is closed. BUSY is for a call
 * of a thread that has entered itself, where it would wait for itself: nothing has happened then. A call of another thread waits.
 *
 * Edit numbers that are told here have 64 bits, and go on rising where the vector is exchanged for another: a shared form keeps a base that is added
 * to each number of the handle's. A livevec_note has the low 32 bits of that.
 *
 * Threads are those of pthread.h: a program that calls a function of this file is linked with -pthread, and no other is. */
#ifndef LIVEVEC_SHARED_H
#define LIVEVEC_SHARED_H

/** A shared form. As any slot it starts as zeros. */
typedef struct livevec_shared {
    void *at_; /**< the library's own */
} livevec_shared;

/** One who is told of changes. As any slot it starts as zeros. It is one thread's at a time. */
typedef struct livevec_subscriber {
    void *at_; /**< the library's own */
} livevec_subscriber;

/** What a thread that computes summaries works by. As any slot it starts as zeros. */
typedef struct livevec_worker {
    void *at_; /**< the library's own */
} livevec_worker;

/** How a thread left. If it was refused all else is 0. */
typedef struct livevec_left {
    uint32_t refusal; /**< why the call was refused, a ::livevec_refusal; 0 if it was not */
    bool is_edited;   /**< whether edits were made since it entered */
    uint64_t edit;    /**< the number of the last edit */
} livevec_left;

/** What a subscriber is told. If it was refused, all but `refusal` and `detail` is 0. */
typedef struct livevec_told {
    uint32_t refusal; /**< why the call was refused, a ::livevec_refusal; 0 if it was not */
    uint32_t detail;  /**< of LIVEVEC_SHORT_BUFFER how many notes there are, of LIVEVEC_BAD_KIND which query may not be asked, else 0 */
    uint64_t edit;    /**< after which edit the notes are so; 0 if there is none */
    uint32_t count;   /**< how many notes were told */
    bool is_over;     /**< whether it is closed, and nothing will be told any more */
} livevec_told;

/**@{*/
/** Puts a lock round a vector, or round a series, into an empty slot. Cost: O(1). Refusals: NULL, IN_USE, those of livevec_edits (or of
 * livevec_series_edits) at the handle, NO_MEMORY. The caller owes a livevec_free_shared, and keeps the handle where it is until then or until the
 * close. */
LIVEVEC_MUST_USE uint32_t livevec_shared_new(livevec_shared *slot, livevec_vector *vector);
LIVEVEC_MUST_USE uint32_t livevec_shared_new_series(livevec_shared *slot, livevec_series *series);
/**@}*/

/** Enters, for calls at the handle with no other thread's between them; waits for another that has. Cost: O(1). Refusals: NULL, BUSY, NO_HANDLE. The
 * caller owes a livevec_shared_leave by the same thread. */
LIVEVEC_MUST_USE uint32_t livevec_shared_enter(livevec_shared *slot);

/** Leaves. If edits were made, subscribers are woken, and a worker. Cost: O(1). Refusals: NULL, NO_HANDLE (also if this thread has not entered). */
livevec_left livevec_shared_leave(livevec_shared *slot);

/**@{*/
/** By a thread that has entered: goes on round another vector, or another series, which counts as one edit, with the other's edits behind it. The one
 * before is the caller's again, and may be freed before. A null pointer is none: calls at it are refused with NULL. Cost: O(1). Refusals: NULL,
 * NO_HANDLE (also if this thread has not entered, or of the other sort). */
LIVEVEC_MUST_USE uint32_t livevec_shared_exchange(livevec_shared *slot, livevec_vector *vector);
LIVEVEC_MUST_USE uint32_t livevec_shared_exchange_series(livevec_shared *slot, livevec_series *series);
/**@}*/

/** By a thread that has entered: goes on round a copy, where a vector is nearly worn. `fresh` is a new vector, of limits, kind and table that the
 * caller made it with. The elements are pushed into it, and it takes the place of the one before, which is the caller's again. Numbers of edits go on
 * as if nothing were, and subscribers are told nothing. If it was refused nothing has changed. Cost: linear in the elements. Refusals: NULL, NO_HANDLE
 * (also if this thread has not entered, or of a series), IN_USE (`fresh` has edits, or is the one before), those of livevec_push_many, NO_MEMORY. */
LIVEVEC_MUST_USE uint32_t livevec_shared_renew(livevec_shared *slot, livevec_vector *fresh);

/** Closes: the handle is the caller's again. Subscribers have their last notes at the last edit, which they are told on, and all who sleep are woken;
 * workers end, without a look at the handle. Claims of jobs are forgotten. Cost: as livevec_notes for each subscriber. Refusals: NULL, BUSY,
 * NO_HANDLE. */
LIVEVEC_MUST_USE uint32_t livevec_shared_close(livevec_shared *slot);

/** Closes, if it isn't closed, and empties the slot. Subscribers and workers may outlive it. Cost: as livevec_shared_close. Refusals: NULL, BUSY,
 * NO_HANDLE. */
uint32_t livevec_free_shared(livevec_shared *slot);

/** Puts one into an empty slot who is told which answers of a set by the handle have changed. The set stays where it is and is the subscriber's until
 * that is freed: a call at it beside a look of the subscriber's is BUSY, there or here. Before its first look each counts as told what livevec_notes
 * says. Cost: O(1). Refusals: NULL, IN_USE, NO_HANDLE, NO_MEMORY, BUSY. The caller owes a livevec_free_subscriber. */
LIVEVEC_MUST_USE uint32_t livevec_shared_subscribe(livevec_shared *slot, livevec_subscriber *subscriber, livevec_queries *queries);

/** Sleeps until an edit changes an answer, and tells of each whose answer differs from the one that was told last, in the order in which they were
 * named, into an array of `room` notes: all of them or none. All are at one edit, and these rise. A change that is undone between two looks is not
 * told. Once it is closed it tells the notes at the last edit, if there are any, and then none: `is_over`. It sleeps at most so many nanoseconds,
 * where UINT64_MAX is without an end: `count` is 0 then. Cost: a look is as livevec_notes or livevec_series_notes, under the lock. Refusals: NULL,
 * TOO_LONG, NO_HANDLE (of an empty slot), BUSY, and those of livevec_notes: nothing counts as told then. */
LIVEVEC_MUST_USE livevec_told livevec_subscriber_next(livevec_subscriber *slot, livevec_note *notes, size_t room, uint64_t nanoseconds);

/** The notes that there are now; none if nothing has changed. It neither sleeps nor pauses. Cost and refusals: as livevec_subscriber_next. */
LIVEVEC_MUST_USE livevec_told livevec_subscriber_look(livevec_subscriber *slot, livevec_note *notes, size_t room);

/** Makes it pause so many nanoseconds after each look from now on, a day at most, or twice as long as the look took if that is longer, so that edits
 * are not held up; at first it is a millisecond. With 0 it doesn't pause: each edit may be looked at then, and waits for the look. It is a call of
 * the subscriber's own thread. Cost: O(1). Refusals: NULL, NO_HANDLE. */
LIVEVEC_MUST_USE uint32_t livevec_subscriber_set_pause(livevec_subscriber *slot, uint64_t nanoseconds);

/** Ends a subscriber, and empties its slot; its set is the caller's again. Cost: O(subscribers). Refusals: NULL, NO_HANDLE. */
uint32_t livevec_free_subscriber(livevec_subscriber *slot);

/** Puts a worker of a vector into an empty slot. Cost: O(1). Refusals: NULL, IN_USE, BUSY, NO_HANDLE (also of a series), NO_MEMORY. The caller owes a
 * livevec_free_worker. */
LIVEVEC_MUST_USE uint32_t livevec_shared_hire(livevec_shared *slot, livevec_worker *worker);

/** Computes summaries until the worker is dismissed, or the shared form is closed: a thread of the caller's makes this call, one for each worker. It
 * sleeps while there is nothing to compute; edits wake it. It takes jobs under the lock, computes them without it, and hands in the outcomes. If many
 * blocks near each other want one it takes a subtree of 4,096 elements, or else at most 1,024 blocks. A subtree that was written to meanwhile it goes
 * over again by its blocks. Summaries above those it computes under the lock, 256 at a time. No answer changes by it; livevec_reduce gets quick. For
 * want of memory it waits a while. Refusals: NULL, NO_HANDLE (of an empty slot), BUSY. */
uint32_t livevec_worker_work(livevec_worker *slot);

/** Dismisses a worker: its work ends soon, and if it comes later, at once. Cost: O(1). Refusals: NULL, NO_HANDLE, BUSY. */
uint32_t livevec_worker_dismiss(livevec_worker *slot);

/** Frees a worker whose work has ended or never begun, and empties its slot. Cost: O(1). Refusals: NULL, NO_HANDLE. */
uint32_t livevec_free_worker(livevec_worker *slot);

#endif
