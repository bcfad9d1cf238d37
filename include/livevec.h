/** @file
 * livevec: a growable vector of 64-bit integers that answers queries of any range at once, and a board of 16-bit integers that threads edit and
 * query together without a lock. For C11 and C++17.
 *
 * @par Threads
 * Calls at different handles may run at the same time. At one handle, reads never fail because of other reads: a read waits until the other one
 * ends. An edit at the same time as any other call is refused with LIVEVEC_BUSY, and so is a read at the same time as an edit. Nothing has
 * happened then: call again, or put a lock round the handle. So is every call at a series whose elements are lent. The comment of each function
 * says "Reads" if the function is a read; every other function counts as an edit. A read may store what it computes, so it takes no pointer to const.
 *
 * @par Handles
 * A vector, a series, samples, a set of queries, a job, an outcome, a batch, a board and a seat are each behind a handle (*slot*), a small struct
 * of the caller's. The caller owes three things, which nothing checks:
 *   - a handle starts as zeros (`livevec_vector v = {0};`), which means "empty";
 *   - a handle is never copied, and only these functions write it;
 *   - a handle is freed, or its memory given back, only if no call at it is running or will come.
 *
 * No function follows an empty handle: it answers LIVEVEC_NO_HANDLE. Freeing a handle makes it empty. A call enters its handle by writing the
 * byte `busy_`, with an atomic exchange if the program has more than one thread, and leaves it with a store.
 *
 * @par Refusals
 * Each answer has a `refusal`, a ::livevec_refusal: why the call was refused, or 0. A refused call changes nothing. The comment of each function lists
 * its refusals in the order in which they are tried. NULL is for a null pointer. TOO_LONG, right after it, is for an array whose length no array can
 * have (more than PTRDIFF_MAX bytes): it isn't read. BUSY comes next, for every function that takes a handle. NO_HANDLE is for a handle that
 * should hold something and is empty, or holds something else. Compilers warn if an answer is dropped (LIVEVEC_MUST_USE), but not for functions
 * that free, or that only save reads.
 *
 * @par Memory
 * It comes from malloc, realloc and free, or from functions that the embedder names (`make embed`). If there is none, the answer is
 * LIVEVEC_NO_MEMORY, and nothing has changed. No function prints, ends the process or starts a thread. Call none from a signal handler: malloc
 * may not be called there, and a read would wait for a read that it interrupts.
 *
 * @par Ranges and numbers of edits
 * A range is the indices from `lo` up to `hi`, `hi` excluded. Edits are numbered 1, 2, 3 and so on; an answer names the last one.
 *
 * @par Names and parameters
 * Some functions are told by a number what they are to do: livevec_make_edit, livevec_judge_edit, livevec_find and livevec_scan, those like them of
 * a series, and livevec_free_slot. Names such as livevec_push are functions of these headers over them. They are compiled with the program that
 * calls them (LIVEVEC_INLINE) and are no symbols of the library, so another language calls the functions that take a number.
 *
 * @par Costs
 * n is the number of elements (or, of a read, those of its range where the comment says "of the range"), and a join combines two partial
 * aggregates. "O(1) amortised" means that a single call may be O(n), when memory is moved. A tree of a kind is built by the first query of that
 * kind, which is O(n); after it each query of the kind is O(log n). */
#ifndef LIVEVEC_H
#define LIVEVEC_H

#include <stdbool.h>
#include <stddef.h>
#include <stdint.h>

#ifdef __cplusplus
extern "C" {
#endif

/** The version of the library to which this header belongs. */
#define LIVEVEC_VERSION "0.3.0"

/** Makes a compiler warn if an answer is dropped; gcc does so in C even behind a cast to void. A program that means to drop answers defines it
 * as nothing before it includes this header. */
#ifndef LIVEVEC_MUST_USE
#if defined(__cplusplus) ? __cplusplus >= 201703L : defined(__STDC_VERSION__) && __STDC_VERSION__ >= 202311L
#define LIVEVEC_MUST_USE [[nodiscard]]
#elif defined(__GNUC__)
#define LIVEVEC_MUST_USE __attribute__((warn_unused_result))
#else
#define LIVEVEC_MUST_USE
#endif
#endif

/** How a function is defined that these headers have whole. In C++ it isn't static, so that a program's inline functions may name it. */
#ifdef __cplusplus
#define LIVEVEC_INLINE inline
#else
#define LIVEVEC_INLINE static inline
#endif

/** The same of one whose answer isn't to be dropped. */
#define LIVEVEC_NAMED LIVEVEC_MUST_USE LIVEVEC_INLINE

#include "livevec_refusals.h"
#include "livevec_records.h"

/** The version of the library that is linked, spelt as #LIVEVEC_VERSION spells that of this header. If the library was built without its proofs,
 * " (not proved)" follows. O(1). */
LIVEVEC_MUST_USE const char *livevec_version(void);

/** A refusal in words, for example "the limit of edits is reached". Never null: for any other number it is "unknown". O(1). */
LIVEVEC_MUST_USE const char *livevec_refusal_text(uint32_t refusal);

/** Frees what a slot holds, and empties it, if that is of the sort that a ::livevec_sort says; else it answers NO_HANDLE and frees nothing, also for
 * another number. `slot` is a slot of one of the types of that enum. Cost and refusals: those of the free of that type, as livevec_free or
 * livevec_free_series. */
uint32_t livevec_free_slot(void *slot, uint32_t sort);

#include "livevec_vectors.h"
#include "livevec_reductions.h"
#include "livevec_summaries.h"
#include "livevec_jobs.h"
#include "livevec_boards.h"
#include "livevec_series.h"
#include "livevec_series_kinds.h"
#include "livevec_samples.h"
#include "livevec_queries.h"
#include "livevec_transcripts.h"
#include "livevec_shared.h"

#ifdef __cplusplus
}
#endif

#endif
