/** @file
 * Part of livevec.h, which is what programs include: summaries that are computed in place, or as jobs.
 *
 * Refresh: summaries are computed so that reductions read less. No answer changes by it. */
#ifndef LIVEVEC_JOBS_H
#define LIVEVEC_JOBS_H

/** Computes at most so many summaries in place, the least node first; tells how many. Fewer than `jobs` where no node wants one any longer. Takes no
 * memory. Cost: O(log n) for each summary. Refusals: NULL, NO_HANDLE. */
livevec_count livevec_refresh(livevec_vector *slot, uint32_t jobs);

/** Puts a job for the least node that wants one into an empty slot, if there is one. It holds nothing of the vector. Cost: O(log n) amortised.
 * Refusals: NULL, IN_USE (of the job's slot), NO_HANDLE, NO_MEMORY. The caller owes a livevec_run or a livevec_free_job. */
LIVEVEC_MUST_USE livevec_claimed livevec_claim(livevec_vector *slot, livevec_job *job);

/** Computes a job, on any thread, beside any call on the vector. The job's slot is then empty, and the outcome's is full. Takes no memory. Cost:
 * O(1). Refusals: NULL, IN_USE (of the outcome's slot), NO_HANDLE (of the job's). The caller owes a livevec_free_outcome. */
LIVEVEC_MUST_USE uint32_t livevec_run(livevec_job *job, livevec_outcome *outcome);

/** Whether an outcome would be accepted: yes for every outcome of a job that this vector handed out, however late. Reads. Cost: O(1). Refusals:
 * NULL, NO_HANDLE (of either slot). */
LIVEVEC_MUST_USE livevec_vetted livevec_vet(livevec_vector *slot, livevec_outcome *outcome);

/** Delivers an outcome, if vet says yes. The outcome stays as it is, and may be delivered again. Takes no memory. Reads at the outcome. Cost: O(log
 * n). Refusals: NULL, NO_HANDLE (of either slot), STRANGER. */
livevec_accepted livevec_accept(livevec_vector *slot, livevec_outcome *outcome);

/** Forgets all claims, so that their nodes may be claimed again. Jobs that were handed out stay good. Cost: O(n). Refusals: NULL, NO_HANDLE. */
uint32_t livevec_forget(livevec_vector *slot);

/**@{*/
/** Frees a job that is not run; frees an outcome. The slot is then empty. Of a slot that holds something else, as a vector, each answers NO_HANDLE
 * and frees nothing. Cost: O(1). Refusals: NULL, NO_HANDLE. */
LIVEVEC_INLINE uint32_t livevec_free_job(livevec_job *job) { return livevec_free_slot(job, LIVEVEC_JOB); }
LIVEVEC_INLINE uint32_t livevec_free_outcome(livevec_outcome *outcome) { return livevec_free_slot(outcome, LIVEVEC_OUTCOME); }
/**@}*/

/** Jobs of many blocks at once, for threads that help with much work. A block is 8 elements side by side; of `size` elements size / 8 are whole, and
 * those are blocks 0, 1 and so on. Such a job claims nothing: threads that share the work ask for blocks apart. Summaries above the blocks are
 * computed by livevec_refresh or by livevec_claim.
 *
 * Puts a job for each block that wants one, of the at most `limit` from block `first` on, into an empty slot; `value` tells how many. Where none
 * wants one, or `first` is past the last, it is 0 and the slot stays empty. The slot holds nothing of the vector: 104 bytes a job, copied from it.
 * Reads at the vector. Cost: O(limit). Refusals: NULL, IN_USE (of the batch's slot), NO_HANDLE, NO_MEMORY. The caller owes a livevec_accept_blocks
 * or a livevec_free_batch. */
LIVEVEC_MUST_USE livevec_count livevec_blocks(livevec_vector *slot, livevec_batch *batch, uint32_t first, uint32_t limit);

/** Computes the jobs of a batch, or that of a subtree (below), on any thread, beside any call on the vector. The slot then has what they gave, and
 * no jobs: some 250 bytes a block, and some 120 KB for a subtree. Cost: O(1) for each block, and for a subtree linear in its 4,096 elements.
 * Refusals: NULL, NO_HANDLE (also of a batch that was run), NO_MEMORY; the jobs stay then. */
LIVEVEC_MUST_USE uint32_t livevec_run_blocks(livevec_batch *batch);

/** Takes in the outcomes of a batch that was run, each where livevec_vet would say yes, and tells how many of them became what. The batch's slot is
 * empty then. Takes no memory. Cost: O(log n) for each block. Refusals: NULL, NO_HANDLE (of either slot, and of a batch that was not run or is of a
 * subtree); the batch's slot stays as it is then. */
livevec_taken livevec_accept_blocks(livevec_vector *slot, livevec_batch *batch);

/** All summaries of a subtree at once, where much is to be computed. A subtree is 4,096 elements side by side, with 585 summaries: those of its 512
 * blocks, and those above them up to the one of all its elements. Of `size` elements size / 4096 subtrees are whole, and those are 0, 1 and so on.
 *
 * Puts the job of a subtree into an empty slot, where the subtree is whole, and its first block and its last each want a job; `value` is 585. Else
 * `value` is 0 and the slot stays empty: what is wanted there is computed by livevec_blocks or livevec_refresh. The slot holds nothing of the
 * vector: 32 KB, copied from it. Such a job claims nothing: threads that share the work ask for subtrees apart. Reads at the vector. Cost: linear
 * in the 4,096 elements, if they are copied. Refusals: NULL, IN_USE (of the batch's slot), NO_HANDLE, NO_MEMORY. Who calls owes a
 * livevec_free_batch. */
LIVEVEC_MUST_USE livevec_count livevec_subtree(livevec_vector *slot, livevec_batch *batch, uint32_t number);

/** Takes in what the job of a subtree gave, once it was run. Where the elements that were copied stand there still, all its summaries are kept from
 * now on, and `value` is 585. Else `value` is 0 and nothing has changed. The elements are compared, and the table of the automaton: what another
 * vector's job gave is taken in where both are the same. What was taken in once is not taken in again: `value` is 0. Takes no memory. The batch's
 * slot still has what it was given. Free it by livevec_free_batch where no lock is held: that gives some 120 KB back. Cost: linear in the 4,096
 * elements. Refusals: NULL, NO_HANDLE (of either slot, and of a batch that was not run or is not of a subtree). */
livevec_count livevec_accept_subtree(livevec_vector *slot, livevec_batch *batch);

/** Frees a batch or a subtree, run or not. The slot is then empty. Of a slot that holds something else it answers NO_HANDLE and frees nothing. Cost:
 * O(1) for each block. Refusals: NULL, NO_HANDLE. */
LIVEVEC_INLINE uint32_t livevec_free_batch(livevec_batch *batch) { return livevec_free_slot(batch, LIVEVEC_BATCH); }

#endif
