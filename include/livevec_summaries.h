/** @file
 * Part of livevec.h, which is what programs include: summaries that travel.
 *
 * Summaries that travel: of shards in several threads, processes or machines, joined in the order of their elements. They hold nothing of a vector,
 * and but for livevec_summary_of no call needs a slot or answers BUSY. No call takes memory. Joins may be taken in any grouping, left and right
 * kept: all come to the summary of all elements end to end. */
#ifndef LIVEVEC_SUMMARIES_H
#define LIVEVEC_SUMMARIES_H

/** The summary of no elements, by the automaton of livevec_new. Joined with another on either side it changes nothing of it but that the edit is no
 * longer told. Cost: O(1). Refusals: none. */
LIVEVEC_MUST_USE livevec_summarised livevec_summary_empty(void);

/** The same, by an automaton of a table of the caller's, which is copied. Cost: O(1). Refusals: NULL, BAD_TABLE. */
LIVEVEC_MUST_USE livevec_summarised livevec_summary_empty_with_table(const livevec_table *table);

/** The summary of the elements of a range of a vector, by its automaton, after its last edit. Changes nothing. Reads. Cost: linear in the range if
 * nothing was refreshed (by livevec_refresh or jobs), O(log n) if all was. Refusals: NULL, NO_HANDLE, BAD_KIND, BAD_RANGE, OUT_OF_RANGE. */
LIVEVEC_MUST_USE livevec_summarised livevec_summary_of(livevec_vector *slot, uint32_t lo, uint32_t hi);

/** The summary of the elements of a summary, and then those of an array. A null pointer with length 0 is an empty array. Its edit is not told. Cost:
 * O(length). Refusals: NULL (of either pointer), OTHER_VERSION, DAMAGED, TOO_LONG. */
LIVEVEC_MUST_USE livevec_summarised livevec_summary_extend(const livevec_summary *summary, const int64_t *values, size_t length);

/** The summary of an array, by the automaton of livevec_new: that of no elements, extended. Cost: O(length). Refusals: NULL, TOO_LONG. */
LIVEVEC_MUST_USE livevec_summarised livevec_summary_of_elements(const int64_t *values, size_t length);

/** The summary of the elements of `left`, and then those of `right`, which may be one. Its edit is not told. Cost: O(1). Refusals: NULL,
 * OTHER_VERSION and DAMAGED (of left, and then of right), OTHER_TABLE, TOO_LONG. */
LIVEVEC_MUST_USE livevec_summarised livevec_summary_join(const livevec_summary *left, const livevec_summary *right);

/** What a summary says: the plain values of its elements, their count, its edit and its table. Cost: O(1). Refusals: NULL, OTHER_VERSION, DAMAGED. */
LIVEVEC_MUST_USE livevec_opened livevec_summary_values(const livevec_summary *summary);

#endif
