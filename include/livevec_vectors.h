/** @file
 * Part of livevec.h, which is what programs include: vectors: edits and elements. */
#ifndef LIVEVEC_VECTORS_H
#define LIVEVEC_VECTORS_H

/** Puts a new, empty vector into an empty slot: of at most 1 to 17 buckets (k buckets hold 8 * (2^k - 1) elements, 17 hold 1,048,568) and 1 to
 * 16,777,215 edits. Its automaton leads from q by x to (2 * q + x mod 4) mod 8. Cost: O(1). Refusals: NULL, IN_USE, BAD_LIMITS, NO_MEMORY. Who
 * calls owes a livevec_free. */
LIVEVEC_MUST_USE uint32_t livevec_new(livevec_vector *slot, uint32_t buckets, uint32_t edits);

/** The same of one livevec_kind only, if no other will be asked: it is asked by livevec_value, livevec_value_many and the scans of that kind; of
 * LEAST also by livevec_where_least, of GREATEST by livevec_where_greatest, of BEST by livevec_where_best and livevec_where_reaches. A query by
 * another kind is refused with BAD_KIND, right after NO_HANDLE, and so is one by all six: livevec_reduce, livevec_ask, livevec_scan_inclusive,
 * livevec_scan_exclusive, livevec_summary_of. So no query computes more than that kind. All else is as at any vector; refresh and jobs compute
 * all six. Cost: O(1). Refusals: NULL, IN_USE, BAD_KIND, BAD_LIMITS, NO_MEMORY. */
LIVEVEC_MUST_USE uint32_t livevec_new_of(livevec_vector *slot, uint32_t kind, uint32_t buckets, uint32_t edits);

/** As livevec_new, with an automaton of a table of the caller's, which is copied. Cost: O(1). Refusals: NULL, IN_USE, BAD_LIMITS, BAD_TABLE,
 * NO_MEMORY. */
LIVEVEC_MUST_USE uint32_t livevec_new_with_table(livevec_vector *slot, uint32_t buckets, uint32_t edits,
                                                 const livevec_table *table);

/** Frees a vector and empties its slot. Its jobs and outcomes stay good for nothing but to be freed. Each free is of its own type: of a slot that
 * holds something else, as one that was cast, it answers NO_HANDLE and frees nothing. Cost: O(n). Refusals: NULL, NO_HANDLE. */
LIVEVEC_INLINE uint32_t livevec_free(livevec_vector *slot) { return livevec_free_slot(slot, LIVEVEC_VECTOR); }

/** Makes an edit: which, a ::livevec_edit_kind says. `index`, `second` and `value` are what a ::livevec_edit has of it, and what that doesn't have is
 * not looked at. The functions of the edits' own names, below, say what each does and answers. Cost and refusals: those of that function;
 * NO_HANDLE also for a number that is no edit of a vector. */
LIVEVEC_MUST_USE livevec_edited livevec_make_edit(livevec_vector *slot, uint32_t edit, uint32_t index, uint32_t second, int64_t value);

/** Puts an element at the end. `place` is its index. Cost: O(log n) amortised. Refusals: NULL, NO_HANDLE, WORN, FULL, NO_MEMORY. */
LIVEVEC_NAMED livevec_edited livevec_push(livevec_vector *slot, int64_t value) { return livevec_make_edit(slot, LIVEVEC_PUSH, 0, 0, value); }

/** Drops the last element. `value` is that element. Cost: O(log n). Refusals: NULL, NO_HANDLE, WORN, EMPTY, NO_MEMORY. */
LIVEVEC_NAMED livevec_edited livevec_pop(livevec_vector *slot) { return livevec_make_edit(slot, LIVEVEC_POP, 0, 0, 0); }

/** Overwrites the element at an index. `value` is the element before. Cost: O(log n) amortised. Refusals: NULL, NO_HANDLE, WORN, OUT_OF_RANGE,
 * NO_MEMORY. */
LIVEVEC_NAMED livevec_edited livevec_write(livevec_vector *slot, uint32_t index, int64_t value)
{ return livevec_make_edit(slot, LIVEVEC_WRITE, index, 0, value); }

/** Makes room for so many elements in all. `place` is how many now fit. Cost: O(1), and the memory that is asked for. Refusals: NULL, NO_HANDLE,
 * WORN, TOO_LARGE, NO_MEMORY. */
LIVEVEC_NAMED livevec_edited livevec_reserve(livevec_vector *slot, uint32_t elements)
{ return livevec_make_edit(slot, LIVEVEC_RESERVE, elements, 0, 0); }

/** The element at an index. Reads. Cost: O(1). Refusals: NULL, NO_HANDLE, OUT_OF_RANGE. */
LIVEVEC_MUST_USE livevec_element livevec_get(livevec_vector *slot, uint32_t index);

/** Exchanges the elements at two indices, which may be one. `value` is the element at the first index now. Cost: O(log n) amortised. Refusals: NULL,
 * NO_HANDLE, WORN, OUT_OF_RANGE, NO_MEMORY. */
LIVEVEC_NAMED livevec_edited livevec_swap(livevec_vector *slot, uint32_t first, uint32_t second)
{ return livevec_make_edit(slot, LIVEVEC_SWAP, first, second, 0); }

/** Keeps so many elements, the first ones, and drops the others. `place` is how many were dropped. Cost: O(log n) amortised. Refusals: NULL,
 * NO_HANDLE, WORN, OUT_OF_RANGE, NO_MEMORY. */
LIVEVEC_NAMED livevec_edited livevec_truncate(livevec_vector *slot, uint32_t elements)
{ return livevec_make_edit(slot, LIVEVEC_TRUNCATE, elements, 0, 0); }

/** Why an edit would be refused that livevec_make_edit is told so, out of memory apart; nothing is changed. Reads. Cost: O(1). Refusals: those of the
 * edit but NO_MEMORY; NO_HANDLE also for a number that is no edit of a vector. */
LIVEVEC_MUST_USE livevec_verdict livevec_judge_edit(livevec_vector *slot, uint32_t edit, uint32_t index, uint32_t second, int64_t value);

/**@{*/
/** Why that very edit would be refused, out of memory apart; nothing is changed. Reads. Cost: O(1). Refusals: those of the edit but NO_MEMORY. */
LIVEVEC_NAMED livevec_verdict livevec_verdict_push(livevec_vector *slot, int64_t value)
{ return livevec_judge_edit(slot, LIVEVEC_PUSH, 0, 0, value); }
LIVEVEC_NAMED livevec_verdict livevec_verdict_pop(livevec_vector *slot) { return livevec_judge_edit(slot, LIVEVEC_POP, 0, 0, 0); }
LIVEVEC_NAMED livevec_verdict livevec_verdict_write(livevec_vector *slot, uint32_t index, int64_t value)
{ return livevec_judge_edit(slot, LIVEVEC_WRITE, index, 0, value); }
LIVEVEC_NAMED livevec_verdict livevec_verdict_reserve(livevec_vector *slot, uint32_t elements)
{ return livevec_judge_edit(slot, LIVEVEC_RESERVE, elements, 0, 0); }
LIVEVEC_NAMED livevec_verdict livevec_verdict_swap(livevec_vector *slot, uint32_t first, uint32_t second)
{ return livevec_judge_edit(slot, LIVEVEC_SWAP, first, second, 0); }
LIVEVEC_NAMED livevec_verdict livevec_verdict_truncate(livevec_vector *slot, uint32_t elements)
{ return livevec_judge_edit(slot, LIVEVEC_TRUNCATE, elements, 0, 0); }
/**@}*/

/** Pushes elements in order: all are pushed, or none. Room for them, and for what may be asked after them, is made before the first. Where one would
 * be refused, all are: nothing has changed then, and `pushed` is 0. A null pointer with length 0 is an empty array, here and below. Cost: O(length)
 * amortised. Refusals: NULL, NO_HANDLE, and, of the first push that is refused, WORN, FULL; NO_MEMORY. */
LIVEVEC_MUST_USE livevec_pushed livevec_push_many(livevec_vector *slot, const int64_t *values, size_t length);

/** Overwrites the element at each of `length` indices, in order, by the value at the same place: `values` has so many too. An index may come twice:
 * the later value stays. Each is an edit of its own. All are made, or none: all indices are looked at before the first write, and whether so many
 * edits are left, and the journal's room for them is made. `place` tells the first write that is refused. Cost: O(length * log n) amortised.
 * Refusals: NULL, NO_HANDLE, and, of the first write that is refused, WORN, OUT_OF_RANGE; NO_MEMORY, of which `place` is 0. */
LIVEVEC_MUST_USE livevec_many livevec_write_many(livevec_vector *slot, const uint32_t *indices, const int64_t *values, size_t length);

/** The elements of a range, into a buffer that takes `length` of them. If it was refused the buffer is as it was. Reads. Cost: O(hi - lo).
 * Refusals: NULL, NO_HANDLE, BAD_RANGE, OUT_OF_RANGE, SHORT_BUFFER. */
LIVEVEC_MUST_USE livevec_scanned livevec_read(livevec_vector *slot, uint32_t lo, uint32_t hi, int64_t *buffer, size_t length);

/** How many bytes livevec_save gives in all: 88, and 8 for each element. Reads. Cost: O(1). Refusals: NULL, NO_HANDLE. */
LIVEVEC_MUST_USE livevec_count livevec_saved_length(livevec_vector *slot);

/** Puts the bytes of a vector, from the place `from` on, into a buffer, as many as it takes in whole numbers of 8: `length` is how many, 0 at the
 * end. They are those of a series of its elements, which livevec_series_load takes too: limits, kind, table and edits aren't saved. The next piece
 * starts at `from` and so many. `edit` is the number of the vector's last edit: pieces between which it rose are not of one vector. A call copies
 * all elements, and frees the copy at its end: so a buffer of livevec_saved_length, which takes all bytes at once, is quickest.
 * If it was refused the buffer is as it was. Reads. Cost: O(n) for each piece. Refusals: NULL, NO_HANDLE, NO_MEMORY, BAD_RANGE (`from` is no
 * multiple of 8). */
LIVEVEC_MUST_USE livevec_scanned livevec_save(livevec_vector *slot, uint64_t from, uint8_t *buffer, size_t length);

/** Pushes the elements of what was saved, all of them or none, as livevec_push_many does: `bytes` are all the bytes of a vector, or of a series, in
 * order. The vector is one that the caller has made, so with limits, kind and table of the caller's choice, and each element is an edit: a new
 * vector has the saved elements then, under the indices from 0 on, whatever their indices in a series were. The bytes stay the caller's. While it
 * works it holds them once more, and the elements. Bytes that come in pieces are loaded as a series (livevec_series_load), whose elements are
 * pushed where they lie (livevec_series_lend, livevec_push_many). If it was refused nothing has changed. Cost: O(length) amortised. Refusals: NULL,
 * NO_HANDLE, NOT_SAVED (also of samples), and, of the first push that is refused, WORN, FULL; NO_MEMORY. */
LIVEVEC_MUST_USE livevec_pushed livevec_push_saved(livevec_vector *slot, const uint8_t *bytes, size_t length);

/**@{*/
/** How many elements there are; how many fit into the memory that is held; how many edits were accepted. Reads. Cost: O(1). Refusals: NULL,
 * NO_HANDLE. */
LIVEVEC_MUST_USE livevec_count livevec_size(livevec_vector *slot);
LIVEVEC_MUST_USE livevec_count livevec_capacity(livevec_vector *slot);
LIVEVEC_MUST_USE livevec_count livevec_edits(livevec_vector *slot);
/**@}*/

#endif
