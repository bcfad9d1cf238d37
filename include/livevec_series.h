/** @file
 * Part of livevec.h, which is what programs include: series.
 *
 * A series: a vector that goes on. Its elements and edits are bounded by memory only, and elements at its front may expire.
 *
 * Indices and counts have 64 bits. They count from the first element that was ever pushed: an element keeps its index for as long as it is kept.
 * Kept are those from `first` up to `size`. They lie side by side in memory: after an expiry there is memory for at most twice those that are kept,
 * and 64. At most 2^62 elements are ever pushed, and 2^64 - 1 edits accepted.
 *
 * A series may be asked for each of the six kinds, and its automaton leads from q by x to (2 * q + x mod 4) mod 8. For each kind that was asked for
 * there is a tree over blocks of eight elements. By it a value of a range takes O(log n) joins, and each edit renews it at once: a write by O(log
 * n) joins. A tree takes 2 bytes an element, that of the best runs 16, and at most twice that. Kinds that nobody asked for cost nothing. */
#ifndef LIVEVEC_SERIES_H
#define LIVEVEC_SERIES_H

/** The handle of a series. Zeros mean that it is empty. */
typedef struct livevec_series {
    livevec_handle handle_; /**< the library's own */
    unsigned char busy_;    /**< the library's own */
} livevec_series;

/** What an edit of a series answers. If it was refused, all but the first three is 0; `first` and `size` are told only with OUT_OF_RANGE, here
 * and below: the indices from `first` up to `size` are kept. */
typedef struct livevec_series_edited {
    uint32_t refusal; /**< why the call was refused, a ::livevec_refusal; 0 if it was not */
    uint64_t first; /**< of LIVEVEC_OUT_OF_RANGE the first index that is kept, else 0 */
    uint64_t size; /**< and the index behind the last one, else 0 */
    uint64_t edit;  /**< the edit's number */
    uint64_t place; /**< of a push the index of the element; of an expire or a truncate how many were dropped; else 0 */
    int64_t value;  /**< of a pop the element that was dropped; of a write the one that was overwritten; of a swap the one that stands at the first
                     * index now; else 0 */
} livevec_series_edited;

/** What many pushes answer: all are made, or none. */
typedef struct livevec_series_pushed {
    uint32_t refusal; /**< of the first push that would be refused; 0 if none would */
    uint64_t edit;    /**< the number of the last edit, whether there were pushes or not; 0 if they were refused */
    uint64_t pushed;  /**< how many elements were pushed: all or none */
} livevec_series_pushed;

/** What many writes at a series, or many queries, answer: all are made, or none. */
typedef struct livevec_series_many {
    uint32_t refusal; /**< of the one that was refused; 0 if none was */
    uint64_t first;   /**< of OUT_OF_RANGE which indices are kept, else 0 */
    uint64_t size; /**< and the index behind the last one, else 0 */
    uint64_t edit; /**< the number of the last edit, after which the values are those of their ranges; 0 if one was refused */
    size_t done;   /**< how many writes were made, or ranges answered: all or none */
    size_t place;  /**< which one was refused, counted from 0; 0 if none was */
} livevec_series_many;

/** An element of a series, 0 if it was refused. */
typedef struct livevec_series_element {
    uint32_t refusal; /**< why the call was refused, a ::livevec_refusal; 0 if it was not */
    uint64_t first; /**< of LIVEVEC_OUT_OF_RANGE the first index that is kept, else 0 */
    uint64_t size; /**< and the index behind the last one, else 0 */
    int64_t value; /**< the element */
} livevec_series_element;

/** A count of a series, 0 if it was refused. */
typedef struct livevec_series_count {
    uint32_t refusal; /**< why the call was refused, a ::livevec_refusal; 0 if it was not */
    uint64_t value; /**< the count */
} livevec_series_count;

/** What a reduction of a series answers. If it was refused, all but the first three is 0. */
typedef struct livevec_series_reduced {
    uint32_t refusal; /**< why the call was refused, a ::livevec_refusal; 0 if it was not */
    uint64_t first; /**< of LIVEVEC_OUT_OF_RANGE the first index that is kept, else 0 */
    uint64_t size; /**< and the index behind the last one, else 0 */
    uint64_t edit; /**< after which edit the values are those of the range */
    livevec_values values; /**< the values */
} livevec_series_reduced;

/** What a piece of a range answers that was put into a buffer. If it was refused, all but the first three is 0. */
typedef struct livevec_series_scanned {
    uint32_t refusal; /**< why the call was refused, a ::livevec_refusal; 0 if it was not */
    uint64_t first; /**< of LIVEVEC_OUT_OF_RANGE the first index that is kept, else 0 */
    uint64_t size; /**< and the index behind the last one, else 0 */
    uint64_t edit;   /**< after which edit the values are those of the range */
    uint64_t length; /**< how many values were put: as many as the buffer took, or fewer at the range's end */
} livevec_series_scanned;

/** The elements of a range where they lie. If it was refused, all but the first three is 0, and `elements` is null. */
typedef struct livevec_series_view {
    uint32_t refusal; /**< why the call was refused, a ::livevec_refusal; 0 if it was not */
    uint64_t first; /**< of LIVEVEC_OUT_OF_RANGE the first index that is kept, else 0 */
    uint64_t size; /**< and the index behind the last one, else 0 */
    uint64_t edit;           /**< after which edit the elements are those of the range */
    const int64_t *elements; /**< the element under index `lo`, and those behind it */
    uint64_t length;         /**< how many there are: hi - lo */
} livevec_series_view;

/** Puts a new series without elements into an empty slot. Cost: O(1). Refusals: NULL, IN_USE, NO_MEMORY. The caller owes a livevec_free_series. */
LIVEVEC_MUST_USE uint32_t livevec_series_new(livevec_series *slot);

/** Frees a series and empties its slot, also while it is loaded; and samples, at `&samples.values`. Of a slot that holds something else it frees
 * nothing. Cost: O(1). Refusals: NULL, NO_HANDLE. */
LIVEVEC_INLINE uint32_t livevec_free_series(livevec_series *slot) { return livevec_free_slot(slot, LIVEVEC_SERIES); }

/** Makes an edit: which, a ::livevec_edit_kind says. `index`, `second` and `value` are what it has of these, as the functions of the edits' own
 * names, below, take them; what it doesn't have is not looked at. Cost and refusals: those of that function; NO_HANDLE also for a number that is no
 * edit of a series. */
LIVEVEC_MUST_USE livevec_series_edited livevec_series_make_edit(livevec_series *slot, uint32_t edit, uint64_t index, uint64_t second, int64_t value);

/** Puts an element at the end. `place` is its index. O(1) amortised. Cost: O(1) amortised, for each tree too. Refusals: NULL, NO_HANDLE, WORN, FULL,
 * NO_MEMORY. */
LIVEVEC_NAMED livevec_series_edited livevec_series_push(livevec_series *slot, int64_t value)
{ return livevec_series_make_edit(slot, LIVEVEC_PUSH, 0, 0, value); }

/** Pushes elements in order, all of them or none. A null pointer with length 0 is an empty array. Refused as the first push that would be refused,
 * with WORN or FULL, else with NO_MEMORY: nothing has changed then. Cost: O(length) amortised, for each tree too. Refusals: NULL, NO_HANDLE, WORN,
 * FULL, NO_MEMORY. */
LIVEVEC_MUST_USE livevec_series_pushed livevec_series_push_many(livevec_series *slot, const int64_t *values, size_t length);

/** Drops the last element. `value` is that element. Takes no memory. Cost: O(1) for each tree. Refusals: NULL, NO_HANDLE, WORN, EMPTY. */
LIVEVEC_NAMED livevec_series_edited livevec_series_pop(livevec_series *slot) { return livevec_series_make_edit(slot, LIVEVEC_POP, 0, 0, 0); }

/** Overwrites the element under an index. `value` is the element before. Takes no memory. Cost: O(log n) for each tree. Refusals: NULL, NO_HANDLE,
 * WORN, OUT_OF_RANGE. */
LIVEVEC_NAMED livevec_series_edited livevec_series_write(livevec_series *slot, uint64_t index, int64_t value)
{ return livevec_series_make_edit(slot, LIVEVEC_WRITE, index, 0, value); }

/** Overwrites the element under each of `length` indices, in order, by the value at the same place: `values` has so many too. An index may come
 * twice: the later value stays. Each is an edit of its own. All are made, or none: all indices are looked at before the first write, and whether so
 * many edits are left. `place` tells the first write that is refused. A null pointer with length 0 is an empty array. Takes no memory. Cost:
 * O(length * log n) for each tree. Refusals: NULL, NO_HANDLE, and, of the first write that is refused, WORN, OUT_OF_RANGE. */
LIVEVEC_MUST_USE livevec_series_many livevec_series_write_many(livevec_series *slot, const uint64_t *indices, const int64_t *values,
                                                               size_t length);

/** Exchanges the elements under two indices, which may be one. `value` is the element at the first index now. Takes no memory. Cost: O(log n) for
 * each tree. Refusals: NULL, NO_HANDLE, WORN, OUT_OF_RANGE. */
LIVEVEC_NAMED livevec_series_edited livevec_series_swap(livevec_series *slot, uint64_t first, uint64_t second)
{ return livevec_series_make_edit(slot, LIVEVEC_SWAP, first, second, 0); }

/** Drops the elements from an index on, which is `size` then. `place` is how many were dropped. Takes no memory. Cost: O(1) for each tree. Refusals:
 * NULL, NO_HANDLE, WORN, OUT_OF_RANGE. */
LIVEVEC_NAMED livevec_series_edited livevec_series_truncate(livevec_series *slot, uint64_t size)
{ return livevec_series_make_edit(slot, LIVEVEC_TRUNCATE, size, 0, 0); }

/** Drops the elements before an index, which is `first` then; the others keep their indices. `place` is how many were dropped. O(1) amortised. Gives
 * memory back: there is some for at most twice the elements that are kept, and 64, then, and the trees are made anew over these. It is never
 * refused for memory: a tree for which there is none stays as it is. Cost: O(1) amortised. Refusals: NULL, NO_HANDLE, WORN, OUT_OF_RANGE. */
LIVEVEC_NAMED livevec_series_edited livevec_series_expire(livevec_series *slot, uint64_t index)
{ return livevec_series_make_edit(slot, LIVEVEC_EXPIRE, index, 0, 0); }

/** The element under an index. Reads. Cost: O(1). Refusals: NULL, NO_HANDLE, OUT_OF_RANGE. */
LIVEVEC_MUST_USE livevec_series_element livevec_series_get(livevec_series *slot, uint64_t index);

/**@{*/
/** The index of the first element that is kept (where none is, that of the next that is pushed); the index behind the last; how many edits were
 * accepted. Reads. Cost: O(1). Refusals: NULL, NO_HANDLE. */
LIVEVEC_MUST_USE livevec_series_count livevec_series_first(livevec_series *slot);
LIVEVEC_MUST_USE livevec_series_count livevec_series_size(livevec_series *slot);
LIVEVEC_MUST_USE livevec_series_count livevec_series_edits(livevec_series *slot);
/**@}*/

/** The plain values of the elements of a range, by each of the six kinds at once: in O(log n) joins by each kind that has a tree, while it goes over
 * the range by one that has none. Takes no memory, changes nothing. Reads. Cost: O(log n) for each kind that has a tree, and linear in the range
 * for each that has none; use livevec_series_value or livevec_series_ask unless you ask once. Refusals: NULL, NO_HANDLE, BAD_RANGE, OUT_OF_RANGE. */
LIVEVEC_MUST_USE livevec_series_reduced livevec_series_reduce(livevec_series *slot, uint64_t lo, uint64_t hi);

/** The same, and makes the tree of each kind first that has none, in O(n): so the next one takes O(log n) joins by each kind, and so does a write.
 * Where one kind is wanted, ask by livevec_series_value. If there is no memory for a tree it is refused, and no answer changes, though trees of
 * some kinds may have been made. Reads. Cost: O(log n); the first one is O(n) and makes six trees. Refusals: NULL, NO_HANDLE, BAD_RANGE,
 * OUT_OF_RANGE, NO_MEMORY. */
LIVEVEC_MUST_USE livevec_series_reduced livevec_series_ask(livevec_series *slot, uint64_t lo, uint64_t hi);

/** A copy of the elements of a range from its start on, as many as a buffer of `length` takes; what it has behind them stays. The next piece starts
 * at `lo` and as many as were put. No pointer to the elements is lent. If it was refused the buffer is as it was. Reads. Cost: O(length).
 * Refusals: NULL, NO_HANDLE, BAD_RANGE, OUT_OF_RANGE. */
LIVEVEC_MUST_USE livevec_series_scanned livevec_series_read(livevec_series *slot, uint64_t lo, uint64_t hi, int64_t *buffer, size_t length);

/** The elements of a range, lent where they lie: O(1), and nothing is copied. They are the series' own: read them, and never write or free them.
 * They are good until livevec_series_give_back. Until then the slot is entered: each other call at it, also a second loan and the one that frees
 * it, is answered BUSY. Any thread may read them, and any may give them back: who does so owes that none reads on. Of an empty range `elements`
 * isn't null, and nothing may be read there. Of the values of samples: at `&samples.values`. Takes no memory, changes nothing. A loan that was
 * refused is none, and isn't given back. Cost: O(1). Refusals: NULL, NO_HANDLE, BAD_RANGE, OUT_OF_RANGE. */
LIVEVEC_MUST_USE livevec_series_view livevec_series_lend(livevec_series *slot, uint64_t lo, uint64_t hi);

/** Ends a loan: its elements may be read no more. NO_HANDLE where nothing is lent, and BUSY only beside another call. Cost: O(1). Refusals: NULL,
 * NO_HANDLE. */
uint32_t livevec_series_give_back(livevec_series *slot);

/** The running values of a range from the index `at` on, by one ::livevec_kind or by LIVEVEC_ALL_SIX, into a column of the caller's, as many cells as
 * it takes; cells are those of livevec_scan. The functions of the scans' own names, here and in livevec_series_kinds.h, take a column of their cells
 * alone, and say what it has then. Reads. Cost: O(length), and O(at - lo) more for each kind without a tree. Refusals: NULL, BAD_KIND, NO_HANDLE,
 * BAD_RANGE and OUT_OF_RANGE (of `lo` to `at`, then of `at` to `hi`). */
LIVEVEC_MUST_USE livevec_series_scanned livevec_series_scan(livevec_series *slot, uint32_t kind, bool inclusive, uint64_t lo, uint64_t at,
                                                            uint64_t hi, void *column, size_t length);

/**@{*/
/** The running values of a range by all six kinds, from the index `at` on, as many as a buffer of `length` takes: buffer[i] has those of the
 * elements from `lo` up to `at` + i, that one included, or excluded. The first piece has `at` = `lo`, the next one `at` and as many as were put; an
 * edit between two pieces is told by `edit`. What the buffer has behind the values stays. A piece costs a livevec_series_reduce of what lies before
 * it, and one step for each value: where there are many pieces, have the trees made by a livevec_series_ask. Takes no memory, changes nothing.
 * If it was refused the buffer is as it was. Reads. Cost: O(length), and O(at - lo) more for each kind without a tree. Refusals: NULL,
 * NO_HANDLE, BAD_RANGE and OUT_OF_RANGE (of `lo` to `at`, then of `at` to `hi`). */
LIVEVEC_NAMED livevec_series_scanned livevec_series_scan_inclusive(livevec_series *slot, uint64_t lo, uint64_t at, uint64_t hi,
                                                                  livevec_values *buffer, size_t length)
{ return livevec_series_scan(slot, LIVEVEC_ALL_SIX, true, lo, at, hi, buffer, length); }
LIVEVEC_NAMED livevec_series_scanned livevec_series_scan_exclusive(livevec_series *slot, uint64_t lo, uint64_t at, uint64_t hi,
                                                                  livevec_values *buffer, size_t length)
{ return livevec_series_scan(slot, LIVEVEC_ALL_SIX, false, lo, at, hi, buffer, length); }
/**@}*/

#endif
