/** @file
 * Part of livevec.h, which is what programs include: queries of a series by one kind, the kinds' trees, and its running values by one kind. */
#ifndef LIVEVEC_SERIES_KINDS_H
#define LIVEVEC_SERIES_KINDS_H

/** The indices from `lo` up to `hi`, `hi` excluded, of a series. */
typedef struct livevec_series_range {
    uint64_t lo; /**< the first index */
    uint64_t hi; /**< the index behind the last one */
} livevec_series_range;

/** Makes the tree of one livevec_kind, if there is none, in O(n). From then on a value by that kind takes O(log n) joins, and each edit renews
 * the tree. Changes no answer. If there is no memory nothing has changed. Reads. Cost: O(n) if the tree is made, else O(1). Refusals: NULL,
 * BAD_KIND, NO_HANDLE, NO_MEMORY. */
LIVEVEC_MUST_USE uint32_t livevec_series_prepare(livevec_series *slot, uint32_t kind);

/** The plain value of the elements of a range by one livevec_kind. Of `values` only those of that kind are told, and `any`; the others are 0. It
 * computes only that kind, by the kind's tree, in O(log n) joins. The first query by a kind makes its tree, as livevec_series_prepare does:
 * if there is no memory for it, the query is refused and nothing has changed. Changes no answer. Reads. Cost: O(log n); the first query of
 * the kind is O(n) and makes its tree. Refusals: NULL, BAD_KIND, NO_HANDLE, BAD_RANGE, OUT_OF_RANGE, NO_MEMORY. */
LIVEVEC_MUST_USE livevec_series_reduced livevec_series_value(livevec_series *slot, uint32_t kind, uint64_t lo, uint64_t hi);

/** The same of `length` ranges, all after one edit: answers[i] has the values of ranges[i]. All ranges are looked at before the first answer is
 * written: if one is refused, `place` tells the first that is, and `answers` is as it was. A null pointer with length 0 is an empty array.
 * Reads. Cost: as livevec_series_value for each range. Refusals: NULL, BAD_KIND, NO_HANDLE, and, of the first range that is refused, BAD_RANGE,
 * OUT_OF_RANGE; NO_MEMORY, of which `place` is 0. */
LIVEVEC_MUST_USE livevec_series_many livevec_series_value_many(livevec_series *slot, uint32_t kind, const livevec_series_range *ranges,
                                                               livevec_values *answers, size_t length);

/** An exact sum of a series. If it was refused, all but the first three is 0. */
typedef struct livevec_series_summed {
    uint32_t refusal;  /**< why the call was refused, a ::livevec_refusal; 0 if it was not */
    uint64_t first;    /**< of LIVEVEC_OUT_OF_RANGE the first index that is kept, else 0 */
    uint64_t size;     /**< and the index behind the last one, else 0 */
    uint64_t edit;     /**< after which edit it is the sum of the range */
    livevec_total sum; /**< the sum */
} livevec_series_summed;

/** The exact sum of the elements of a range, in 128 bits: it never wraps, as that of livevec_series_value may. It follows from the sums modulo
 * 2^64, the minimum and the maximum, which are asked as livevec_series_value asks them, all after one edit; so the first call makes those three
 * trees. Of the values of samples: at `&samples.values`. Changes no answer. Reads. Cost: O(log n) if the length of the range times the difference
 * of its maximum and minimum is below 2^64, else O(log n) more for each 2^64 of that product, and at most O(hi - lo); the first call is O(n).
 * Refusals: NULL, NO_HANDLE, BAD_RANGE, OUT_OF_RANGE, NO_MEMORY, with which some of the trees may have been made. */
LIVEVEC_MUST_USE livevec_series_summed livevec_series_exact_sum(livevec_series *slot, uint64_t lo, uint64_t hi);

/** Where something stands in a range of a series: from `lo` up to `hi`. If it was refused, all but the first three is 0. */
typedef struct livevec_series_found {
    uint32_t refusal; /**< why the call was refused, a ::livevec_refusal; 0 if it was not */
    uint64_t first; /**< of OUT_OF_RANGE which indices are kept, else 0 */
    uint64_t size; /**< and the index behind the last one, else 0 */
    uint64_t edit;     /**< after which edit it stands there */
    uint64_t lo;       /**< 0 both where nothing was found */
    uint64_t hi; /**< the index behind the last one */
    int64_t value;     /**< of the least and the greatest, else 0 */
    uint64_t sum_low;  /**< of the best run: its sum is sum_high * 2^64 + sum_low, else 0 */
    int64_t sum_high; /**< and its high 64 bits, which have the sign */
    bool found; /**< whether there is such a thing; if not, all but `edit` is 0 */
} livevec_series_found;

/** Where something stands in a range: what, a ::livevec_wanted says. `x` is what it is compared with, and isn't looked at if nothing is compared. The
 * functions of the searches' own names, below, say what each finds. Reads. Cost: as livevec_series_value. Refusals: NULL, BAD_KIND (no
 * ::livevec_wanted), NO_HANDLE, BAD_RANGE, OUT_OF_RANGE, NO_MEMORY: nothing has changed then. */
LIVEVEC_MUST_USE livevec_series_found livevec_series_find(livevec_series *slot, uint32_t wanted, uint64_t lo, uint64_t hi, int64_t x);

/**@{*/
/** Where the first of the least elements of a range stands, and the first of the greatest: from its index up to the next one. There is none of an
 * empty range. O(log n) joins. Each asks the tree of its kind, here of the least or of the greatest, and makes it first, if there is none, as
 * livevec_series_prepare does. Changes no answer. Reads. Cost: as livevec_series_value. Refusals: NULL, NO_HANDLE, BAD_RANGE, OUT_OF_RANGE,
 * NO_MEMORY: nothing has changed then. */
LIVEVEC_NAMED livevec_series_found livevec_series_where_least(livevec_series *slot, uint64_t lo, uint64_t hi)
{ return livevec_series_find(slot, LIVEVEC_WHERE_LEAST, lo, hi, 0); }
LIVEVEC_NAMED livevec_series_found livevec_series_where_greatest(livevec_series *slot, uint64_t lo, uint64_t hi)
{ return livevec_series_find(slot, LIVEVEC_WHERE_GREATEST, lo, hi, 0); }
/**@}*/

/** Where the best run of a range stands: one or more neighbours that add up to the most. Of several it is the one that ends first, and of those the
 * shortest. It asks the kind of best runs, and is refused as livevec_series_where_least is. Reads. Cost: as livevec_series_value. */
LIVEVEC_NAMED livevec_series_found livevec_series_where_best(livevec_series *slot, uint64_t lo, uint64_t hi)
{ return livevec_series_find(slot, LIVEVEC_WHERE_BEST, lo, hi, 0); }

/**@{*/
/** The least end, from lo to hi, up to which the elements from lo on add up to `sum` or more (lo itself, where `sum` is 0 or less); and the greatest
 * start from which on those up to hi do (hi itself, then). Elements may be negative, and no sum wraps. They ask the kind of best runs, and are
 * refused as livevec_series_where_least is. Reads. Cost: as livevec_series_value. */
LIVEVEC_NAMED livevec_series_found livevec_series_where_reaches(livevec_series *slot, uint64_t lo, uint64_t hi, int64_t sum)
{ return livevec_series_find(slot, LIVEVEC_WHERE_REACHES, lo, hi, sum); }
LIVEVEC_NAMED livevec_series_found livevec_series_where_reaches_back(livevec_series *slot, uint64_t lo, uint64_t hi, int64_t sum)
{ return livevec_series_find(slot, LIVEVEC_WHERE_REACHES_BACK, lo, hi, sum); }
/**@}*/

/**@{*/
/** Where the first or the last element of a range stands that is at least, or at most, `bound`: from its index up to the next one. `value` isn't
 * told. They ask the kind of the greatest (at least) or of the least (at most), and are refused as livevec_series_where_least is. Reads. Cost: as
 * livevec_series_value. */
LIVEVEC_NAMED livevec_series_found livevec_series_where_first_at_least(livevec_series *slot, uint64_t lo, uint64_t hi, int64_t bound)
{ return livevec_series_find(slot, LIVEVEC_WHERE_FIRST_AT_LEAST, lo, hi, bound); }
LIVEVEC_NAMED livevec_series_found livevec_series_where_first_at_most(livevec_series *slot, uint64_t lo, uint64_t hi, int64_t bound)
{ return livevec_series_find(slot, LIVEVEC_WHERE_FIRST_AT_MOST, lo, hi, bound); }
LIVEVEC_NAMED livevec_series_found livevec_series_where_last_at_least(livevec_series *slot, uint64_t lo, uint64_t hi, int64_t bound)
{ return livevec_series_find(slot, LIVEVEC_WHERE_LAST_AT_LEAST, lo, hi, bound); }
LIVEVEC_NAMED livevec_series_found livevec_series_where_last_at_most(livevec_series *slot, uint64_t lo, uint64_t hi, int64_t bound)
{ return livevec_series_find(slot, LIVEVEC_WHERE_LAST_AT_MOST, lo, hi, bound); }
/**@}*/

/**@{*/
/** The running values of a range by one kind, from the index `at` on, as many as a column of `length` places takes: column[i] has that of the
 * elements from `lo` up to `at` + i, that one included, or excluded. So a scan goes in pieces, as livevec_series_scan_inclusive says, and each is
 * answered and refused as by that. What the column has behind the cells stays. If there is no element before, the least, the greatest and the best
 * are 0: only at column[0] of an exclusive scan whose `at` is `lo`. A piece costs a value by that kind of what lies before it, which goes over
 * those elements where the kind has no tree, and one step for each cell: where there are many pieces, make the tree by livevec_series_prepare.
 * Takes no memory, changes nothing. If it was refused the column is as it was. Reads. Cost: O(length), and O(at - lo) more without a tree.
 * Refusals: NULL, NO_HANDLE, BAD_RANGE and OUT_OF_RANGE (of `lo` to `at`, then of `at` to `hi`). */
LIVEVEC_NAMED livevec_series_scanned livevec_series_scan_inclusive_sum(livevec_series *slot, uint64_t lo, uint64_t at, uint64_t hi,
                                                                       uint64_t *column, size_t length)
{ return livevec_series_scan(slot, LIVEVEC_SUM, true, lo, at, hi, column, length); }
LIVEVEC_NAMED livevec_series_scanned livevec_series_scan_inclusive_least(livevec_series *slot, uint64_t lo, uint64_t at, uint64_t hi,
                                                                         int64_t *column, size_t length)
{ return livevec_series_scan(slot, LIVEVEC_LEAST, true, lo, at, hi, column, length); }
LIVEVEC_NAMED livevec_series_scanned livevec_series_scan_inclusive_greatest(livevec_series *slot, uint64_t lo, uint64_t at, uint64_t hi,
                                                                            int64_t *column, size_t length)
{ return livevec_series_scan(slot, LIVEVEC_GREATEST, true, lo, at, hi, column, length); }
LIVEVEC_NAMED livevec_series_scanned livevec_series_scan_inclusive_best(livevec_series *slot, uint64_t lo, uint64_t at, uint64_t hi,
                                                                        livevec_total *column, size_t length)
{ return livevec_series_scan(slot, LIVEVEC_BEST, true, lo, at, hi, column, length); }
LIVEVEC_NAMED livevec_series_scanned livevec_series_scan_inclusive_affine(livevec_series *slot, uint64_t lo, uint64_t at, uint64_t hi,
                                                                          livevec_map *column, size_t length)
{ return livevec_series_scan(slot, LIVEVEC_AFFINE, true, lo, at, hi, column, length); }
LIVEVEC_NAMED livevec_series_scanned livevec_series_scan_inclusive_automaton(livevec_series *slot, uint64_t lo, uint64_t at, uint64_t hi,
                                                                             livevec_states *column, size_t length)
{ return livevec_series_scan(slot, LIVEVEC_AUTOMATON, true, lo, at, hi, column, length); }
LIVEVEC_NAMED livevec_series_scanned livevec_series_scan_exclusive_sum(livevec_series *slot, uint64_t lo, uint64_t at, uint64_t hi,
                                                                       uint64_t *column, size_t length)
{ return livevec_series_scan(slot, LIVEVEC_SUM, false, lo, at, hi, column, length); }
LIVEVEC_NAMED livevec_series_scanned livevec_series_scan_exclusive_least(livevec_series *slot, uint64_t lo, uint64_t at, uint64_t hi,
                                                                         int64_t *column, size_t length)
{ return livevec_series_scan(slot, LIVEVEC_LEAST, false, lo, at, hi, column, length); }
LIVEVEC_NAMED livevec_series_scanned livevec_series_scan_exclusive_greatest(livevec_series *slot, uint64_t lo, uint64_t at, uint64_t hi,
                                                                            int64_t *column, size_t length)
{ return livevec_series_scan(slot, LIVEVEC_GREATEST, false, lo, at, hi, column, length); }
LIVEVEC_NAMED livevec_series_scanned livevec_series_scan_exclusive_best(livevec_series *slot, uint64_t lo, uint64_t at, uint64_t hi,
                                                                        livevec_total *column, size_t length)
{ return livevec_series_scan(slot, LIVEVEC_BEST, false, lo, at, hi, column, length); }
LIVEVEC_NAMED livevec_series_scanned livevec_series_scan_exclusive_affine(livevec_series *slot, uint64_t lo, uint64_t at, uint64_t hi,
                                                                          livevec_map *column, size_t length)
{ return livevec_series_scan(slot, LIVEVEC_AFFINE, false, lo, at, hi, column, length); }
LIVEVEC_NAMED livevec_series_scanned livevec_series_scan_exclusive_automaton(livevec_series *slot, uint64_t lo, uint64_t at, uint64_t hi,
                                                                             livevec_states *column, size_t length)
{ return livevec_series_scan(slot, LIVEVEC_AUTOMATON, false, lo, at, hi, column, length); }
/**@}*/

#endif
