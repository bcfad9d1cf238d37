/** @file
 * Part of livevec.h, which is what programs include: reductions, searches and scans of a range. */
#ifndef LIVEVEC_REDUCTIONS_H
#define LIVEVEC_REDUCTIONS_H

/** The plain values of the elements of a range, by each of the six kinds at once. Takes no memory, changes nothing. Reads. Cost: linear in the range
 * if nothing was refreshed (by livevec_refresh or jobs), O(log n) if all was; use livevec_value or livevec_ask unless you refresh. Refusals: NULL,
 * NO_HANDLE, BAD_KIND (a vector of one kind; so below), BAD_RANGE, OUT_OF_RANGE. */
LIVEVEC_MUST_USE livevec_reduced livevec_reduce(livevec_vector *slot, uint32_t lo, uint32_t hi);

/** The same, by each kind as livevec_value asks it: six trees follow the edits, and `cells` and `summaries` are 0. So it is quick where it is asked
 * often. Takes no memory, changes no answer. Reads. Cost: for each of the six kinds as livevec_value. Refusals: NULL, NO_HANDLE, BAD_KIND,
 * BAD_RANGE, OUT_OF_RANGE. */
LIVEVEC_MUST_USE livevec_reduced livevec_ask(livevec_vector *slot, uint32_t lo, uint32_t hi);

/** The plain value of the elements of a range by one livevec_kind. Of `values` only those of that kind are told, and `any`; the others are 0. It
 * computes only that kind, and keeps what it computes by only that kind, until an edit touches it: where one kind is wanted, this is quicker than
 * livevec_ask. Takes no memory, changes no answer. Reads. Cost: O(log n), and at most as much more for each edit since the last query of the kind;
 * the first query after n pushes is O(n). Refusals: NULL, BAD_KIND (no kind), NO_HANDLE, BAD_KIND (not the vector's), BAD_RANGE, OUT_OF_RANGE. */
LIVEVEC_MUST_USE livevec_reduced livevec_value(livevec_vector *slot, uint32_t kind, uint32_t lo, uint32_t hi);

/** The same of `length` ranges, all after one edit: answers[i] has the values of ranges[i]. All ranges are looked at before the first answer is
 * written: if one is refused, `place` tells the first that is, and `answers` is as it was. Reads. Cost: as livevec_value for each range.
 * Refusals: those of livevec_value, the last two of the first range that is refused. */
LIVEVEC_MUST_USE livevec_many livevec_value_many(livevec_vector *slot, uint32_t kind, const livevec_range *ranges,
                                                 livevec_values *answers, size_t length);

/** The exact sum of the elements of a range, in 128 bits: it never wraps, as that of livevec_value may. It follows from the sums modulo 2^64, the
 * minimum and the maximum, which are asked as livevec_value asks them, all after one edit. A vector of one kind has its elements added up instead.
 * Takes no memory, changes no answer. Reads. Cost: as three calls of livevec_value if the length of the range times the difference of its maximum
 * and minimum is below 2^64; else as one sum more for each 2^64 of that product, and at most O(hi - lo). At a vector of one kind O(hi - lo).
 * Refusals: NULL, NO_HANDLE, BAD_RANGE, OUT_OF_RANGE. */
LIVEVEC_MUST_USE livevec_summed livevec_exact_sum(livevec_vector *slot, uint32_t lo, uint32_t hi);

/** Where something stands in a range: what, a ::livevec_wanted says. `x` is what it is compared with, and isn't looked at if nothing is compared. The
 * functions of the searches' own names, below, say what each finds. Reads. Cost: as livevec_value. Refusals: NULL, BAD_KIND (no ::livevec_wanted),
 * NO_HANDLE, BAD_KIND (not the vector's), BAD_RANGE, OUT_OF_RANGE. */
LIVEVEC_MUST_USE livevec_found livevec_find(livevec_vector *slot, uint32_t wanted, uint32_t lo, uint32_t hi, int64_t x);

/**@{*/
/** Where the first of the least elements of a range stands, and the first of the greatest. There is none of an empty range. It is found in steps of
 * the tree, and what is computed for it is kept by that kind, until an edit touches it. Takes no memory, changes no answer. Reads. Cost: as
 * livevec_value. Refusals: NULL, NO_HANDLE, BAD_KIND, BAD_RANGE, OUT_OF_RANGE. */
LIVEVEC_NAMED livevec_found livevec_where_least(livevec_vector *slot, uint32_t lo, uint32_t hi)
{ return livevec_find(slot, LIVEVEC_WHERE_LEAST, lo, hi, 0); }
LIVEVEC_NAMED livevec_found livevec_where_greatest(livevec_vector *slot, uint32_t lo, uint32_t hi)
{ return livevec_find(slot, LIVEVEC_WHERE_GREATEST, lo, hi, 0); }
/**@}*/

/** Where the best run of a range stands: one or more neighbours that add up to the most. Of several it is the one that ends first, and of those the
 * shortest. It is found, kept and refused as by livevec_where_least. Reads. Cost: as livevec_value. */
LIVEVEC_NAMED livevec_found livevec_where_best(livevec_vector *slot, uint32_t lo, uint32_t hi)
{ return livevec_find(slot, LIVEVEC_WHERE_BEST, lo, hi, 0); }

/** The least end, from lo to hi, up to which the elements from lo on add up to `sum` or more; lo itself, where `sum` is 0 or less. Elements may be
 * negative, and no sum wraps. It is found, kept by the kind of best runs and refused as by livevec_where_least. Reads. Cost: as livevec_value. */
LIVEVEC_NAMED livevec_found livevec_where_reaches(livevec_vector *slot, uint32_t lo, uint32_t hi, int64_t sum)
{ return livevec_find(slot, LIVEVEC_WHERE_REACHES, lo, hi, sum); }

/** The greatest start, from hi down to lo, from which on the elements up to hi add up to `sum` or more; hi itself, where `sum` is 0 or less. It is
 * found, kept and refused as by livevec_where_reaches. Reads. Cost: as livevec_value. */
LIVEVEC_NAMED livevec_found livevec_where_reaches_back(livevec_vector *slot, uint32_t lo, uint32_t hi, int64_t sum)
{ return livevec_find(slot, LIVEVEC_WHERE_REACHES_BACK, lo, hi, sum); }

/**@{*/
/** Where the first or the last element of a range stands that is at least, or at most, `bound`: from its index up to the next one. `value` isn't
 * told. They are found, kept and refused as by livevec_where_greatest (at least) and livevec_where_least (at most). Reads. Cost: as livevec_value. */
LIVEVEC_NAMED livevec_found livevec_where_first_at_least(livevec_vector *slot, uint32_t lo, uint32_t hi, int64_t bound)
{ return livevec_find(slot, LIVEVEC_WHERE_FIRST_AT_LEAST, lo, hi, bound); }
LIVEVEC_NAMED livevec_found livevec_where_first_at_most(livevec_vector *slot, uint32_t lo, uint32_t hi, int64_t bound)
{ return livevec_find(slot, LIVEVEC_WHERE_FIRST_AT_MOST, lo, hi, bound); }
LIVEVEC_NAMED livevec_found livevec_where_last_at_least(livevec_vector *slot, uint32_t lo, uint32_t hi, int64_t bound)
{ return livevec_find(slot, LIVEVEC_WHERE_LAST_AT_LEAST, lo, hi, bound); }
LIVEVEC_NAMED livevec_found livevec_where_last_at_most(livevec_vector *slot, uint32_t lo, uint32_t hi, int64_t bound)
{ return livevec_find(slot, LIVEVEC_WHERE_LAST_AT_MOST, lo, hi, bound); }
/**@}*/

/** The running values of a range, by one ::livevec_kind or by LIVEVEC_ALL_SIX, into a column of the caller's: column[i] has that of the elements from
 * lo up to lo + i, that one included, or excluded. `length` is how many cells the column has. A cell is
 *   - of LIVEVEC_SUM a uint64_t, of LIVEVEC_LEAST and LIVEVEC_GREATEST an int64_t;
 *   - of LIVEVEC_BEST a ::livevec_total, of LIVEVEC_AFFINE a ::livevec_map, of LIVEVEC_AUTOMATON a ::livevec_states;
 *   - of LIVEVEC_ALL_SIX a ::livevec_values.
 *
 * The functions of the scans' own names, below, take a column of their cells alone, and say what it has then. Reads. Cost: O(hi - lo). Refusals:
 * NULL, BAD_KIND (no kind, and not LIVEVEC_ALL_SIX), NO_HANDLE, BAD_KIND (not the vector's), BAD_RANGE, OUT_OF_RANGE, SHORT_BUFFER. */
LIVEVEC_MUST_USE livevec_scanned livevec_scan(livevec_vector *slot, uint32_t kind, bool inclusive, uint32_t lo, uint32_t hi, void *column,
                                              size_t length);

/**@{*/
/** The running values of a range by all six kinds: buffer[i] has those of the elements from lo up to lo + i, that one included, or excluded. Writes
 * hi - lo values; `length` is how many the buffer takes, and what it has behind them stays. If it was refused the buffer is as it was. A call
 * goes over the elements once and keeps nothing; it takes no memory and changes no answer. Reads. Cost: O(hi - lo). Refusals: NULL, NO_HANDLE,
 * BAD_KIND, BAD_RANGE, OUT_OF_RANGE, SHORT_BUFFER. */
LIVEVEC_NAMED livevec_scanned livevec_scan_inclusive(livevec_vector *slot, uint32_t lo, uint32_t hi, livevec_values *buffer, size_t length)
{ return livevec_scan(slot, LIVEVEC_ALL_SIX, true, lo, hi, buffer, length); }
LIVEVEC_NAMED livevec_scanned livevec_scan_exclusive(livevec_vector *slot, uint32_t lo, uint32_t hi, livevec_values *buffer, size_t length)
{ return livevec_scan(slot, LIVEVEC_ALL_SIX, false, lo, hi, buffer, length); }
/**@}*/

/**@{*/
/** The running values of a range by one kind, into a column of the caller's: column[i] has that of the elements from lo up to lo + i, that one
 * included, or excluded. All are those after one edit, which `edit` tells. Writes hi - lo cells, whose last is the value of the whole range, or of
 * all but its last element; `length` is how many places the column has, and what it has behind the cells stays. If there is no element before, the
 * least, the greatest and the best are 0, as livevec_value shows them: only at column[0] of an exclusive scan. A call goes over the elements once
 * and keeps nothing; it takes no memory and changes no answer. If it was refused the column is as it was. Reads. Cost: O(hi - lo). Refusals:
 * NULL, NO_HANDLE, BAD_KIND, BAD_RANGE, OUT_OF_RANGE, SHORT_BUFFER. */
LIVEVEC_NAMED livevec_scanned livevec_scan_inclusive_sum(livevec_vector *slot, uint32_t lo, uint32_t hi, uint64_t *column, size_t length)
{ return livevec_scan(slot, LIVEVEC_SUM, true, lo, hi, column, length); }
LIVEVEC_NAMED livevec_scanned livevec_scan_inclusive_least(livevec_vector *slot, uint32_t lo, uint32_t hi, int64_t *column, size_t length)
{ return livevec_scan(slot, LIVEVEC_LEAST, true, lo, hi, column, length); }
LIVEVEC_NAMED livevec_scanned livevec_scan_inclusive_greatest(livevec_vector *slot, uint32_t lo, uint32_t hi, int64_t *column, size_t length)
{ return livevec_scan(slot, LIVEVEC_GREATEST, true, lo, hi, column, length); }
LIVEVEC_NAMED livevec_scanned livevec_scan_inclusive_best(livevec_vector *slot, uint32_t lo, uint32_t hi, livevec_total *column, size_t length)
{ return livevec_scan(slot, LIVEVEC_BEST, true, lo, hi, column, length); }
LIVEVEC_NAMED livevec_scanned livevec_scan_inclusive_affine(livevec_vector *slot, uint32_t lo, uint32_t hi, livevec_map *column, size_t length)
{ return livevec_scan(slot, LIVEVEC_AFFINE, true, lo, hi, column, length); }
LIVEVEC_NAMED livevec_scanned livevec_scan_inclusive_automaton(livevec_vector *slot, uint32_t lo, uint32_t hi, livevec_states *column, size_t length)
{ return livevec_scan(slot, LIVEVEC_AUTOMATON, true, lo, hi, column, length); }
LIVEVEC_NAMED livevec_scanned livevec_scan_exclusive_sum(livevec_vector *slot, uint32_t lo, uint32_t hi, uint64_t *column, size_t length)
{ return livevec_scan(slot, LIVEVEC_SUM, false, lo, hi, column, length); }
LIVEVEC_NAMED livevec_scanned livevec_scan_exclusive_least(livevec_vector *slot, uint32_t lo, uint32_t hi, int64_t *column, size_t length)
{ return livevec_scan(slot, LIVEVEC_LEAST, false, lo, hi, column, length); }
LIVEVEC_NAMED livevec_scanned livevec_scan_exclusive_greatest(livevec_vector *slot, uint32_t lo, uint32_t hi, int64_t *column, size_t length)
{ return livevec_scan(slot, LIVEVEC_GREATEST, false, lo, hi, column, length); }
LIVEVEC_NAMED livevec_scanned livevec_scan_exclusive_best(livevec_vector *slot, uint32_t lo, uint32_t hi, livevec_total *column, size_t length)
{ return livevec_scan(slot, LIVEVEC_BEST, false, lo, hi, column, length); }
LIVEVEC_NAMED livevec_scanned livevec_scan_exclusive_affine(livevec_vector *slot, uint32_t lo, uint32_t hi, livevec_map *column, size_t length)
{ return livevec_scan(slot, LIVEVEC_AFFINE, false, lo, hi, column, length); }
LIVEVEC_NAMED livevec_scanned livevec_scan_exclusive_automaton(livevec_vector *slot, uint32_t lo, uint32_t hi, livevec_states *column, size_t length)
{ return livevec_scan(slot, LIVEVEC_AUTOMATON, false, lo, hi, column, length); }
/**@}*/

#endif
