/** @file
 * Part of livevec.h, which is what programs include: samples, and series and samples as bytes.
 *
 * Samples: values with times, for windows of time.
 *
 * A sample is a time and a value. Times are 64-bit numbers in a unit of the caller's, and do not fall: a sample is put behind one of the same time
 * or an earlier one. Each sample has an index, as an element of a series has, and one count of edits is of both.
 *
 * The values are a series: `values`. All that a series is asked, by index, works at `&samples.values`: counts, elements, values by kinds, searches,
 * running values. So does each edit that leaves a value its time: pop, write, truncate and expire. Those that would not (livevec_series_push,
 * push_many, write_many, swap) are refused with NO_HANDLE there, and nothing has changed. A window of time is a range of indices:
 * livevec_samples_between and livevec_samples_last tell which.
 *
 * A sample takes 16 bytes, and a kind's tree as much as that of a series. */
#ifndef LIVEVEC_SAMPLES_H
#define LIVEVEC_SAMPLES_H

/** Samples. As any slot it starts as zeros. */
typedef struct livevec_samples {
    livevec_series values; /**< the values, for the calls of a series */
} livevec_samples;

/** A sample, 0 both if it was refused. */
typedef struct livevec_sample {
    uint32_t refusal; /**< why the call was refused, a ::livevec_refusal; 0 if it was not */
    uint64_t first; /**< of OUT_OF_RANGE which indices are kept, else 0 */
    uint64_t size; /**< and the index behind the last one, else 0 */
    int64_t time; /**< the time */
    int64_t value; /**< the value */
} livevec_sample;

/** Which samples are in a window of time: those under the indices from `lo` up to `hi`, so `hi - lo` of them. 0 if it was refused. */
typedef struct livevec_window {
    uint32_t refusal; /**< why the call was refused, a ::livevec_refusal; 0 if it was not */
    uint64_t edit; /**< after which edit these are the indices */
    uint64_t lo; /**< the index of the first */
    uint64_t hi; /**< the index behind the last */
} livevec_window;

/** Puts new samples into an empty slot: none yet. Cost: O(1). Refusals: NULL, IN_USE, NO_MEMORY. The caller owes a livevec_free_samples. */
LIVEVEC_MUST_USE uint32_t livevec_samples_new(livevec_samples *slot);

/** Frees samples and empties their slot, also while they are loaded; livevec_free_series at `&samples.values` does the same. Of a slot that holds
 * neither samples nor a series it frees nothing. Cost: O(1). Refusals: NULL, NO_HANDLE. */
LIVEVEC_INLINE uint32_t livevec_free_samples(livevec_samples *slot) { return livevec_free_slot(slot, LIVEVEC_SERIES); }

/** Puts a sample at the end. `place` is its index. O(1) amortised, and O(1) joins for each kind that has a tree. Of EARLIER, `value` is the time of
 * the last sample. Cost: O(1) amortised, for each tree too. Refusals: NULL, NO_HANDLE, WORN, FULL, EARLIER, NO_MEMORY. */
LIVEVEC_MUST_USE livevec_series_edited livevec_samples_push(livevec_samples *slot, int64_t time, int64_t value);

/** Pushes samples in order, up to the first that is refused: `done` tells how many were pushed, `refusal` why the next was not, and `place` which
 * that is. A null pointer with length 0 is an empty array. Cost: O(length) amortised, for each tree too. Refusals: NULL, and of the first that is
 * refused those of a push. */
LIVEVEC_MUST_USE livevec_series_many livevec_samples_push_many(livevec_samples *slot, const int64_t *times, const int64_t *values,
                                                               size_t length);

/** Drops the samples that were taken before a time. `place` is how many were dropped. Gives memory back as livevec_series_expire does. Cost: O(log
 * n), and O(1) amortised. Refusals: NULL, NO_HANDLE, WORN. */
LIVEVEC_MUST_USE livevec_series_edited livevec_samples_expire_before(livevec_samples *slot, int64_t time);

/** The sample under an index. Reads. Cost: O(1). Refusals: NULL, NO_HANDLE, OUT_OF_RANGE. */
LIVEVEC_MUST_USE livevec_sample livevec_samples_get(livevec_samples *slot, uint64_t index);

/** The times of a range of indices from its start on, as many as a buffer of `length` takes: livevec_series_read does the same of values. Reads.
 * Cost: O(length). Refusals: NULL, NO_HANDLE, BAD_RANGE, OUT_OF_RANGE. */
LIVEVEC_MUST_USE livevec_series_scanned livevec_samples_times(livevec_samples *slot, uint64_t lo, uint64_t hi, int64_t *buffer, size_t length);

/** The samples from time `since` up to `until`: one at `since` is among them, one at `until` isn't. O(log n). Takes no memory, changes nothing.
 * Reads. Cost: O(log n). Refusals: NULL, NO_HANDLE, BAD_RANGE (`until` is before `since`). */
LIVEVEC_MUST_USE livevec_window livevec_samples_between(livevec_samples *slot, int64_t since, int64_t until);

/** The samples of the last `span` of time: those whose times are above that of the last sample less `span`. Of a span of 0 there is none, and of 1
 * those with the last one's time. Costs as livevec_samples_between. Reads. Cost: O(log n). Refusals: NULL, NO_HANDLE. */
LIVEVEC_MUST_USE livevec_window livevec_samples_last(livevec_samples *slot, uint64_t span);

/** The plain value of a window by one livevec_kind: livevec_samples_between, then livevec_series_value of its indices, with nothing between them.
 * Reads. Cost: O(log n); the first query of the kind is O(n) and makes its tree. Refusals: NULL, NO_HANDLE, BAD_RANGE, BAD_KIND, NO_MEMORY. */
LIVEVEC_MUST_USE livevec_series_reduced livevec_samples_value(livevec_samples *slot, uint32_t kind, int64_t since, int64_t until);

/** The same of the last `span` of time. Reads. Cost: O(log n); the first query of the kind is O(n) and makes its tree. Refusals: NULL, NO_HANDLE,
 * BAD_KIND, NO_MEMORY. */
LIVEVEC_MUST_USE livevec_series_reduced livevec_samples_value_of_last(livevec_samples *slot, uint32_t kind, uint64_t span);

/* --- Series and samples as bytes.
 *
 * What is saved can be loaded again, and goes on at the same indices and edit numbers. Trees aren't saved: they are made when a kind is
 * first asked for. The layout is told in docs/formats.md, and has a version and a checksum. */

/** How many bytes a series, or samples (`&samples.values`), are saved as: 88, and 8 for each element, 16 for each sample. Reads. Cost: O(1).
 * Refusals: NULL, NO_HANDLE. */
LIVEVEC_MUST_USE livevec_series_count livevec_series_saved_length(livevec_series *slot);

/** Puts the bytes of a series, or of samples, from the place `from` on into a buffer, as many as it takes in whole numbers of 8: `length` is how
 * many, 0 at the end. The next piece starts at `from` and so many. `edit` is the number of the last edit: pieces between which it rose are not of
 * one series. Takes no memory, changes nothing. The piece with the last 8 bytes, the checksum, goes over all elements. Reads. Cost: O(length); the
 * piece with the checksum O(n). Refusals: NULL, BAD_RANGE (`from` is no multiple of 8), NO_HANDLE. */
LIVEVEC_MUST_USE livevec_series_scanned livevec_series_save(livevec_series *slot, uint64_t from, uint8_t *buffer, size_t length);

/**@{*/
/** Loading, in three steps: begin with an empty slot, give the bytes in order in pieces of any length, and end. Until it has ended, other calls at
 * the slot answer NO_HANDLE. What was given is in memory until the end; freeing the slot gives it up. The end refuses with NOT_SAVED what are not
 * exactly the bytes of a series, or of samples, and with NO_MEMORY. The slot is empty then. Cost: O(1) to begin, O(length) amortised for a piece,
 * O(n) to end. Refusals: of a begin NULL, IN_USE, NO_MEMORY; of the others NULL, NO_HANDLE, and NO_MEMORY, of a piece with nothing changed. */
LIVEVEC_MUST_USE uint32_t livevec_series_begin_load(livevec_series *slot);
LIVEVEC_MUST_USE uint32_t livevec_series_load(livevec_series *slot, const uint8_t *bytes, size_t length);
LIVEVEC_MUST_USE uint32_t livevec_series_end_load(livevec_series *slot);
/**@}*/

/**@{*/
/** The same of samples, whose bytes are given by livevec_series_load too, at `&samples.values`. Cost: as of a series. */
LIVEVEC_MUST_USE uint32_t livevec_samples_begin_load(livevec_samples *slot);
LIVEVEC_MUST_USE uint32_t livevec_samples_end_load(livevec_samples *slot);
/**@}*/

#endif
