/** @file
 * Part of livevec.h, which is what programs include: standing queries.
 *
 * Standing queries: names for queries by one kind, and notes of those whose answer has changed.
 *
 * A set of queries is an object of its own, beside the vector, the series or the samples (`&samples.values`) that it is asked of. After each edit, or
 * as often as one likes, a call tells which answers are others than were told last, or have crossed their bound since, in the order in which the
 * queries were named: called after each edit, it tells the notes of that edit. A set may be asked of several, and each note is against what was told
 * last, by whichever.
 *
 * A name is 1 to 16 bytes of a-z, 0-9 and _; it is not ended by a zero, its length is passed. A query's range may reach past the end: what of it
 * exists is asked. Before its first note a query counts as told its answer of no elements. What is computed is kept by the vector, as by
 * livevec_value, or by the series' trees, which are made for the kinds that are asked for: a query whose range no edit has touched costs a few steps
 * of the tree. Without memory for a tree of a series its kind goes over the elements instead. */
#ifndef LIVEVEC_QUERIES_H
#define LIVEVEC_QUERIES_H

/** What a call for notes answers at a series. */
typedef struct livevec_series_noted {
    uint32_t refusal; /**< why the call was refused, a ::livevec_refusal; 0 if it was not */
    uint32_t detail;  /**< as that of ::livevec_noted */
    uint64_t edit;    /**< the series' last edit; 0 if it was refused */
    uint32_t count;   /**< how many notes were told; 0 if it was refused */
} livevec_series_noted;

/** Puts a set without queries into an empty slot. Cost: O(1). Refusals: NULL, IN_USE, NO_MEMORY. The caller owes a livevec_free_queries. */
LIVEVEC_MUST_USE uint32_t livevec_queries_new(livevec_queries *slot);

/** Registers a query by a name: what a livevec_kind says of the elements of a range, told of at each change. Cost: O(q) for q queries. Refusals: NULL,
 * BAD_NAME, BAD_KIND (no kind), NO_HANDLE, BAD_RANGE, NAME_TAKEN, TOO_MANY (past 64), NO_MEMORY. */
LIVEVEC_MUST_USE uint32_t livevec_watch(livevec_queries *slot, const char *name, size_t name_length, uint32_t kind, uint32_t lo, uint32_t hi);

/** The same of any span, with or without a bound. Of the last so much time samples alone may be asked. Cost and refusals: as livevec_watch; BAD_KIND is
 * also for a number that is no livevec_span or no livevec_bound. */
LIVEVEC_MUST_USE uint32_t livevec_watch_query(livevec_queries *slot, const char *name, size_t name_length, const livevec_query *query);

/** Forgets a query; the others keep their order, and what they were told. Cost: O(q). Refusals: NULL, BAD_NAME, NO_HANDLE, NO_SUCH_NAME. */
LIVEVEC_MUST_USE uint32_t livevec_unwatch(livevec_queries *slot, const char *name, size_t name_length);

/** The answer of a query now, by a vector, and its last edit, as livevec_value answers. Nothing counts as told by it. Takes no memory. Reads. Cost:
 * O(q), and as livevec_value. Refusals: NULL, BAD_NAME, NO_HANDLE (of the set), NO_SUCH_NAME, NO_HANDLE (of the vector), BAD_KIND (not the
 * vector's, or of the last so much time). */
LIVEVEC_MUST_USE livevec_reduced livevec_answer(livevec_queries *slot, livevec_vector *vector, const char *name, size_t name_length);

/** The same by a series, or by samples. The kind's tree is made, if there is none. Reads. Cost: O(q), and as livevec_series_value. Refusals: as
 * livevec_answer; BAD_KIND is of the last so much time by a series. */
LIVEVEC_MUST_USE livevec_series_reduced livevec_series_answer(livevec_queries *slot, livevec_series *series, const char *name, size_t name_length);

/** Tells of each query, in the order in which they were named, of whose answer by a vector a note is due, into an array that takes `room` notes: all
 * of them, or none. Each query then counts as told its answer. What the array has behind the notes stays. If it was refused nothing is told, and the
 * array is as it was. The vector is as it was in any case. Takes no memory. A null pointer with room 0 is an empty array. Reads at the vector. Cost: as
 * livevec_value for each query. Refusals: NULL, NO_HANDLE (of the set, then of the vector), BAD_KIND (of the first query that may not be asked),
 * SHORT_BUFFER. */
LIVEVEC_MUST_USE livevec_noted livevec_notes(livevec_queries *slot, livevec_vector *vector, livevec_note *notes, size_t room);

/** The same by a series, or by samples. The trees of the kinds are made, if there are none; no answer changes by that. Reads at the series. Cost: as
 * livevec_series_value for each query. Refusals: as livevec_notes. */
LIVEVEC_MUST_USE livevec_series_noted livevec_series_notes(livevec_queries *slot, livevec_series *series, livevec_note *notes, size_t room);

/** Frees a set, and empties its slot. Cost: O(q). Refusals: NULL, NO_HANDLE. */
LIVEVEC_INLINE uint32_t livevec_free_queries(livevec_queries *slot) { return livevec_free_slot(slot, LIVEVEC_QUERIES); }

#endif
