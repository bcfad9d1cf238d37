/** @file
 * livevec over MPI: what the elements of all ranks come to, joined in the order of the ranks. Header only, for C11 and C++17; link
 * what livevec.h links, and MPI.
 *
 * Each rank has a list of its own: a vector, some vectors end to end, or a range of them. All ranks' lists end to end, rank 0's
 * first, are the whole list. What travels is a livevec_summary of each, and MPI joins them by livevec_summary_join, left and right
 * kept. That join is proved; this header is tested.
 *
 * A rank hands in what livevec_summary_of answered, refused or not, and so never leaves the others waiting. A refusal travels in the
 * summary's place, as bytes that every function of livevec.h refuses with OTHER_VERSION, and each join keeps it. So every rank that
 * is told an answer with a refusal in it is told that refusal, and never a wrong number. MPI's own errors are told apart: MPI ends
 * the program at one, unless the communicator was told to return it (MPI_Comm_set_errhandler). A rank that dies ends all, by mpirun.
 *
 * A function that takes a communicator is called by all its ranks, with the same root and the same range, between MPI_Init and
 * MPI_Finalize. */
#ifndef LIVEVEC_MPI_H
#define LIVEVEC_MPI_H

#include "livevec.h"

#include <mpi.h>
#include <string.h>

#ifdef __cplusplus
extern "C" {
#endif

/** The datatype of a summary, and the operation that joins two, left and right kept. */
typedef struct livevec_mpi {
    MPI_Datatype summary; /**< the datatype */
    MPI_Op join;          /**< the operation */
} livevec_mpi;

/** What a call over the ranks answers. Where there is an error or a refusal the summary is zeros, which are no summary. */
typedef struct livevec_mpi_answer {
    int error;        /**< what MPI answered: MPI_SUCCESS, or a number for MPI_Error_string */
    uint32_t refusal; /**< why there is no answer, 0 where MPI's error is why, or there is one */
    uint32_t detail;  /**< of LIVEVEC_OUT_OF_RANGE at one rank the size there, else 0 */
    int rank;         /**< whose own summary was refused; -1 where it was a join, a range over all, or nothing */
    livevec_summary summary; /**< the summary */
} livevec_mpi_answer;

#include "livevec_mpi_refusals.h"

/* --- Begin and end --- */

/** Frees the datatype and the operation, where they are there. Answers MPI's error, or MPI_SUCCESS. Cost: O(1). */
static inline int livevec_mpi_end(livevec_mpi *mpi)
{
    int first = mpi->join == MPI_OP_NULL ? MPI_SUCCESS : MPI_Op_free(&mpi->join);
    int second = mpi->summary == MPI_DATATYPE_NULL ? MPI_SUCCESS : MPI_Type_free(&mpi->summary);
    return first != MPI_SUCCESS ? first : second;
}

/** Makes the datatype and the operation, once after MPI_Init. Answers MPI's error, or MPI_SUCCESS. A livevec_mpi_end is owed then. Cost: O(1). */
LIVEVEC_MUST_USE static inline int livevec_mpi_begin(livevec_mpi *mpi)
{
    int error;
    mpi->summary = MPI_DATATYPE_NULL, mpi->join = MPI_OP_NULL;
    error = MPI_Type_contiguous(LIVEVEC_SUMMARY_BYTES, MPI_BYTE, &mpi->summary);
    if (error == MPI_SUCCESS)
        error = MPI_Type_commit(&mpi->summary);
    if (error == MPI_SUCCESS)
        error = MPI_Op_create(livevec_mpi_join_, 0, &mpi->join);
    return error;
}

/* --- At one rank alone --- */

/** How many elements some vectors have together, or why that can't be told. */
static inline uint32_t livevec_mpi_size_(livevec_vector *vectors, size_t count, uint64_t *size)
{
    *size = 0;
    if (!vectors && count)
        return LIVEVEC_NULL;
    for (size_t i = 0; i < count; i++) {
        livevec_count told = livevec_size(&vectors[i]);
        if (told.refusal)
            return told.refusal;
        *size += told.value;
    }
    return LIVEVEC_OK;
}

/** Where a place of the whole list stands among `size` elements that begin at `start`. */
static inline uint64_t livevec_mpi_within_(uint64_t place, uint64_t start, uint64_t size)
{
    return place < start ? 0 : place - start < size ? place - start : size;
}

/** The summary of a range of the elements of some vectors, end to end. Of no vectors that is the one of livevec_summary_empty: where
 * automata have tables of their own, each rank needs a vector with that table, if an empty one.
 * Cost: as livevec_summary_of for each vector.
 * Refusals: NULL, BAD_RANGE, those of livevec_size, livevec_summary_of and livevec_summary_join, OUT_OF_RANGE. */
LIVEVEC_MUST_USE static inline livevec_summarised livevec_mpi_over(livevec_vector *vectors, size_t count, uint64_t lo, uint64_t hi)
{
    livevec_summarised all = livevec_summary_empty(), none, part;
    uint64_t start = 0, size;
    memset(&none, 0, sizeof none);
    none.refusal = !vectors && count ? LIVEVEC_NULL : lo > hi ? LIVEVEC_BAD_RANGE : LIVEVEC_OK;
    for (size_t i = 0; i < count && !none.refusal && !all.refusal; i++, start += size) {
        none.refusal = livevec_mpi_size_(&vectors[i], 1, &size);
        uint64_t from = livevec_mpi_within_(lo, start, size), to = livevec_mpi_within_(hi, start, size);
        if (none.refusal || (i && from == to))
            continue;
        part = livevec_summary_of(&vectors[i], (uint32_t)from, (uint32_t)to);
        all = !i || part.refusal ? part : livevec_summary_join(&all.summary, &part.summary);
    }
    if (!none.refusal && !all.refusal && hi > start) {
        none.refusal = LIVEVEC_OUT_OF_RANGE;
        none.detail = start > UINT32_MAX ? 0 : (uint32_t)start;
    }
    return none.refusal ? none : all;
}

/** What refuses the running values of a range, for a buffer of so many. */
static inline livevec_summarised livevec_mpi_judged_(const livevec_summary *before, livevec_vector *slot, uint32_t lo, uint32_t hi, bool there, size_t length)
{
    livevec_summarised judged;
    livevec_count size = livevec_size(slot);
    memset(&judged, 0, sizeof judged);
    if (!before || !slot || (!there && length)) {
        judged.refusal = LIVEVEC_NULL;
    } else if (size.refusal || lo > hi) {
        judged.refusal = size.refusal ? size.refusal : (uint32_t)LIVEVEC_BAD_RANGE;
    } else if (hi > size.value || length < hi - lo) {
        judged.refusal = hi > size.value ? LIVEVEC_OUT_OF_RANGE : LIVEVEC_SHORT_BUFFER;
        judged.detail = hi > size.value ? size.value : hi - lo;
    } else {
        judged = livevec_summary_extend(before, NULL, 0);
    }
    return judged;
}

/** The running values of a range of a vector whose elements stand behind others, of the summary `before`: buffer[i] has those of
 * these others, and then of the elements from lo up to lo + i, that one included. Writes hi - lo values; `length` is how many the
 * buffer takes. Answers the summary of all of them together, which is `before` for the rank's next vector. Each value is one of
 * livevec_summary_extend. Cost: O(hi - lo). Refusals: NULL, NO_HANDLE, BAD_RANGE, OUT_OF_RANGE, SHORT_BUFFER, OTHER_VERSION, DAMAGED, TOO_LONG; but
 * for TOO_LONG the buffer is then as it was. */
LIVEVEC_MUST_USE static inline livevec_summarised livevec_mpi_running(const livevec_summary *before, livevec_vector *slot, uint32_t lo, uint32_t hi,
                                                     livevec_values *buffer, size_t length)
{
    livevec_summarised all = livevec_mpi_judged_(before, slot, lo, hi, buffer != NULL, length);
    for (uint32_t i = lo; i < hi && !all.refusal; i++) {
        int64_t element = livevec_get(slot, i).value;
        all = livevec_summary_extend(&all.summary, &element, 1);
        buffer[i - lo] = livevec_summary_values(&all.summary).values;
    }
    return all;
}

/* --- Over the ranks --- */

/** The summary of all ranks' elements in the order of the ranks, told to the rank `root`. The others are told their own refusal, if
 * there is one, and else an answer whose summary is none.
 * Cost: one MPI_Reduce of 184 bytes. Refusals: those of `mine` at any rank, and those of livevec_summary_join; the first one in the order of the ranks, or one of a join. */
LIVEVEC_MUST_USE static inline livevec_mpi_answer livevec_mpi_reduce(const livevec_mpi *mpi, livevec_summarised mine, int root, MPI_Comm comm)
{
    livevec_summary sent = livevec_mpi_handed_in_(mine, comm), came;
    int rank = -1, error = MPI_Comm_rank(comm, &rank);
    if (error == MPI_SUCCESS)
        error = MPI_Reduce(&sent, &came, 1, mpi->summary, mpi->join, root, comm);
    if (error == MPI_SUCCESS && rank != root)
        return livevec_mpi_no_(error, mine.refusal, mine.detail, mine.refusal ? rank : -1);
    return livevec_mpi_came_(error, &came);
}

/** The same, told to all ranks. Cost: one MPI_Allreduce of 184 bytes. */
LIVEVEC_MUST_USE static inline livevec_mpi_answer livevec_mpi_allreduce(const livevec_mpi *mpi, livevec_summarised mine, MPI_Comm comm)
{
    livevec_summary sent = livevec_mpi_handed_in_(mine, comm), came;
    int error = MPI_Allreduce(&sent, &came, 1, mpi->summary, mpi->join, comm);
    return livevec_mpi_came_(error, &came);
}

/** The summary of the elements of all ranks before this one: at rank 0 that of no elements. With it livevec_mpi_running gives the
 * running values of this rank's own elements. Cost: one MPI_Exscan of 184 bytes. Refusals: as of livevec_mpi_reduce, at the ranks from this one back. */
LIVEVEC_MUST_USE static inline livevec_mpi_answer livevec_mpi_exscan(const livevec_mpi *mpi, livevec_summarised mine, MPI_Comm comm)
{
    livevec_summary sent = livevec_mpi_handed_in_(mine, comm), came;
    livevec_opened own = livevec_summary_values(&sent);
    int rank = -1, error = MPI_Comm_rank(comm, &rank);
    if (error == MPI_SUCCESS)
        error = MPI_Exscan(&sent, &came, 1, mpi->summary, mpi->join, comm);
    if (error == MPI_SUCCESS && rank == 0) /* where MPI leaves it as it was */
        came = own.refusal ? sent : livevec_summary_empty_with_table(&own.table).summary;
    if (error == MPI_SUCCESS && mine.refusal && !livevec_mpi_is_refused_(&came))
        came = sent;
    return livevec_mpi_came_(error, &came);
}

/** The summary of a range of the whole list, told to all ranks. Each rank has so many vectors, whose elements end to end are its own.
 * Cost: that of livevec_mpi_over, and two operations of MPI. Refusals: BAD_RANGE; those of livevec_mpi_over at any rank, and of livevec_summary_join; OUT_OF_RANGE where the ranks have fewer
 * elements than `hi`. */
LIVEVEC_MUST_USE static inline livevec_mpi_answer livevec_mpi_range(const livevec_mpi *mpi, livevec_vector *vectors, size_t count, uint64_t lo, uint64_t hi, MPI_Comm comm)
{
    uint64_t size, start = 0;
    livevec_summarised mine;
    livevec_mpi_answer answer;
    uint32_t refusal = livevec_mpi_size_(vectors, count, &size);
    int rank = -1, error = MPI_Comm_rank(comm, &rank);
    if (lo > hi)
        return livevec_mpi_no_(MPI_SUCCESS, LIVEVEC_BAD_RANGE, 0, -1);
    if (error == MPI_SUCCESS)
        error = MPI_Exscan(&size, &start, 1, MPI_UINT64_T, MPI_SUM, comm);
    if (error != MPI_SUCCESS)
        return livevec_mpi_no_(error, LIVEVEC_OK, 0, -1);
    start = rank == 0 ? 0 : start;
    memset(&mine, 0, sizeof mine);
    mine.refusal = refusal;
    if (!refusal)
        mine = livevec_mpi_over(vectors, count, livevec_mpi_within_(lo, start, size), livevec_mpi_within_(hi, start, size));
    answer = livevec_mpi_allreduce(mpi, mine, comm);
    if (answer.error == MPI_SUCCESS && !answer.refusal && livevec_summary_values(&answer.summary).count != hi - lo)
        return livevec_mpi_no_(MPI_SUCCESS, LIVEVEC_OUT_OF_RANGE, 0, -1);
    return answer;
}

#ifdef __cplusplus
}
#endif

#endif
