/** @file
 * How a refusal travels: in the bytes of a summary of version 0, which is none. Not for callers: livevec_mpi.h brings it, where its own
 * types are there. */
#ifndef LIVEVEC_MPI_REFUSALS_H
#define LIVEVEC_MPI_REFUSALS_H

static inline void livevec_mpi_put_(livevec_summary *into, size_t place, uint32_t word)
{
    for (unsigned i = 0; i < 4; i++)
        into->bytes[place + i] = (uint8_t)(word >> (8 * i));
}

static inline uint32_t livevec_mpi_got_(const livevec_summary *from, size_t place)
{
    uint32_t word = 0;
    for (unsigned i = 0; i < 4; i++)
        word |= (uint32_t)from->bytes[place + i] << (8 * i);
    return word;
}

static inline livevec_summary livevec_mpi_refused_(uint32_t refusal, uint32_t detail, int rank)
{
    livevec_summary none;
    memset(&none, 0, sizeof none);
    livevec_mpi_put_(&none, 8, refusal);
    livevec_mpi_put_(&none, 12, detail);
    livevec_mpi_put_(&none, 16, (uint32_t)rank);
    return none;
}

static inline bool livevec_mpi_is_refused_(const livevec_summary *summary)
{
    return !livevec_mpi_got_(summary, 0) && !livevec_mpi_got_(summary, 4) && livevec_mpi_got_(summary, 8);
}

/** The operation: each place of `right` becomes the join of that of `left` with it, or the first refusal of the two. */
static inline void livevec_mpi_join_(void *left, void *right, int *length, MPI_Datatype *type)
{
    const livevec_summary *first = (const livevec_summary *)left;
    livevec_summary *second = (livevec_summary *)right;
    (void)type;
    for (int i = 0; i < *length; i++) {
        livevec_summarised joined;
        if (livevec_mpi_is_refused_(&first[i])) {
            second[i] = first[i];
        } else if (!livevec_mpi_is_refused_(&second[i])) {
            joined = livevec_summary_join(&first[i], &second[i]);
            second[i] = joined.refusal ? livevec_mpi_refused_(joined.refusal, joined.detail, -1) : joined.summary;
        }
    }
}

/** What this rank hands in. */
static inline livevec_summary livevec_mpi_handed_in_(livevec_summarised mine, MPI_Comm comm)
{
    int rank = -1;
    if (!mine.refusal)
        return mine.summary;
    MPI_Comm_rank(comm, &rank);
    return livevec_mpi_refused_(mine.refusal, mine.detail, rank);
}

static inline livevec_mpi_answer livevec_mpi_no_(int error, uint32_t refusal, uint32_t detail, int rank)
{
    livevec_mpi_answer answer;
    memset(&answer, 0, sizeof answer);
    answer.error = error;
    answer.refusal = refusal;
    answer.detail = detail;
    answer.rank = rank;
    return answer;
}

/** The answer that came. Its bytes are looked at, for with one rank no join has done so. */
static inline livevec_mpi_answer livevec_mpi_came_(int error, const livevec_summary *came)
{
    livevec_mpi_answer answer;
    if (error != MPI_SUCCESS)
        return livevec_mpi_no_(error, LIVEVEC_OK, 0, -1);
    if (livevec_mpi_is_refused_(came))
        return livevec_mpi_no_(error, livevec_mpi_got_(came, 8), livevec_mpi_got_(came, 12), (int)livevec_mpi_got_(came, 16));
    answer = livevec_mpi_no_(error, livevec_summary_values(came).refusal, 0, -1);
    if (!answer.refusal)
        answer.summary = *came;
    return answer;
}

#endif
