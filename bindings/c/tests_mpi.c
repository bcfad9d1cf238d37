/* Tests of livevec_mpi.h, run by any number of ranks: `mpirun -np N tests_mpi`. Expected values are worked out by plain loops over the elements of
 * all ranks. `tests_mpi killed` ends its last rank by a signal before it hands anything in, and `tests_mpi left` by leaving: no rank may print an
 * answer then. */
#include "livevec_mpi.h"

#include <signal.h>
#include <stdio.h>
#include <stdlib.h>

enum { VECTORS = 3, MOST = 64 };

static int rank, ranks;
static livevec_mpi mpi;
static livevec_vector vectors[VECTORS];

#define CHECK(claim)                                                                        \
    do {                                                                                    \
        if (!(claim)) {                                                                     \
            fprintf(stderr, "%s:%d: rank %d of %d: not so: %s\n", __FILE__, __LINE__, rank, ranks, #claim); \
            MPI_Abort(MPI_COMM_WORLD, 1);                                                   \
        }                                                                                   \
    } while (0)

/* How many elements each vector of a rank has: rank 1 has none, and the others have unlike numbers of them. */
static uint32_t size_of(int of, int vector)
{
    return of == 1 ? 0 : (uint32_t)((of * 7 + vector * 5) % 11);
}

static int64_t element(uint32_t index)
{
    return (int64_t)(index * 2654435761u % 2003) - 1001;
}

/* Where a rank's elements begin among those of all. */
static uint32_t start_of(int of)
{
    uint32_t start = 0;
    for (int r = 0; r < of; r++)
        for (int v = 0; v < VECTORS; v++)
            start += size_of(r, v);
    return start;
}

static void fill(void)
{
    uint32_t index = start_of(rank);
    for (int v = 0; v < VECTORS; v++) {
        CHECK(!livevec_new(&vectors[v], 17, 1000));
        for (uint32_t i = 0; i < size_of(rank, v); i++)
            CHECK(!livevec_push(&vectors[v], element(index++)).refusal);
    }
}

/* Whether a summary is that of the elements from lo up to hi, by a plain loop: sum, extremes, best run and the map. */
static bool is_of(const livevec_summary *summary, uint32_t lo, uint32_t hi)
{
    livevec_opened told = livevec_summary_values(summary);
    int64_t sum = 0, least = 0, greatest = 0, run = 0, best = 0;
    uint32_t a = 1, b = 0;
    for (uint32_t i = lo; i < hi; i++) {
        int64_t x = element(i);
        sum += x;
        least = i == lo || x < least ? x : least;
        greatest = i == lo || x > greatest ? x : greatest;
        run = i > lo && run > 0 ? run + x : x;
        best = i == lo || run > best ? run : best;
        a *= (uint32_t)(x >> 8);
        b = (uint32_t)(x >> 8) * b + (uint32_t)(x & 255);
    }
    return !told.refusal && told.count == hi - lo && told.values.any == (hi > lo) && (int64_t)told.values.sum == sum && told.values.least == least &&
           told.values.greatest == greatest && (int64_t)told.values.best_low == best && told.values.affine_a == a && told.values.affine_b == b;
}

static bool is_none(const livevec_summary *summary)
{
    return livevec_summary_values(summary).refusal == LIVEVEC_OTHER_VERSION;
}

static livevec_summarised own(void)
{
    return livevec_mpi_over(vectors, VECTORS, 0, start_of(rank + 1) - start_of(rank));
}

static void all_ranks_are_joined_in_their_order(void)
{
    uint32_t start = start_of(rank), all = start_of(ranks);
    for (int root = 0; root < ranks; root++) {
        livevec_mpi_answer answer = livevec_mpi_reduce(&mpi, own(), root, MPI_COMM_WORLD);
        CHECK(answer.error == MPI_SUCCESS && !answer.refusal && answer.rank == -1);
        CHECK(rank == root ? is_of(&answer.summary, 0, all) : is_none(&answer.summary));
    }
    livevec_mpi_answer told = livevec_mpi_allreduce(&mpi, own(), MPI_COMM_WORLD), before = livevec_mpi_exscan(&mpi, own(), MPI_COMM_WORLD);
    CHECK(!told.error && !told.refusal && is_of(&told.summary, 0, all));
    CHECK(!before.error && !before.refusal && is_of(&before.summary, 0, start));
}

static void each_range_is_told_to_all(void)
{
    uint32_t all = start_of(ranks);
    for (uint32_t lo = 0; lo <= all; lo++)
        for (uint32_t hi = lo; hi <= all; hi += 3) {
            livevec_mpi_answer told = livevec_mpi_range(&mpi, vectors, VECTORS, lo, hi, MPI_COMM_WORLD);
            CHECK(!told.error && !told.refusal && is_of(&told.summary, lo, hi));
        }
    livevec_mpi_answer past = livevec_mpi_range(&mpi, vectors, VECTORS, 0, all + 1, MPI_COMM_WORLD);
    CHECK(!past.error && past.refusal == LIVEVEC_OUT_OF_RANGE && past.rank == -1 && is_none(&past.summary));
    CHECK(livevec_mpi_range(&mpi, vectors, VECTORS, 2, 1, MPI_COMM_WORLD).refusal == LIVEVEC_BAD_RANGE);
}

static void running_values_go_on_from_rank_to_rank(void)
{
    livevec_values buffer[MOST];
    livevec_mpi_answer before = livevec_mpi_exscan(&mpi, own(), MPI_COMM_WORLD);
    livevec_summary so_far = before.summary;
    uint32_t index = start_of(rank);
    for (int v = 0; v < VECTORS; v++) {
        livevec_summarised after = livevec_mpi_running(&so_far, &vectors[v], 0, size_of(rank, v), buffer, MOST);
        CHECK(!after.refusal);
        for (uint32_t i = 0; i < size_of(rank, v); i++, index++) {
            livevec_summary wanted = livevec_summary_empty().summary;
            for (uint32_t j = 0; j <= index; j++) {
                int64_t x = element(j);
                wanted = livevec_summary_extend(&wanted, &x, 1).summary;
            }
            CHECK(is_of(&wanted, 0, index + 1));
            livevec_values values = livevec_summary_values(&wanted).values;
            CHECK(buffer[i].sum == values.sum && buffer[i].least == values.least && buffer[i].greatest == values.greatest);
            CHECK(buffer[i].best_low == values.best_low && buffer[i].best_high == values.best_high && buffer[i].affine_b == values.affine_b);
        }
        so_far = after.summary;
    }
    CHECK(is_of(&so_far, 0, start_of(rank + 1)));
}

static void running_values_are_refused(void)
{
    livevec_values buffer[MOST];
    livevec_vector none = {0}, two = {0};
    livevec_summary before = livevec_summary_empty().summary, zeros = {{0}};
    CHECK(!livevec_new(&two, 1, 10) && !livevec_push(&two, 1).refusal && !livevec_push(&two, 2).refusal);
    CHECK(livevec_mpi_running(NULL, &two, 0, 2, buffer, MOST).refusal == LIVEVEC_NULL);
    CHECK(livevec_mpi_running(&before, NULL, 0, 2, buffer, MOST).refusal == LIVEVEC_NULL);
    CHECK(livevec_mpi_running(&before, &two, 0, 2, NULL, MOST).refusal == LIVEVEC_NULL);
    CHECK(livevec_mpi_running(&before, &none, 0, 2, buffer, MOST).refusal == LIVEVEC_NO_HANDLE);
    CHECK(livevec_mpi_running(&before, &two, 2, 1, buffer, MOST).refusal == LIVEVEC_BAD_RANGE);
    CHECK(livevec_mpi_running(&before, &two, 0, 3, buffer, MOST).refusal == LIVEVEC_OUT_OF_RANGE);
    CHECK(livevec_mpi_running(&before, &two, 0, 2, buffer, 1).refusal == LIVEVEC_SHORT_BUFFER);
    CHECK(livevec_mpi_running(&zeros, &two, 0, 2, buffer, MOST).refusal == LIVEVEC_OTHER_VERSION);
    CHECK(!livevec_mpi_running(&before, &two, 1, 1, NULL, 0).refusal);
    CHECK(livevec_mpi_over(vectors, VECTORS, 2, 1).refusal == LIVEVEC_BAD_RANGE);
    CHECK(livevec_mpi_over(vectors, VECTORS, 0, 1000).refusal == LIVEVEC_OUT_OF_RANGE);
    CHECK(livevec_mpi_over(&none, 1, 0, 0).refusal == LIVEVEC_NO_HANDLE && livevec_mpi_over(NULL, 1, 0, 0).refusal == LIVEVEC_NULL);
    CHECK(!livevec_mpi_over(NULL, 0, 0, 0).refusal && !livevec_free(&two));
}

/* What is refused at one rank is told to all, with whose it is. */
static void a_refusal_travels(void)
{
    for (int wrong = 0; wrong < ranks; wrong++) {
        livevec_summarised mine = rank == wrong ? livevec_summary_of(&vectors[0], 0, 999) : own();
        livevec_mpi_answer told = livevec_mpi_allreduce(&mpi, mine, MPI_COMM_WORLD);
        CHECK(!told.error && told.refusal == LIVEVEC_OUT_OF_RANGE && told.detail == size_of(wrong, 0) && told.rank == wrong);
        CHECK(is_none(&told.summary));
        told = livevec_mpi_reduce(&mpi, mine, 0, MPI_COMM_WORLD);
        CHECK(!told.error && told.refusal == (rank == 0 || rank == wrong ? LIVEVEC_OUT_OF_RANGE : LIVEVEC_OK) && is_none(&told.summary));
        told = livevec_mpi_exscan(&mpi, mine, MPI_COMM_WORLD);
        CHECK(!told.error && told.refusal == (rank >= wrong ? LIVEVEC_OUT_OF_RANGE : LIVEVEC_OK));
        CHECK(rank >= wrong ? is_none(&told.summary) : is_of(&told.summary, 0, start_of(rank)));
    }
    livevec_vector none[1] = {0};
    livevec_mpi_answer told = livevec_mpi_range(&mpi, rank == ranks - 1 ? none : vectors, rank == ranks - 1 ? 1 : VECTORS, 0, 1, MPI_COMM_WORLD);
    CHECK(told.refusal == LIVEVEC_NO_HANDLE && told.rank == ranks - 1);
}

/* What was changed on its way is refused, and so are two tables and no summary at all. */
static void damage_is_refused(void)
{
    livevec_table table = {{{0}}};
    for (int wrong = 0; wrong < ranks; wrong++) {
        livevec_summarised mine = own();
        mine.summary.bytes[40] ^= rank == wrong;
        livevec_mpi_answer told = livevec_mpi_allreduce(&mpi, mine, MPI_COMM_WORLD);
        CHECK(!told.error && told.refusal == LIVEVEC_DAMAGED && told.rank == -1 && is_none(&told.summary));
        mine = own();
        if (rank == wrong)
            memset(&mine, 0, sizeof mine);
        CHECK(livevec_mpi_allreduce(&mpi, mine, MPI_COMM_WORLD).refusal == LIVEVEC_OTHER_VERSION);
        mine = rank == wrong ? livevec_summary_empty_with_table(&table) : own();
        CHECK(livevec_mpi_allreduce(&mpi, mine, MPI_COMM_WORLD).refusal == (ranks > 1 ? LIVEVEC_OTHER_TABLE : LIVEVEC_OK));
    }
    livevec_mpi_answer before = livevec_mpi_exscan(&mpi, livevec_summary_empty_with_table(&table), MPI_COMM_WORLD);
    CHECK(!before.refusal && !livevec_summary_values(&before.summary).table.next[0][1]);
}

/* MPI's own errors, where it was told to return them, are no refusals. */
static void errors_of_mpi_are_told(void)
{
    livevec_mpi_answer told;
    CHECK(MPI_Comm_set_errhandler(MPI_COMM_WORLD, MPI_ERRORS_RETURN) == MPI_SUCCESS);
    told = livevec_mpi_reduce(&mpi, own(), ranks, MPI_COMM_WORLD);
    CHECK(told.error != MPI_SUCCESS && !told.refusal && is_none(&told.summary));
    CHECK(MPI_Comm_set_errhandler(MPI_COMM_WORLD, MPI_ERRORS_ARE_FATAL) == MPI_SUCCESS);
}

int main(int argc, char **argv)
{
    if (MPI_Init(&argc, &argv) != MPI_SUCCESS)
        return EXIT_FAILURE;
    MPI_Comm_rank(MPI_COMM_WORLD, &rank);
    MPI_Comm_size(MPI_COMM_WORLD, &ranks);
    CHECK(livevec_mpi_begin(&mpi) == MPI_SUCCESS);
    fill();
    if (argc > 1 && rank == ranks - 1)
        strcmp(argv[1], "killed") ? exit(EXIT_SUCCESS) : (void)raise(SIGKILL);
    all_ranks_are_joined_in_their_order();
    each_range_is_told_to_all();
    running_values_go_on_from_rank_to_rank();
    running_values_are_refused();
    a_refusal_travels();
    damage_is_refused();
    errors_of_mpi_are_told();
    for (int v = 0; v < VECTORS; v++)
        CHECK(!livevec_free(&vectors[v]));
    CHECK(livevec_mpi_end(&mpi) == MPI_SUCCESS && livevec_mpi_end(&mpi) == MPI_SUCCESS);
    if (rank == 0)
        printf("%d ranks: each call answered as it should\n", ranks);
    return MPI_Finalize() == MPI_SUCCESS ? EXIT_SUCCESS : EXIT_FAILURE;
}
