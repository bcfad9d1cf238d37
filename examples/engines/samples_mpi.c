/* Samples in all ranks of MPI: sums, extremes, best runs and running values of ranges that go over several ranks, also after an edit.
 *
 * Each rank has a share of the samples, in vectors of its own, and answers from them as long as it lives. samples_plain.c prints
 * the same.
 *
 * usage: mpirun -np RANKS samples_mpi [SAMPLES [IN_A_VECTOR [WEIGHT..]]]
 * As many samples go to each rank as its weight among all asks for, one weight for each rank; without weights, as many to each. */
#include <livevec_mpi.h>

#include "samples.h"

/* The most elements of a vector, and how many running values are made at once. */
enum { MOST = 1048568, AT_ONCE = 4096 };

static int rank, ranks;
static livevec_mpi mpi;
static uint64_t samples = 100000000, in_a_vector = MOST, first, end;
static livevec_vector *vectors;
static size_t count;

/* Ends all ranks where something was refused, with what and by whom. */
static void must(uint32_t refusal, const char *what)
{
    if (!refusal)
        return;
    fprintf(stderr, "rank %d: %s: %s\n", rank, what, livevec_refusal_text(refusal));
    MPI_Abort(MPI_COMM_WORLD, EXIT_FAILURE);
}

/* Where the share of a rank begins. */
static uint64_t start_of(int of, int argc, char **argv)
{
    uint64_t before = 0, all = 0;
    for (int r = 0; r < ranks; r++) {
        uint64_t weight = argc > 3 ? number(argv[3 + r]) : 1;
        all += weight;
        before += r < of ? weight : 0;
    }
    if (!all)
        must(LIVEVEC_BAD_LIMITS, "no rank has a weight");
    return samples * before / all;
}

/* Puts this rank's share into vectors, and computes their summaries, so that a question reads few of them. */
static void fill(void)
{
    int64_t block[AT_ONCE];
    count = end > first ? (end - first + in_a_vector - 1) / in_a_vector : 1;
    vectors = calloc(count, sizeof *vectors);
    must(vectors ? LIVEVEC_OK : LIVEVEC_NO_MEMORY, "vectors");
    for (size_t v = 0; v < count; v++) {
        uint64_t from = first + v * in_a_vector, to = from + in_a_vector < end ? from + in_a_vector : end;
        must(livevec_new(&vectors[v], 17, 16777215), "new");
        while (from < to) {
            size_t length = to - from < AT_ONCE ? to - from : AT_ONCE;
            for (size_t i = 0; i < length; i++)
                block[i] = sample(from + i);
            must(livevec_push_many(&vectors[v], block, length).refusal, "push");
            from += length;
        }
        must(livevec_refresh(&vectors[v], UINT32_MAX).refusal, "refresh");
    }
}

static answer answer_of(const livevec_summary *summary)
{
    livevec_opened told = livevec_summary_values(summary);
    must(told.refusal, "values");
    answer it = {told.count, (int64_t)told.values.sum, told.values.least, told.values.greatest, (int64_t)told.values.best_low, told.values.affine_a, told.values.affine_b};
    return it;
}

/* Asks all ranks for each range; rank 0 prints. */
static void ask_all(void)
{
    for (int i = 0; i < RANGES; i++) {
        uint64_t lo, hi;
        range_of(i, samples, &lo, &hi);
        livevec_mpi_answer told = livevec_mpi_range(&mpi, vectors, count, lo, hi, MPI_COMM_WORLD);
        must(told.refusal, "range");
        if (rank == 0)
            show(lo, hi, answer_of(&told.summary));
    }
}

/* The rank that has a sample overwrites it. */
static void overwrite(uint64_t index)
{
    if (index >= first && index < end)
        must(livevec_write(&vectors[(index - first) / in_a_vector], (uint32_t)((index - first) % in_a_vector), WRITTEN).refusal, "write");
    if (rank == 0)
        printf("sample %" PRIu64 " overwritten\n", index);
}

/* This rank's running values, from what stands before it. */
static running run_through(livevec_summary so_far)
{
    static livevec_values values[AT_ONCE];
    running seen = {.all = 0};
    uint64_t index = first;
    for (size_t v = 0; v < count; v++) {
        uint32_t size = livevec_size(&vectors[v]).value;
        for (uint32_t from = 0; from < size; from += AT_ONCE) {
            uint32_t to = size - from > AT_ONCE ? from + AT_ONCE : size;
            livevec_summarised after = livevec_mpi_running(&so_far, &vectors[v], from, to, values, AT_ONCE);
            must(after.refusal, "running values");
            for (uint32_t i = 0; i < to - from; i++)
                take_running(&seen, index++, samples, (int64_t)values[i].sum, (int64_t)values[i].best_low);
            so_far = after.summary;
        }
    }
    return seen;
}

/* All ranks' running values; rank 0 prints. Each place is one rank's, and zero at the others. */
static void run_all(void)
{
    running all;
    livevec_mpi_answer before = livevec_mpi_exscan(&mpi, livevec_mpi_over(vectors, count, 0, end - first), MPI_COMM_WORLD);
    must(before.refusal, "exscan");
    running mine = run_through(before.summary);
    MPI_Reduce(mine.sums, all.sums, PLACES, MPI_INT64_T, MPI_SUM, 0, MPI_COMM_WORLD);
    MPI_Reduce(mine.bests, all.bests, PLACES, MPI_INT64_T, MPI_SUM, 0, MPI_COMM_WORLD);
    MPI_Reduce(&mine.all, &all.all, 1, MPI_UINT64_T, MPI_SUM, 0, MPI_COMM_WORLD);
    if (rank == 0)
        show_running(&all, samples);
}

int main(int argc, char **argv)
{
    if (MPI_Init(&argc, &argv) != MPI_SUCCESS || livevec_mpi_begin(&mpi) != MPI_SUCCESS)
        return EXIT_FAILURE;
    MPI_Comm_rank(MPI_COMM_WORLD, &rank);
    MPI_Comm_size(MPI_COMM_WORLD, &ranks);
    samples = argc > 1 ? number(argv[1]) : samples;
    in_a_vector = argc > 2 ? number(argv[2]) : in_a_vector;
    must(in_a_vector < 1 || in_a_vector > MOST || (argc > 3 && argc != 3 + ranks) ? LIVEVEC_BAD_LIMITS : LIVEVEC_OK, "the command line");
    first = start_of(rank, argc, argv);
    end = start_of(rank + 1, argc, argv);
    fill();
    if (rank == 0)
        printf("%" PRIu64 " samples\n", samples);
    ask_all();
    if (samples)
        overwrite(samples / 2);
    ask_all();
    run_all();
    for (size_t v = 0; v < count; v++)
        livevec_free(&vectors[v]);
    free(vectors);
    livevec_mpi_end(&mpi);
    return MPI_Finalize() == MPI_SUCCESS ? EXIT_SUCCESS : EXIT_FAILURE;
}
