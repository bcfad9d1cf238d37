/* What livevec over MPI takes, beside plain loops and MPI's own sum over plain arrays: `mpirun -np RANKS engines`. Rank 0 prints lines of a label,
 * nanoseconds, and how often the work was done in them; by one rank the plain loops too. Ends with 1 where two sides don't give the same. */
#include <livevec_mpi.h>

#include <stdio.h>
#include <stdlib.h>
#include <time.h>

enum { VECTORS = 16, IN_A_VECTOR = 1048568, ELEMENTS = VECTORS * IN_A_VECTOR, RANGES = 1000, FEW = 50, RUNNING = 100000 };

static int rank, ranks;
static livevec_mpi mpi;
static int64_t *elements;
static size_t first, count, held;
static livevec_vector vectors[VECTORS];
static livevec_values values[RUNNING];
static volatile uint64_t kept;

static void must(bool so, const char *what)
{
    if (so)
        return;
    fprintf(stderr, "rank %d: %s went wrong\n", rank, what);
    MPI_Abort(MPI_COMM_WORLD, 1);
}

static uint64_t next(uint64_t number)
{
    return number * 6364136223846793005u + 1442695040888963407u;
}

/* All ranks begin at once. */
static int64_t begin(void)
{
    struct timespec t;
    MPI_Barrier(MPI_COMM_WORLD);
    clock_gettime(CLOCK_MONOTONIC, &t);
    return (int64_t)t.tv_sec * 1000000000 + t.tv_nsec;
}

static void show(const char *label, int64_t start, int turns)
{
    struct timespec t;
    clock_gettime(CLOCK_MONOTONIC, &t);
    if (rank == 0)
        printf("%s by %d: %lld %d\n", label, ranks, (long long)t.tv_sec * 1000000000 + t.tv_nsec - (long long)start, turns);
}

/* This rank's share of the elements, as a plain array and in vectors whose summaries are computed. */
static void fill(void)
{
    uint64_t number = 1;
    held = VECTORS / (size_t)ranks;
    count = held * IN_A_VECTOR;
    first = (size_t)rank * count;
    elements = malloc(count * sizeof *elements);
    must(elements && held * (size_t)ranks == VECTORS, "the share of a rank");
    for (size_t i = 0; i < first + count; i++) {
        number = next(number);
        if (i >= first)
            elements[i - first] = (int64_t)(number >> 24) - ((int64_t)1 << 39);
    }
    for (size_t v = 0; v < held; v++) {
        must(!livevec_new(&vectors[v], 17, IN_A_VECTOR), "new");
        must(!livevec_push_many(&vectors[v], elements + v * IN_A_VECTOR, IN_A_VECTOR).refusal, "push");
        must(!livevec_refresh(&vectors[v], UINT32_MAX).refusal, "refresh");
    }
}

/* All six kinds by one plain loop, as the bodies have them. */
typedef struct six {
    uint64_t sum;
    int64_t least, greatest;
    __int128 ends, best;
    uint32_t a, b;
    uint8_t automaton[8];
} six;

static six plain_six(const int64_t *from, size_t length)
{
    six s = {0, INT64_MAX, INT64_MIN, 0, INT64_MIN, 1, 0, {0, 1, 2, 3, 4, 5, 6, 7}};
    for (size_t i = 0; i < length; i++) {
        int64_t x = from[i];
        s.sum += (uint64_t)x;
        s.least = x < s.least ? x : s.least;
        s.greatest = x > s.greatest ? x : s.greatest;
        s.ends = (s.ends > 0 ? s.ends : 0) + x;
        s.best = s.ends > s.best ? s.ends : s.best;
        s.a *= (uint32_t)(x >> 8);
        s.b = (uint32_t)(x >> 8) * s.b + (uint32_t)(x & 255);
        for (int q = 0; q < 8; q++)
            s.automaton[q] = (uint8_t)((2 * s.automaton[q] + (x & 3)) & 7);
    }
    return s;
}

static uint64_t plain_sum(const int64_t *from, size_t length)
{
    uint64_t sum = 0;
    for (size_t i = 0; i < length; i++)
        sum += (uint64_t)from[i];
    return sum;
}

static bool are_alike(const livevec_values *it, const six *plain)
{
    return it->sum == plain->sum && it->least == plain->least && it->greatest == plain->greatest && it->best_low == (uint64_t)plain->best &&
           it->best_high == (int64_t)(plain->best >> 64) && it->affine_b == plain->b && !memcmp(it->automaton, plain->automaton, 8);
}

static livevec_values opened(livevec_mpi_answer answer)
{
    must(!answer.error && !answer.refusal, "an answer");
    return livevec_summary_values(&answer.summary).values;
}

/* The elements of all ranks, folded where they lie and joined; beside them the sums alone, by plain loops and MPI's own sum. */
static void whole(void)
{
    uint64_t mine, all = 0;
    int64_t start = begin();
    livevec_mpi_answer told = livevec_mpi_reduce(&mpi, livevec_summary_of_elements(elements, count), 0, MPI_COMM_WORLD);
    show("fold of arrays", start, 1);
    start = begin();
    mine = plain_sum(elements, count);
    MPI_Reduce(&mine, &all, 1, MPI_UINT64_T, MPI_SUM, 0, MPI_COMM_WORLD);
    show("MPI_SUM of arrays", start, 1);
    if (rank == 0)
        must(opened(told).sum == all, "the sum of all");
    if (ranks == 1) {
        start = begin();
        six plain = plain_six(elements, count);
        show("plain loop", start, 1);
        show("plain element", start, ELEMENTS);
        livevec_values six_kinds = opened(told);
        must(are_alike(&six_kinds, &plain), "the fold of all");
    }
}

/* One answer for all ranks, of a random range of their vectors; beside it the sum of the same range of their arrays. */
static void ranges(void)
{
    uint64_t number = 7, ours = 0, theirs = 0;
    int64_t start = begin();
    for (int i = 0; i < RANGES; i++) {
        uint64_t a = (number = next(number)) >> 33, b = (number = next(number)) >> 33;
        a %= ELEMENTS + 1, b %= ELEMENTS + 1;
        livevec_values it = opened(livevec_mpi_range(&mpi, vectors, held, a < b ? a : b, a < b ? b : a, MPI_COMM_WORLD));
        ours += i < FEW ? it.sum : 0;
    }
    show("range answer", start, RANGES);
    number = 7;
    start = begin();
    for (int i = 0; i < FEW; i++) {
        uint64_t a = (number = next(number)) >> 33, b = (number = next(number)) >> 33, sum, mine;
        a %= ELEMENTS + 1, b %= ELEMENTS + 1;
        uint64_t lo = livevec_mpi_within_(a < b ? a : b, first, count), hi = livevec_mpi_within_(a < b ? b : a, first, count);
        mine = plain_sum(elements + lo, hi - lo);
        MPI_Allreduce(&mine, &sum, 1, MPI_UINT64_T, MPI_SUM, MPI_COMM_WORLD);
        theirs += sum;
    }
    show("range sum of arrays", start, FEW);
    must(ours == theirs, "the sums of ranges");
}

/* What travels and is joined, with nothing to fold; beside it one number. */
static void joins(void)
{
    livevec_summarised mine = livevec_mpi_over(vectors, held, 0, count);
    uint64_t number = (uint64_t)rank, sum = 0;
    int64_t start = begin();
    for (int i = 0; i < RANGES; i++)
        kept += opened(livevec_mpi_allreduce(&mpi, mine, MPI_COMM_WORLD)).sum;
    show("allreduce of summaries", start, RANGES);
    start = begin();
    for (int i = 0; i < RANGES; i++) {
        MPI_Allreduce(&number, &sum, 1, MPI_UINT64_T, MPI_SUM, MPI_COMM_WORLD);
        kept += sum;
    }
    show("allreduce of numbers", start, RANGES);
}

/* Running values of each rank's first elements, from what stands before them. */
static void running(void)
{
    livevec_mpi_answer before = livevec_mpi_exscan(&mpi, livevec_mpi_over(vectors, held, 0, count), MPI_COMM_WORLD);
    uint64_t sum = opened(before).sum;
    int64_t start = begin();
    must(!livevec_mpi_running(&before.summary, &vectors[0], 0, RUNNING, values, RUNNING).refusal, "running values");
    MPI_Barrier(MPI_COMM_WORLD);
    show("running values", start, RUNNING);
    for (int i = 0; i < RUNNING; i++)
        must(values[i].sum == (sum += (uint64_t)elements[i]), "running sums");
}

int main(int argc, char **argv)
{
    must(MPI_Init(&argc, &argv) == MPI_SUCCESS, "MPI_Init");
    MPI_Comm_rank(MPI_COMM_WORLD, &rank);
    MPI_Comm_size(MPI_COMM_WORLD, &ranks);
    must(livevec_mpi_begin(&mpi) == MPI_SUCCESS, "the operation");
    fill();
    for (int turn = 0; turn < 3; turn++) {
        whole();
        ranges();
        joins();
        running();
    }
    for (size_t v = 0; v < held; v++)
        livevec_free(&vectors[v]);
    free(elements);
    livevec_mpi_end(&mpi);
    return MPI_Finalize() == MPI_SUCCESS ? EXIT_SUCCESS : EXIT_FAILURE;
}
