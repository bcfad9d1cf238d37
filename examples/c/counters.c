/* Counters of events: four threads count into one board, without a lock, and a fifth sums while they do.
 *
 * Element k is the count of thread k. A thread that has counted BATCH events writes its count over: only it writes there, so
 * a try that another thread's edit outran is made again with the same number. What is printed is the same each time: the
 * counts at the end, and that no sum on the way was less than the one before or more than all events. */
#include <livevec.h>

#include <inttypes.h>
#include <pthread.h>
#include <stdatomic.h>
#include <stdio.h>
#include <stdlib.h>

enum { COUNTERS = 4, EVENTS = 20000, ALL = COUNTERS * EVENTS, BATCH = 10, TRIES = 100 };

typedef struct counter {
    livevec_seat seat;
    uint32_t place;
} counter;

/* Whether a count was refused, or a sum was none that it can be. */
static atomic_bool wrong;

/* Another thread was faster, and nothing has happened. */
static bool outrun(uint32_t refusal)
{
    return refusal == LIVEVEC_CONTENDED || refusal == LIVEVEC_OVERTAKEN;
}

static void *count(void *given)
{
    counter *mine = given;
    uint32_t refusal = LIVEVEC_OK;
    for (int64_t events = BATCH; events <= EVENTS && !refusal; events += BATCH)
        do
            refusal = livevec_seat_write(&mine->seat, mine->place, events, TRIES).refusal;
        while (outrun(refusal));
    if (refusal)
        wrong = true;
    return NULL;
}

/* Sums until all events are counted. A sum is of one moment, so it never falls. */
static void *watch(void *given)
{
    livevec_seat *seat = given;
    uint64_t before = 0;
    while (before < ALL && !wrong) {
        livevec_reduced now = livevec_seat_reduce(seat, 0, COUNTERS);
        if (outrun(now.refusal))
            continue;
        if (now.refusal || now.values.sum < before || now.values.sum > ALL)
            wrong = true;
        before = now.values.sum;
    }
    return NULL;
}

/* Closes the board and prints the counts. */
static void show(livevec_board *board)
{
    int64_t counts[COUNTERS];
    uint32_t size = 0;
    livevec_count closed = livevec_board_close(board);
    if (closed.refusal || livevec_closed_read(board, counts, COUNTERS, &size))
        exit(EXIT_FAILURE);
    for (uint32_t i = 0; i < size; i++)
        printf("counter %" PRIu32 ": %" PRId64 " events\n", i, counts[i]);
    printf("%" PRIu32 " edits in all\n", closed.value);
}

int main(void)
{
    static counter counters[COUNTERS];
    static livevec_seat watcher;
    livevec_board board = {0};
    pthread_t threads[COUNTERS + 1];
    if (livevec_board_new(&board, LIVEVEC_SUM, 1, 16777215, COUNTERS + 1) || livevec_board_sit(&board, &watcher))
        return EXIT_FAILURE;
    for (uint32_t i = 0; i < COUNTERS; i++) {
        counters[i].place = livevec_seat_push(&watcher, 0, TRIES).place; /* nobody else is there yet */
        if (livevec_board_sit(&board, &counters[i].seat))
            return EXIT_FAILURE;
    }
    if (pthread_create(&threads[COUNTERS], NULL, watch, &watcher))
        return EXIT_FAILURE;
    for (int i = 0; i < COUNTERS; i++)
        if (pthread_create(&threads[i], NULL, count, &counters[i]))
            return EXIT_FAILURE;
    for (int i = 0; i <= COUNTERS; i++)
        pthread_join(threads[i], NULL);
    for (int i = 0; i < COUNTERS; i++)
        if (livevec_board_take_back(&board, &counters[i].seat))
            return EXIT_FAILURE;
    if (livevec_board_take_back(&board, &watcher))
        return EXIT_FAILURE;
    show(&board);
    printf("the sums %s\n", wrong ? "went wrong" : "never fell, up to 80000");
    return livevec_free_board(&board) ? EXIT_FAILURE : EXIT_SUCCESS;
}
