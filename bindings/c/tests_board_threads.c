/* Eight threads at one board, each with a seat. */
#include "tests_board.h"

#include <pthread.h>

static const livevec_board empty_board;

/* Of each pushed element the second half of its rounds writes over it, and adds WRITTEN: so its value tells who has it. */
enum { THREADS = 8, ROUNDS = 200, TRIES = 3, WRITTEN = 100, EDITS = THREADS * ROUNDS * 2 };

typedef struct worker {
    livevec_seat seat;
    int64_t number;            /* 1 to 8, and what it pushes */
    uint32_t edits[ROUNDS * 2]; /* the numbers of its edits, in its order */
    uint32_t places[ROUNDS];
    int wrong;                 /* answers that no order of the edits gives */
} worker;

static bool again(uint32_t refusal)
{
    return refusal == LIVEVEC_CONTENDED || refusal == LIVEVEC_OVERTAKEN;
}

/* A sum of all that are there: each element is one number from 1 to 8, or that and WRITTEN, and this seat's own are among them. */
static void sums(worker *w, uint32_t own, uint32_t last)
{
    uint32_t size = livevec_seat_size(&w->seat).value;
    livevec_reduced r = livevec_seat_reduce(&w->seat, 0, size);
    if (again(r.refusal)) {
        w->wrong += r.detail <= last; /* what overtook it is no edit that it knew */
        return;
    }
    w->wrong += r.refusal != 0 || size < own || r.edit < last || r.edit > EDITS;
    w->wrong += r.values.sum < size || r.values.sum > (uint64_t)size * (THREADS + WRITTEN);
}

static livevec_edited push_until(worker *w)
{
    livevec_edited e;
    do
        e = livevec_seat_push(&w->seat, w->number, TRIES);
    while (again(e.refusal));
    return e;
}

static livevec_edited write_until(worker *w, uint32_t place)
{
    livevec_edited e;
    do
        e = livevec_seat_write(&w->seat, place, w->number + WRITTEN, TRIES);
    while (again(e.refusal));
    return e;
}

static void *work(void *given)
{
    worker *w = given;
    uint32_t last = 0;
    for (uint32_t i = 0; i < ROUNDS; i++) {
        livevec_edited e = push_until(w);
        w->wrong += e.refusal != 0 || e.edit <= last;
        w->edits[i] = last = e.edit;
        w->places[i] = e.place;
        sums(w, i + 1, last);
    }
    for (uint32_t i = 0; i < ROUNDS; i++) {
        livevec_edited e = write_until(w, w->places[i]);
        w->wrong += e.refusal != 0 || e.edit <= last || e.value != w->number;
        w->edits[ROUNDS + i] = last = e.edit;
        if (i % 8 == 0)
            livevec_seat_refresh(&w->seat, i / 8);
        sums(w, ROUNDS, last);
    }
    return NULL;
}

/* Each edit's number and each place was given once, and each element is as its thread wrote it last. */
static void agree(const worker *workers, const int64_t *elements)
{
    static unsigned char edit_seen[EDITS + 1], place_seen[THREADS * ROUNDS];
    int twice = 0, other = 0;
    for (int t = 0; t < THREADS; t++) {
        for (int i = 0; i < ROUNDS * 2; i++)
            twice += workers[t].edits[i] > EDITS || edit_seen[workers[t].edits[i]]++;
        for (int i = 0; i < ROUNDS; i++) {
            uint32_t place = workers[t].places[i];
            twice += place >= THREADS * ROUNDS || place_seen[place]++;
            other += elements[place] != workers[t].number + WRITTEN;
        }
        IS(workers[t].wrong, 0);
    }
    IS(twice, 0);
    IS(other, 0);
}

void threads_at_boards(void)
{
    static worker workers[THREADS];
    static int64_t elements[THREADS * ROUNDS];
    pthread_t threads[THREADS];
    livevec_board b = empty_board;
    uint32_t count = 0;
    IS(livevec_board_new(&b, LIVEVEC_SUM, 9, EDITS, THREADS), LIVEVEC_OK);
    for (int t = 0; t < THREADS; t++) {
        workers[t].number = t + 1;
        IS(livevec_board_sit(&b, &workers[t].seat), LIVEVEC_OK);
    }
    for (int t = 0; t < THREADS; t++)
        IS(pthread_create(&threads[t], NULL, work, &workers[t]), 0);
    for (int t = 0; t < THREADS; t++)
        IS(pthread_join(threads[t], NULL), 0);
    /* 200 elements of each of 101 to 108 */
    IS(livevec_seat_reduce(&workers[0].seat, 0, THREADS * ROUNDS).values.sum, 200 * (8 * 100 + 36));
    IS(livevec_seat_push(&workers[7].seat, 0, TRIES).refusal, LIVEVEC_WORN);
    for (int t = 0; t < THREADS; t++) {
        IS(livevec_board_close(&b).refusal, LIVEVEC_SEATS_OUT);
        IS(livevec_board_take_back(&b, &workers[t].seat), LIVEVEC_OK);
    }
    IS(livevec_board_close(&b).value, EDITS);
    IS(livevec_closed_read(&b, elements, THREADS * ROUNDS, &count), LIVEVEC_OK);
    IS(count, THREADS * ROUNDS);
    agree(workers, elements);
    IS(livevec_free_board(&b), LIVEVEC_OK);
}
