/* The twin of samples_mpi.c: one process, and a plain loop for each question.
 *
 * usage: samples_plain [SAMPLES] */
#include "samples.h"

static uint64_t samples;
static bool overwritten;

static int64_t at(uint64_t index)
{
    return overwritten && index == samples / 2 ? WRITTEN : sample(index);
}

static void take(answer *it, int64_t *run, int64_t x)
{
    *run = it->count && *run > 0 ? *run + x : x;
    it->least = !it->count || x < it->least ? x : it->least;
    it->greatest = !it->count || x > it->greatest ? x : it->greatest;
    it->best = !it->count || *run > it->best ? *run : it->best;
    it->sum += x;
    it->a *= (uint32_t)(x >> 8);
    it->b = (uint32_t)(x >> 8) * it->b + (uint32_t)(x & 255);
    it->count++;
}

static void ask(uint64_t lo, uint64_t hi)
{
    answer it = {.a = 1};
    int64_t run = 0;
    for (uint64_t i = lo; i < hi; i++)
        take(&it, &run, at(i));
    show(lo, hi, it);
}

static void run_through(void)
{
    running seen = {.all = 0};
    answer it = {.a = 1};
    int64_t run = 0;
    for (uint64_t i = 0; i < samples; i++) {
        take(&it, &run, at(i));
        take_running(&seen, i, samples, it.sum, it.best);
    }
    show_running(&seen, samples);
}

int main(int argc, char **argv)
{
    samples = argc > 1 ? number(argv[1]) : 100000000;
    printf("%" PRIu64 " samples\n", samples);
    for (int turn = 0; turn < 2; turn++) {
        for (int i = 0; i < RANGES; i++) {
            uint64_t lo, hi;
            range_of(i, samples, &lo, &hi);
            ask(lo, hi);
        }
        if (!turn && samples)
            printf("sample %" PRIu64 " overwritten\n", samples / 2);
        overwritten = true;
    }
    run_through();
    return EXIT_SUCCESS;
}
