/* A telemetry window that slides, by a series of livevec: what is older is forgotten by livevec_series_expire, and its memory comes back. */
#include <livevec.h>

#include <stdlib.h>

#include "window.h"

static livevec_series readings;

/* Ends the program where a call was refused. */
static void check(uint32_t refusal)
{
    if (!refusal)
        return;
    fprintf(stderr, "window: %s\n", livevec_refusal_text(refusal));
    exit(EXIT_FAILURE);
}

void take(const int64_t *values, size_t many)
{
    check(livevec_series_push_many(&readings, values, many).refusal);
}

void correct(uint64_t index, int64_t reading)
{
    check(livevec_series_write(&readings, index, reading).refusal);
}

void forget_before(uint64_t index)
{
    check(livevec_series_expire(&readings, index).refusal);
}

report look(uint64_t lo, uint64_t hi)
{
    livevec_series_reduced r = livevec_series_ask(&readings, lo, hi);
    check(r.refusal);
    return (report){(int64_t)r.values.sum, r.values.least, r.values.greatest};
}

uint64_t kept(void)
{
    return livevec_series_size(&readings).value - livevec_series_first(&readings).value;
}

int main(void)
{
    check(livevec_series_new(&readings));
    day();
    livevec_series_element forgotten = livevec_series_get(&readings, 0);
    printf("reading 0 is %s\n", forgotten.refusal == LIVEVEC_OUT_OF_RANGE && forgotten.first > 0 ? "forgotten" : "kept");
    check(livevec_free_series(&readings));
    return EXIT_SUCCESS;
}
