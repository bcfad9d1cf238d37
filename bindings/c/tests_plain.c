/* The plain loops that tests compare with, as tests_plain.h names them. */
#include "tests_plain.h"

#include "tests.h"

#include <string.h>

uint32_t draw(uint64_t *state, uint32_t bound)
{
    *state = *state * 6364136223846793005u + 1442695040888963407u;
    return (uint32_t)(*state >> 33) % bound;
}

int64_t draw_element(uint64_t *state)
{
    switch (draw(state, 12)) {
    case 0: return INT64_MAX - draw(state, 3);
    case 1: return INT64_MIN + draw(state, 3);
    default: return (int64_t)draw(state, 2001) - 1000;
    }
}

livevec_table usual_table(void)
{
    livevec_table table;
    for (int q = 0; q < 8; q++)
        for (int c = 0; c < 4; c++)
            table.next[q][c] = (uint8_t)((2 * q + c) % 8);
    return table;
}

running of_none(void)
{
    running r = {.values = {.affine_a = 1}};
    for (uint8_t q = 0; q < 8; q++)
        r.values.automaton[q] = q;
    return r;
}

running with(running before, int64_t x, const livevec_table *table)
{
    livevec_values v = before.values;
    wide ending = before.ending, best = before.best;
    int64_t low = ((x % 256) + 256) % 256;
    uint32_t a = (uint32_t)(uint64_t)((x - low) / 256);
    v.sum += (uint64_t)x;
    v.least = !v.any || x < v.least ? x : v.least;
    v.greatest = !v.any || x > v.greatest ? x : v.greatest;
    ending = !v.any || ending < 0 ? x : ending + x;
    best = !v.any || best < ending ? ending : best;
    v.best_low = (uint64_t)best;
    v.best_high = (int64_t)(best >> 64);
    v.affine_a = a * v.affine_a;
    v.affine_b = a * v.affine_b + (uint32_t)low;
    for (int q = 0; q < 8; q++)
        v.automaton[q] = table->next[v.automaton[q]][low % 4];
    v.any = true;
    return (running){v, ending, best};
}

livevec_values plainly(const int64_t *xs, size_t length, const livevec_table *table)
{
    running r = of_none();
    for (size_t i = 0; i < length; i++)
        r = with(r, xs[i], table);
    return r.values;
}

livevec_values only(livevec_values all, uint32_t kind)
{
    livevec_values v = {.any = all.any};
    switch (kind) {
    case LIVEVEC_SUM: v.sum = all.sum; break;
    case LIVEVEC_LEAST: v.least = all.least; break;
    case LIVEVEC_GREATEST: v.greatest = all.greatest; break;
    case LIVEVEC_BEST: v.best_low = all.best_low, v.best_high = all.best_high; break;
    case LIVEVEC_AFFINE: v.affine_a = all.affine_a, v.affine_b = all.affine_b; break;
    case LIVEVEC_AUTOMATON: memcpy(v.automaton, all.automaton, sizeof v.automaton); break;
    }
    return v;
}

bool same(livevec_values a, livevec_values b)
{
    return a.sum == b.sum && a.least == b.least && a.greatest == b.greatest && a.best_low == b.best_low && a.best_high == b.best_high &&
           a.affine_a == b.affine_a && a.affine_b == b.affine_b && !memcmp(a.automaton, b.automaton, sizeof a.automaton) && a.any == b.any;
}

void alike(livevec_values got, livevec_values wanted)
{
    IS(got.sum, wanted.sum);
    IS(got.any, wanted.any);
    IS(got.least, wanted.least);
    IS(got.greatest, wanted.greatest);
    IS(got.best_low, wanted.best_low);
    IS(got.best_high, wanted.best_high);
    IS(got.affine_a, wanted.affine_a);
    IS(got.affine_b, wanted.affine_b);
    IS(memcmp(got.automaton, wanted.automaton, 8), 0);
}
