/* What plain loops make of elements, and numbers to try: for the tests of livevec.h to compare with. */
#ifndef TESTS_PLAIN_H
#define TESTS_PLAIN_H

#include "livevec.h"

__extension__ typedef __int128 wide;

/* The next number, from 0 up to `bound`, of the sequence that a state is of. */
uint32_t draw(uint64_t *state, uint32_t bound);

/* The next element: a small one as a rule, and now and then one of the greatest. */
int64_t draw_element(uint64_t *state);

/* The table of a vector that has none of its own. */
livevec_table usual_table(void);

/* The values of some elements, and the best total that ends with the last one. */
typedef struct running {
    livevec_values values;
    wide ending, best;
} running;

/* Those of no elements, and those with one element more. */
running of_none(void);
running with(running before, int64_t x, const livevec_table *table);

/* All six of some elements, by a loop. */
livevec_values plainly(const int64_t *xs, size_t length, const livevec_table *table);

/* Of all six what is told by one kind. */
livevec_values only(livevec_values all, uint32_t kind);

/* Whether two are the same, and the same as checks of each. */
bool same(livevec_values a, livevec_values b);
void alike(livevec_values got, livevec_values wanted);

#endif
