/* What the tests of what threads share have in common. */
#ifndef TESTS_SHARED_H
#define TESTS_SHARED_H

#include "tests.h"

#include <string.h>

/* What threads do beside one another. */
void shared_by_threads(void);

static inline void begin(livevec_shared *shared, livevec_vector *v, uint32_t edits)
{
    IS(livevec_new(v, 17, edits), 0);
    IS(livevec_shared_new(shared, v), 0);
}

static inline void watch(livevec_queries *set, const char *name, uint32_t kind)
{
    IS(livevec_queries_new(set), 0);
    IS(livevec_watch(set, name, strlen(name), kind, 0, UINT32_MAX), 0);
}

/* One push by a thread that enters for it, and the number that it is told. */
static inline uint64_t push(livevec_shared *shared, livevec_vector *v, int64_t value)
{
    if (livevec_shared_enter(shared) || livevec_push(v, value).refusal)
        return 0;
    return livevec_shared_leave(shared).edit;
}

#endif
