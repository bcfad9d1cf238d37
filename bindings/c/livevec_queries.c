/* Standing queries. A proved call is never given a null pointer: where there are no places for notes, they begin anywhere. */
#include "livevec_slots.h"

/* No name is as long as this, and so much of one that is longer is enough to refuse it. */
#define OF_NAME(length) ((length) > LIVEVEC_NAME_BYTES ? LIVEVEC_NAME_BYTES + 1 : (length))
#define NAMED const char *name, size_t name_length

BEGUN(queries_new, livevec_queries, NEW_QUERIES)
uint32_t livevec_proved_watch(livevec_queries *slot, NAMED, uint32_t kind, uint32_t span, uint64_t lo, uint64_t hi, uint32_t bound, int64_t x);
ENTERED(uint32_t, AS_NUMBER, watch, (livevec_queries *slot, NAMED, uint32_t kind, uint32_t lo, uint32_t hi), THERE(slot && name), slot, enter,
        watch(slot, name, OF_NAME(name_length), kind, LIVEVEC_BETWEEN, lo, hi, LIVEVEC_EACH_CHANGE, 0))
ENTERED(uint32_t, AS_NUMBER, watch_query, (livevec_queries *slot, NAMED, const livevec_query *query), THERE(slot && name && query), slot, enter,
        watch(slot, name, OF_NAME(name_length), query->kind, query->span, query->lo, query->hi, query->bound, query->x))
AT_ONE(uint32_t, AS_NUMBER, unwatch, (livevec_queries *slot, NAMED), THERE(slot && name), slot, enter, (slot, name, OF_NAME(name_length)))

/* The proved exports know one type of slot. They are asked of a vector as of a series, in numbers of 64 bits. */
livevec_series_reduced livevec_proved_answer(livevec_queries *slot, void *target, NAMED);
livevec_series_noted livevec_proved_notes(livevec_queries *slot, void *target, livevec_note *notes, size_t room);

#define PLACES(notes) ((notes) ? (notes) : &(livevec_note){.kind = 0})

/* Both are entered, to be asked and to be told of. */
#define ASKED(answer, function, parameters, target, ...) \
    IN_BOTH(answer, AS_STRUCT, function, parameters, THERE(slot && target && name), slot, enter_to_read, target, enter_to_read, __VA_ARGS__)
#define NOTED(answer, function, parameters, target, ...) \
    IN_BOTH(answer, AS_STRUCT, function, parameters, first_of(THERE(slot && target), ARRAY(notes, room)), slot, enter, target, enter_to_read, __VA_ARGS__)

ASKED(livevec_series_reduced, series_answer, (livevec_queries *slot, livevec_series *series, NAMED), series,
      livevec_proved_answer(slot, series, name, OF_NAME(name_length)))
NOTED(livevec_series_noted, series_notes, (livevec_queries *slot, livevec_series *series, livevec_note *notes, size_t room), series,
      livevec_proved_notes(slot, series, PLACES(notes), room))

/* The same in numbers of 32 bits. */
static livevec_reduced narrow(livevec_series_reduced told)
{
    return (livevec_reduced){.refusal = told.refusal, .edit = (uint32_t)told.edit, .values = told.values};
}
static livevec_noted narrow_notes(livevec_series_noted told)
{
    return (livevec_noted){.refusal = told.refusal, .detail = told.detail, .edit = (uint32_t)told.edit, .count = told.count};
}
ASKED(livevec_reduced, answer, (livevec_queries *slot, livevec_vector *vector, NAMED), vector,
      narrow(livevec_proved_answer(slot, vector, name, OF_NAME(name_length))))
NOTED(livevec_noted, notes, (livevec_queries *slot, livevec_vector *vector, livevec_note *notes, size_t room), vector,
      narrow_notes(livevec_proved_notes(slot, vector, PLACES(notes), room)))
