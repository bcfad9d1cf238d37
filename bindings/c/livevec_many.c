/* Many pushes, writes and questions of a vector by one call. */
#include "livevec_slots.h"

static const uint32_t no_index[1];
static const int64_t no_value[1];

EDITS(livevec_pushed, push_many, (livevec_vector *slot, const int64_t *values, size_t length), first_of(THERE(slot), ARRAY(values, length)),
      push_all(slot, values, length))
EDITS(livevec_many, write_many, (livevec_vector *slot, const uint32_t *indices, const int64_t *values, size_t length),
      first_of(THERE(slot && (indices || !length)), ARRAY(values, length)),
      livevec_proved_edit_all(slot, false, length ? indices : no_index, length, length ? values : no_value, length))

/* What the first of some ranges that is refused is refused with, at a slot that is entered. An empty range is refused by its kind or
 * its slot alone. */
static livevec_many judge_ranges(livevec_vector *slot, uint32_t kind, const livevec_range *ranges, size_t length)
{
    livevec_reduced none = livevec_proved_value(slot, BY_KIND, kind, 0, 0);
    livevec_many answer = {.refusal = none.refusal, .edit = none.edit};
    if (answer.refusal)
        return answer;
    for (size_t i = 0; i < length; i++) {
        livevec_scanned range = judge_range(slot, ranges[i].lo, ranges[i].hi);
        if (range.refusal)
            return (livevec_many){.refusal = range.refusal, .detail = range.detail, .place = i};
    }
    answer.done = length;
    return answer;
}

static livevec_many answer_ranges(livevec_vector *slot, uint32_t kind, const livevec_range *ranges, livevec_values *answers, size_t length)
{
    livevec_many answer = judge_ranges(slot, kind, ranges, length);
    for (size_t i = 0; i < answer.done; i++)
        answers[i] = livevec_proved_value(slot, BY_KIND, kind, ranges[i].lo, ranges[i].hi).values;
    return answer;
}

LOOKS_AT(livevec_many, value_many, (livevec_vector *slot, uint32_t kind, const livevec_range *ranges, livevec_values *answers, size_t length),
         first_of(THERE(slot && (ranges || !length)), ARRAY(answers, length)), answer_ranges(slot, kind, ranges, answers, length))
