/* Series by one kind, and their scans. */
#include "livevec_slots.h"

AT_ONE(uint32_t, AS_NUMBER, series_prepare, (livevec_series *slot, uint32_t kind), THERE(slot), slot, enter_to_read, (slot, kind))
VALUED(livevec_series_reduced, series_value, (livevec_series *slot, uint32_t kind, uint64_t lo, uint64_t hi), series_value(slot, BY_KIND, kind, lo, hi))

/* What many questions at a series whose slot is entered are refused with: all of them, or the first range that is. The kind's tree is made
 * where none is, so that no question is refused then. */
static livevec_series_many judge_series_ranges(livevec_series *slot, uint32_t kind, const livevec_series_range *ranges, size_t length)
{
    uint32_t why = livevec_proved_series_value(slot, BY_KIND, kind, 1, 0).refusal;
    if (why != LIVEVEC_BAD_RANGE)
        return (livevec_series_many){.refusal = why};
    for (size_t i = 0; i < length; i++) {
        livevec_series_scanned range = livevec_proved_series_read(slot, false, ranges[i].lo, ranges[i].hi, &(int64_t){0}, 0);
        if (range.refusal)
            return (livevec_series_many){.refusal = range.refusal, .first = range.first, .size = range.size, .place = i};
    }
    why = livevec_proved_series_prepare(slot, kind);
    if (why)
        return (livevec_series_many){.refusal = why};
    return (livevec_series_many){.edit = livevec_proved_count(slot, LIVEVEC_SERIES, SERIES_ACCEPTED).value, .done = length};
}

static livevec_series_many answer_ranges(livevec_series *slot, uint32_t kind, const livevec_series_range *ranges, livevec_values *answers, size_t length)
{
    livevec_series_many answer = judge_series_ranges(slot, kind, ranges, length);
    for (size_t i = 0; i < answer.done; i++)
        answers[i] = livevec_proved_series_value(slot, BY_KIND, kind, ranges[i].lo, ranges[i].hi).values;
    return answer;
}

LOOKS_AT(livevec_series_many, series_value_many,
         (livevec_series *slot, uint32_t kind, const livevec_series_range *ranges, livevec_values *answers, size_t length),
         first_of(THERE(slot && (ranges || !length)), ARRAY(answers, length)), answer_ranges(slot, kind, ranges, answers, length))

livevec_series_found livevec_proved_series_find(livevec_series *slot, uint32_t wanted, int64_t x, uint64_t lo, uint64_t hi);
ENTERED(livevec_series_found, AS_STRUCT, series_find, (livevec_series *slot, uint32_t wanted, uint64_t lo, uint64_t hi, int64_t x), THERE(slot), slot,
        enter_to_read, series_find(slot, wanted, x, lo, hi))

/* Scans: a proved call fills a piece of the column. */
livevec_series_scanned livevec_proved_series_scan(livevec_series *slot, uint32_t by, uint64_t lo, uint64_t at, uint64_t hi, bool inclusive, COLUMNS);
LOOKS_AT(livevec_series_scanned, series_scan,
         (livevec_series *slot, uint32_t kind, bool inclusive, uint64_t lo, uint64_t at, uint64_t hi, void *column, size_t length),
         first_of(THERE(slot), judge_column(kind, column, length)), livevec_proved_series_scan(slot, kind, lo, at, hi, inclusive, COLUMNS_OF(kind)))
