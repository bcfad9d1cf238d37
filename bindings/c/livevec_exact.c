/* Exact sums, of a vector, a series or the values of samples, by proved calls that are told sums modulo 2^64. */
#include "livevec_slots.h"

__extension__ typedef __int128 wide;

/* Pieces of fewer elements than this are added up element by element: that is quicker than to ask for each. */
enum { LEAST_ASKED = 64 };

/* The values of a range by one kind, and an element, of what a slot holds that is entered. */
static livevec_series_reduced value_of(void *slot, bool is_series, uint32_t kind, uint64_t lo, uint64_t hi)
{
    if (is_series)
        return livevec_proved_series_value(slot, BY_KIND, kind, lo, hi);
    livevec_reduced told = livevec_proved_value(slot, BY_KIND, kind, (uint32_t)lo, (uint32_t)hi);
    return (livevec_series_reduced){.refusal = told.refusal, .edit = told.edit, .values = told.values};
}

static int64_t element_of(void *slot, bool is_series, uint64_t index)
{
    return is_series ? livevec_proved_series_get(slot, index, false).value : livevec_proved_get(slot, LIVEVEC_VECTOR, (uint32_t)index).value;
}

/* The sum of `many` elements, none of which is below `least`: the first number from `many` times that on with these low 64 bits. It is exact where
 * `many` times the difference of the greatest element and the least is below 2^64. */
static wide exact(uint64_t many, int64_t least, uint64_t sum)
{
    wide lowest = (wide)many * least;
    return lowest + (uint64_t)(sum - (uint64_t)lowest);
}

/* The sum of a range, in pieces for which the whole range's minimum and maximum leave one number each. */
static livevec_series_summed add_up(void *slot, bool is_series, uint64_t lo, uint64_t hi)
{
    livevec_series_reduced least = value_of(slot, is_series, LIVEVEC_LEAST, lo, hi), greatest = value_of(slot, is_series, LIVEVEC_GREATEST, lo, hi);
    /* a vector of one kind is asked for no other */
    uint32_t why = first_of(least.refusal, greatest.refusal);
    if (why && why != LIVEVEC_BAD_KIND)
        return (livevec_series_summed){.refusal = why, .first = least.first, .size = least.size};
    uint64_t spread = (uint64_t)greatest.values.greatest - (uint64_t)least.values.least, piece = why ? 1 : spread ? UINT64_MAX / spread : UINT64_MAX;
    wide sum = 0;
    for (uint64_t many; lo < hi; lo += many) {
        if (piece < LEAST_ASKED) {
            many = 1;
            sum += element_of(slot, is_series, lo);
            continue;
        }
        many = piece < hi - lo ? piece : hi - lo;
        livevec_series_reduced part = value_of(slot, is_series, LIVEVEC_SUM, lo, lo + many);
        if (part.refusal)
            return (livevec_series_summed){.refusal = part.refusal};
        sum += exact(many, least.values.least, part.values.sum);
    }
    return (livevec_series_summed){.edit = least.edit, .sum = {.low = (uint64_t)sum, .high = (int64_t)(sum >> 64)}};
}

static livevec_summed add_up_vector(livevec_vector *slot, uint32_t lo, uint32_t hi)
{
    livevec_scanned range = judge_range(slot, lo, hi);
    if (range.refusal)
        return (livevec_summed){.refusal = range.refusal, .detail = range.detail};
    livevec_series_summed told = add_up(slot, false, lo, hi);
    uint32_t edit = (uint32_t)livevec_proved_count(slot, LIVEVEC_VECTOR, ACCEPTED).value;
    return (livevec_summed){.refusal = told.refusal, .edit = edit, .sum = told.sum};
}

LOOKS_AT(livevec_summed, exact_sum, (livevec_vector *slot, uint32_t lo, uint32_t hi), THERE(slot), add_up_vector(slot, lo, hi))
LOOKS_AT(livevec_series_summed, series_exact_sum, (livevec_series *slot, uint64_t lo, uint64_t hi), THERE(slot), add_up(slot, true, lo, hi))
