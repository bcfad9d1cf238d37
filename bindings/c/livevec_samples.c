/* Samples, and series and samples as bytes. A proved call is never given a null pointer: an array of nothing begins anywhere. */
#include "livevec_slots.h"

/* What samples and a series have in common is done at `values`. The proved exports know one type of slot. */
livevec_series_edited livevec_proved_samples_edit(livevec_series *slot, bool expires, int64_t time, int64_t value);
livevec_window livevec_proved_samples_window(livevec_series *slot, bool last, int64_t since, int64_t until, uint64_t span);

/* `livevec_NAME` at the values of samples. */
#define AT_VALUES(answer, as, name, parameters, as_slot, call) ENTERED(answer, as, name, parameters, THERE(slot), &slot->values, as_slot, call)

AT_VALUES(uint32_t, AS_NUMBER, samples_new, (livevec_samples *slot), enter, begin(&slot->values, NEW_SAMPLES))
AT_VALUES(livevec_series_edited, AS_STRUCT, samples_push, (livevec_samples *slot, int64_t time, int64_t value),
          enter, samples_edit(&slot->values, false, time, value))
AT_VALUES(livevec_series_edited, AS_STRUCT, samples_expire_before, (livevec_samples *slot, int64_t time),
          enter, samples_edit(&slot->values, true, time, 0))
AT_VALUES(livevec_sample, AS_STRUCT, samples_get, (livevec_samples *slot, uint64_t index), enter_to_read, series_get(&slot->values, index, true))
AT_VALUES(livevec_window, AS_STRUCT, samples_between, (livevec_samples *slot, int64_t since, int64_t until),
          enter_to_read, samples_window(&slot->values, false, since, until, 0))
AT_VALUES(livevec_window, AS_STRUCT, samples_last, (livevec_samples *slot, uint64_t span), enter_to_read, samples_window(&slot->values, true, 0, 0, span))
ENTERED(livevec_series_scanned, AS_STRUCT, samples_times, (livevec_samples *slot, uint64_t lo, uint64_t hi, int64_t *buffer, size_t length),
        first_of(THERE(slot), ARRAY(buffer, length)), &slot->values, enter_to_read, series_read(&slot->values, true, lo, hi, buffer ? buffer : &(int64_t){0}, length))

/* Pushes up to the first that is refused. */
static livevec_series_many push_samples(livevec_series *slot, const int64_t *times, const int64_t *values, size_t length)
{
    livevec_window none = livevec_proved_samples_window(slot, true, 0, 0, 0);
    livevec_series_many answer = {.refusal = none.refusal, .edit = none.edit};
    for (; !answer.refusal && answer.done < length; answer.done++) {
        livevec_series_edited pushed = livevec_proved_samples_edit(slot, false, times[answer.done], values[answer.done]);
        if (pushed.refusal) {
            answer.refusal = pushed.refusal;
            answer.place = answer.done;
            break;
        }
        answer.edit = pushed.edit;
    }
    return answer;
}
IN_SLOT(livevec_series_many, AS_STRUCT, samples_push_many, (livevec_samples *slot, const int64_t *times, const int64_t *values, size_t length),
        first_of(THERE(slot && (times || !length)), ARRAY(values, length)), &slot->values, enter, push_samples(&slot->values, times, values, length))

/* The value of a window of a slot that is entered. */
static livevec_series_reduced value_in(livevec_series *values, uint32_t kind, livevec_window window)
{
    if (window.refusal)
        return (livevec_series_reduced){.refusal = window.refusal};
    return livevec_proved_series_value(values, BY_KIND, kind, window.lo, window.hi);
}

#define VALUED_IN(name, parameters, kind, ...) \
    IN_SLOT(livevec_series_reduced, AS_STRUCT, name, parameters, THERE(slot), &slot->values, enter_to_read, \
            value_in(&slot->values, kind, livevec_proved_samples_window(&slot->values, __VA_ARGS__)))

VALUED_IN(samples_value, (livevec_samples *slot, uint32_t kind, int64_t since, int64_t until), kind, false, since, until, 0)
VALUED_IN(samples_value_of_last, (livevec_samples *slot, uint32_t kind, uint64_t span), kind, true, 0, 0, span)

/* As bytes. */
ENTERED(livevec_series_scanned, AS_STRUCT, series_save, (livevec_series *slot, uint64_t from, uint8_t *buffer, size_t length),
        first_of(THERE(slot), ARRAY(buffer, length)), slot, enter_to_read, series_save(slot, from, buffer ? buffer : &(uint8_t){0}, length))
BEGUN(series_begin_load, livevec_series, NEW_LOADER)
ENTERED(uint32_t, AS_NUMBER, series_load, (livevec_series *slot, const uint8_t *bytes, size_t length), first_of(THERE(slot), ARRAY(bytes, length)), slot,
        enter, series_load(slot, bytes ? bytes : &(uint8_t){0}, length))
ENTERED(uint32_t, AS_NUMBER, series_end_load, (livevec_series *slot), THERE(slot), slot, enter, series_end_load(slot, false))
AT_VALUES(uint32_t, AS_NUMBER, samples_begin_load, (livevec_samples *slot), enter, begin(&slot->values, NEW_LOADER))
AT_VALUES(uint32_t, AS_NUMBER, samples_end_load, (livevec_samples *slot), enter, series_end_load(&slot->values, true))
