/* Series. */
#include "livevec_slots.h"

BEGUN(series_new, livevec_series, NEW_SERIES)
livevec_series_edited livevec_proved_series_edit(livevec_series *slot, uint32_t what, uint64_t index, uint64_t second, int64_t value);
ENTERED(livevec_series_edited, AS_STRUCT, series_make_edit, (livevec_series *slot, uint32_t edit, uint64_t index, uint64_t second, int64_t value),
        THERE(slot), slot, enter, series_edit(slot, edit, index, second, value))
VALUED(livevec_series_reduced, series_reduce, (livevec_series *slot, uint64_t lo, uint64_t hi), series_value(slot, AS_KEPT, 0, lo, hi))
VALUED(livevec_series_reduced, series_ask, (livevec_series *slot, uint64_t lo, uint64_t hi), series_value(slot, BY_TREES, 0, lo, hi))

COUNTED(livevec_series_count, series_first, livevec_series, LIVEVEC_SERIES, FIRST_KEPT)
COUNTED(livevec_series_count, series_size, livevec_series, LIVEVEC_SERIES, BEHIND_LAST)
COUNTED(livevec_series_count, series_edits, livevec_series, LIVEVEC_SERIES, SERIES_ACCEPTED)
COUNTED(livevec_series_count, series_saved_length, livevec_series, LIVEVEC_SERIES, SAVED_BYTES)

static livevec_series_element without_time(livevec_sample told)
{
    return (livevec_series_element){.refusal = told.refusal, .first = told.first, .size = told.size, .value = told.value};
}
LOOKS_AT(livevec_series_element, series_get, (livevec_series *slot, uint64_t index), THERE(slot),
         without_time(livevec_proved_series_get(slot, index, false)))

/* All pushes at once, or all writes, or none. */
static const uint64_t no_index[1];
static const int64_t no_value[1];

static livevec_series_pushed as_pushed(livevec_series_many told)
{
    return (livevec_series_pushed){.refusal = told.refusal, .edit = told.edit, .pushed = told.done};
}
EDITS(livevec_series_pushed, series_push_many, (livevec_series *slot, const int64_t *values, size_t length),
      first_of(THERE(slot), ARRAY(values, length)),
      as_pushed(livevec_proved_series_edit_all(slot, true, no_index, 0, length ? values : no_value, length)))
EDITS(livevec_series_many, series_write_many, (livevec_series *slot, const uint64_t *indices, const int64_t *values, size_t length),
      first_of(THERE(slot && (indices || !length)), ARRAY(values, length)),
      livevec_proved_series_edit_all(slot, false, length ? indices : no_index, length, length ? values : no_value, length))
LOOKS_AT(livevec_series_scanned, series_read, (livevec_series *slot, uint64_t lo, uint64_t hi, int64_t *buffer, size_t length),
         first_of(THERE(slot), ARRAY(buffer, length)), livevec_proved_series_read(slot, false, lo, hi, buffer ? buffer : &(int64_t){0}, length))

livevec_series_view livevec_series_lend(livevec_series *slot, uint64_t lo, uint64_t hi)
{
    static const int64_t nowhere[1];
    struct lent lent = {nowhere, 0};
    if (!slot)
        return (livevec_series_view){.refusal = LIVEVEC_NULL};
    if (!enter(&slot->busy_))
        return (livevec_series_view){.refusal = LIVEVEC_BUSY};
    livevec_series_scanned answer = livevec_proved_series_lend(slot, lo, hi, &lent);
    if (answer.refusal) {
        leave(&slot->busy_);
        return (livevec_series_view){.refusal = answer.refusal, .first = answer.first, .size = answer.size};
    }
    lend(&slot->busy_);
    return (livevec_series_view){.edit = answer.edit, .elements = lent.elements, .length = lent.length};
}

uint32_t livevec_series_give_back(livevec_series *slot)
{
    if (!slot)
        return LIVEVEC_NULL;
    switch (give_back(&slot->busy_)) {
    case LEFT: return LIVEVEC_NO_HANDLE;
    case LENT_OUT: return LIVEVEC_OK;
    default: return LIVEVEC_BUSY;
    }
}
