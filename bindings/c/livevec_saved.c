/* A vector as bytes, and back. They are the bytes of a series of its elements, which is made for the call: so only the proved exports write and read
 * the layout. */
#include "livevec_slots.h"

/* As docs/formats.md says: what stands in front of the elements and behind them, and each element. */
enum { AROUND_SAVED = 88, EACH_SAVED = 8 };

/* So many elements are copied at once. */
enum { AT_ONCE = 1024 };

livevec_count livevec_saved_length(livevec_vector *slot)
{
    livevec_count size = livevec_size(slot);
    if (!size.refusal)
        size.value = AROUND_SAVED + EACH_SAVED * size.value;
    return size;
}

/* Puts a series into an empty slot that has the elements of a vector whose slot is entered. If it was refused the series has some, or isn't there. */
static uint32_t copy(livevec_series *made, livevec_vector *slot)
{
    static const uint64_t no_index[1];
    int64_t elements[AT_ONCE];
    uint32_t size = (uint32_t)livevec_proved_count(slot, LIVEVEC_VECTOR, ELEMENTS).value, why = livevec_proved_begin(made, NEW_SERIES);
    for (uint32_t done = 0; !why && done < size;) {
        uint32_t many = size - done < AT_ONCE ? size - done : AT_ONCE;
        why = livevec_proved_read(slot, LIVEVEC_VECTOR, done, done + many, elements, AT_ONCE).refusal;
        if (!why)
            why = livevec_proved_series_edit_all(made, true, no_index, 0, elements, many).refusal;
        done += many;
    }
    return why;
}

static livevec_scanned save_piece(livevec_vector *slot, uint64_t from, uint8_t *buffer, size_t length)
{
    livevec_series_count edits = livevec_proved_count(slot, LIVEVEC_VECTOR, ACCEPTED);
    if (edits.refusal)
        return (livevec_scanned){.refusal = edits.refusal};
    livevec_series made = {0};
    livevec_series_scanned told = {.refusal = copy(&made, slot)};
    if (!told.refusal)
        told = livevec_proved_series_save(&made, from, buffer ? buffer : &(uint8_t){0}, length);
    livevec_proved_free(&made, LIVEVEC_SERIES);
    if (told.refusal)
        return (livevec_scanned){.refusal = told.refusal};
    return (livevec_scanned){.edit = (uint32_t)edits.value, .length = (uint32_t)told.length};
}
LOOKS_AT(livevec_scanned, save, (livevec_vector *slot, uint64_t from, uint8_t *buffer, size_t length), first_of(THERE(slot), ARRAY(buffer, length)),
         save_piece(slot, from, buffer, length))

/* Puts a series into an empty slot that has these bytes. If it was refused the slot may hold what was given so far. */
static uint32_t load(livevec_series *made, const uint8_t *bytes, size_t length)
{
    uint32_t why = livevec_proved_begin(made, NEW_LOADER);
    if (!why)
        why = livevec_proved_series_load(made, bytes ? bytes : &(uint8_t){0}, length);
    return why ? why : livevec_proved_series_end_load(made, false);
}

static livevec_pushed push_elements_of(livevec_vector *slot, const uint8_t *bytes, size_t length)
{
    static const int64_t nowhere[1];
    uint32_t why = livevec_proved_count(slot, LIVEVEC_VECTOR, ELEMENTS).refusal;
    if (why)
        return (livevec_pushed){.refusal = why};
    livevec_series made = {0};
    struct lent lent = {nowhere, 0};
    livevec_pushed answer = {.refusal = load(&made, bytes, length)};
    if (!answer.refusal)
        answer.refusal = livevec_proved_series_lend(&made, livevec_proved_count(&made, LIVEVEC_SERIES, FIRST_KEPT).value,
                                                    livevec_proved_count(&made, LIVEVEC_SERIES, BEHIND_LAST).value, &lent).refusal;
    if (!answer.refusal)
        answer = push_all(slot, lent.elements, lent.length);
    livevec_proved_free(&made, LIVEVEC_SERIES);
    return answer;
}
EDITS(livevec_pushed, push_saved, (livevec_vector *slot, const uint8_t *bytes, size_t length), first_of(THERE(slot), ARRAY(bytes, length)),
      push_elements_of(slot, bytes, length))
