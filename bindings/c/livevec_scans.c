/* The elements of a range, and its running values, into buffers. */
#include "livevec_slots.h"

LOOKS_AT(livevec_scanned, read, (livevec_vector *slot, uint32_t lo, uint32_t hi, int64_t *buffer, size_t length),
         first_of(THERE(slot), ARRAY(buffer, length)),
         livevec_proved_read(slot, LIVEVEC_VECTOR, lo, hi, buffer ? buffer : &(int64_t){0}, length))

/* Scans: a proved call fills the whole column. */
livevec_scanned livevec_proved_scan(livevec_vector *slot, uint32_t by, uint32_t lo, uint32_t hi, bool inclusive, COLUMNS);
LOOKS_AT(livevec_scanned, scan, (livevec_vector *slot, uint32_t kind, bool inclusive, uint32_t lo, uint32_t hi, void *column, size_t length),
         first_of(THERE(slot), judge_column(kind, column, length)), livevec_proved_scan(slot, kind, lo, hi, inclusive, COLUMNS_OF(kind)))
