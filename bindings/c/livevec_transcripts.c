/* The journal of a vector, and transcripts. A proved call is never given a null pointer: an array of nothing begins anywhere. */
#include "livevec_slots.h"

OVER_PROVED(livevec_journal_read, AS_STRUCT, journal, (livevec_vector *slot, uint32_t from, livevec_edit *edits, size_t length),
            first_of(THERE(slot), ARRAY(edits, length)), enter_to_read(&slot->busy_), LEAVES(left, slot),
            (slot, from, edits ? edits : &(livevec_edit){.what = 0}, length))
OVER_PROVED(livevec_text_put, AS_STRUCT, transcript,
            (livevec_vector *slot, const livevec_recorded *answers, size_t count, char *text, size_t room),
            first_of(first_of(THERE(slot), ARRAY(answers, count)), ARRAY(text, room)), enter_to_read(&slot->busy_), LEAVES(left, slot),
            (slot, answers ? answers : &(const livevec_recorded){.edit = 0}, count, text ? text : &(char){0}, room))

/* Bytes, or those of nothing. */
#define BYTES(text) ((text) ? (text) : "")

livevec_audited livevec_proved_audit(const char *text, size_t length, bool front);
BY_PROVED(livevec_audited, AS_STRUCT, audit, (const char *text, size_t length), ARRAY(text, length), true, (void)0, audit(BYTES(text), length, false))
BY_PROVED(livevec_audited, AS_STRUCT, audit_front, (const char *text, size_t length), ARRAY(text, length), true, (void)0, audit(BYTES(text), length, true))

livevec_audited livevec_proved_restore(livevec_vector *slot, bool six, uint32_t kind, uint32_t buckets, uint32_t edits, const char *text, size_t length);
ENTERED(livevec_audited, AS_STRUCT, restore, (livevec_vector *slot, uint32_t buckets, uint32_t edits, const char *text, size_t length),
        first_of(THERE(slot), ARRAY(text, length)), slot, enter, restore(slot, true, 0, buckets, edits, BYTES(text), length))
ENTERED(livevec_audited, AS_STRUCT, restore_of,
        (livevec_vector *slot, uint32_t kind, uint32_t buckets, uint32_t edits, const char *text, size_t length),
        first_of(THERE(slot), ARRAY(text, length)), slot, enter, restore(slot, false, kind, buckets, edits, BYTES(text), length))
