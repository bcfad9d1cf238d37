/* The functions of livevec.h: each answers LIVEVEC_NULL where a pointer is null, and else calls the proved export of its name, or one that is
 * told by a number or a choice what is meant: which edit, kind, count or sort of slot. Where that answers more, the function copies its part. The
 * names of single edits, verdicts, searches, scans and frees are defined in the headers, over those that are told a number.
 * Here stand those of vectors, jobs and outcomes; the others in livevec_many.c, livevec_scans.c and the files of exact sums, saved vectors,
 * summaries, queries, boards, series, samples and transcripts. Those of many elements at once are one proved call, but for questions, which walk
 * over their ranges, and pushes of many samples; two of summaries make a proved call for up to 1,024. An exact sum computes with what several
 * proved calls answer, and a vector's bytes go by way of a series. These files are C, so no proof covers them. */
#include "livevec_slots.h"

/* what builds the library without its proofs says so here */
#ifdef LIVEVEC_NOT_PROVED
#define BUILT " (not proved)"
#else
#define BUILT ""
#endif

const char *livevec_version(void)
{
    return LIVEVEC_VERSION BUILT;
}

const char *livevec_refusal_text(uint32_t refusal)
{
    switch (refusal) {
    case LIVEVEC_OK: return "not refused";
    case LIVEVEC_WORN: return "the limit of edits is reached";
    case LIVEVEC_EMPTY: return "there is nothing to pop";
    case LIVEVEC_OUT_OF_RANGE: return "out of range: past the end";
    case LIVEVEC_TOO_LARGE: return "too large: more than the limits allow";
    case LIVEVEC_FULL: return "full: as many elements as the limits allow";
    case LIVEVEC_NO_MEMORY: return "no memory";
    case LIVEVEC_BAD_RANGE: return "a range whose start is past its end";
    case LIVEVEC_BAD_LIMITS: return "limits outside their ranges";
    case LIVEVEC_BAD_TABLE: return "a table with an entry above 7";
    case LIVEVEC_NAME_TAKEN: return "a name that another query has";
    case LIVEVEC_NO_SUCH_NAME: return "a name that no query has";
    case LIVEVEC_TOO_MANY: return "as many queries as a set may have";
    case LIVEVEC_STRANGER: return "an outcome that is not of a job of this vector";
    case LIVEVEC_TOO_WIDE: return "an element of a board outside -32768 to 32767";
    case LIVEVEC_CONTENDED: return "contended: another seat's edit came first";
    case LIVEVEC_OVERTAKEN: return "overtaken: a later edit wrote there";
    case LIVEVEC_EARLIER: return "a time before that of the last sample";
    case LIVEVEC_NOT_SAVED: return "bytes that are no saved vector, series or samples";
    case LIVEVEC_NO_HANDLE: return "an empty slot, or one that holds something else";
    case LIVEVEC_NULL: return "a null pointer";
    case LIVEVEC_SHORT_BUFFER: return "a buffer shorter than the values";
    case LIVEVEC_IN_USE: return "a slot that is full already";
    case LIVEVEC_NO_SEAT: return "no seat is left";
    case LIVEVEC_SEATS_OUT: return "seats are out";
    case LIVEVEC_OTHER_BOARD: return "a seat of another board";
    case LIVEVEC_BUSY: return "another call is under way at the slot";
    case LIVEVEC_OTHER_VERSION: return "a summary of another version, or none";
    case LIVEVEC_DAMAGED: return "a damaged summary";
    case LIVEVEC_OTHER_TABLE: return "summaries by two tables";
    case LIVEVEC_TOO_LONG: return "longer than a summary, a text or an array may be";
    case LIVEVEC_BAD_KIND: return "a number that is no kind, or a kind that the vector is not of";
    case LIVEVEC_BAD_NAME: return "bytes that are no name of a query";
    case LIVEVEC_NOT_IN_ORDER: return "recorded answers that don't rise by their edits";
    case LIVEVEC_NO_FRONT: return "bytes that are no front of a transcript";
    default: return "unknown";
    }
}

/* A vector is of all six kinds, or of one, and its automaton is the program's, or has a table. */
uint32_t livevec_proved_new(livevec_vector *slot, bool six, uint32_t kind, uint32_t buckets, uint32_t edits, bool by_table, const livevec_table *table);
ENTERED(uint32_t, AS_NUMBER, new, (livevec_vector *slot, uint32_t buckets, uint32_t edits), THERE(slot), slot, enter,
        new(slot, true, 0, buckets, edits, false, &(livevec_table){{{0}}}))
ENTERED(uint32_t, AS_NUMBER, new_of, (livevec_vector *slot, uint32_t kind, uint32_t buckets, uint32_t edits), THERE(slot), slot, enter,
        new(slot, false, kind, buckets, edits, false, &(livevec_table){{{0}}}))
ENTERED(uint32_t, AS_NUMBER, new_with_table, (livevec_vector *slot, uint32_t buckets, uint32_t edits, const livevec_table *table),
        THERE(slot && table), slot, enter, new(slot, true, 0, buckets, edits, true, table))
livevec_edited livevec_proved_edit(livevec_vector *slot, uint32_t what, uint32_t index, uint32_t second, int64_t value);
ENTERED(livevec_edited, AS_STRUCT, make_edit, (livevec_vector *slot, uint32_t edit, uint32_t index, uint32_t second, int64_t value), THERE(slot),
        slot, enter, edit(slot, edit, index, second, value))
ENTERED(livevec_element, AS_STRUCT, get, (livevec_vector *slot, uint32_t index), THERE(slot), slot, enter_to_read, get(slot, LIVEVEC_VECTOR, index))
COUNTED(livevec_count, size, livevec_vector, LIVEVEC_VECTOR, ELEMENTS)
COUNTED(livevec_count, capacity, livevec_vector, LIVEVEC_VECTOR, ROOM)
COUNTED(livevec_count, edits, livevec_vector, LIVEVEC_VECTOR, ACCEPTED)
VALUED(livevec_reduced, reduce, (livevec_vector *slot, uint32_t lo, uint32_t hi), value(slot, AS_KEPT, 0, lo, hi))
VALUED(livevec_reduced, ask, (livevec_vector *slot, uint32_t lo, uint32_t hi), value(slot, BY_TREES, 0, lo, hi))
VALUED(livevec_reduced, value, (livevec_vector *slot, uint32_t kind, uint32_t lo, uint32_t hi), value(slot, BY_KIND, kind, lo, hi))

livevec_found livevec_proved_find(livevec_vector *slot, uint32_t wanted, int64_t x, uint32_t lo, uint32_t hi);
ENTERED(livevec_found, AS_STRUCT, find, (livevec_vector *slot, uint32_t wanted, uint32_t lo, uint32_t hi, int64_t x), THERE(slot), slot,
        enter_to_read, find(slot, wanted, x, lo, hi))
READS(livevec_summarised, summary_of, (livevec_vector *slot, uint32_t lo, uint32_t hi), slot, (slot, lo, hi))

livevec_verdict livevec_proved_verdict(livevec_vector *slot, uint32_t what, uint32_t index, uint32_t second, int64_t value);
ENTERED(livevec_verdict, AS_STRUCT, judge_edit, (livevec_vector *slot, uint32_t edit, uint32_t index, uint32_t second, int64_t value), THERE(slot),
        slot, enter_to_read, verdict(slot, edit, index, second, value))

ANSWERED(livevec_count, refresh, (livevec_vector *slot, uint32_t jobs), slot, (slot, jobs))
ANSWERED_AT_TWO(livevec_claimed, claim, (livevec_vector *slot, livevec_job *job), slot, enter, job, enter, (slot, job))
TOLD_AT_TWO(run, (livevec_job *job, livevec_outcome *outcome), job, outcome, (job, outcome))
ANSWERED_AT_TWO(livevec_vetted, vet, (livevec_vector *slot, livevec_outcome *outcome), slot, enter_to_read, outcome, enter_to_read, (slot, outcome))
ANSWERED_AT_TWO(livevec_accepted, accept, (livevec_vector *slot, livevec_outcome *outcome), slot, enter, outcome, enter_to_read, (slot, outcome))
TOLD(forget, (livevec_vector *slot), slot, (slot))
/* Jobs that are copied: of blocks, or of a subtree. */
livevec_count livevec_proved_copy(livevec_vector *slot, livevec_batch *batch, bool subtree, uint32_t first, uint32_t limit);
#define COPIED(name, parameters, call) \
    IN_BOTH(livevec_count, AS_STRUCT, name, parameters, THERE(slot && batch), slot, enter_to_read, batch, enter, livevec_proved_##call)
COPIED(blocks, (livevec_vector *slot, livevec_batch *batch, uint32_t first, uint32_t limit), copy(slot, batch, false, first, limit))
COPIED(subtree, (livevec_vector *slot, livevec_batch *batch, uint32_t number), copy(slot, batch, true, number, 0))
ANSWERED_AT_TWO(livevec_count, accept_subtree, (livevec_vector *slot, livevec_batch *batch), slot, enter, batch, enter, (slot, batch))
TOLD(run_blocks, (livevec_batch *batch), batch, (batch))
ANSWERED_AT_TWO(livevec_taken, accept_blocks, (livevec_vector *slot, livevec_batch *batch), slot, enter, batch, enter, (slot, batch))

ENTERED(uint32_t, AS_NUMBER, free_slot, (void *slot, uint32_t sort), THERE(slot), AS_SLOT(slot), enter, free(slot, sort))
