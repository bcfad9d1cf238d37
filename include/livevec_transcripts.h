/** @file
 * Part of livevec.h, which is what programs include: the journal of a vector, and transcripts. docs/formats.md says how a transcript is spelt.
 *
 * A transcript is the journal of a vector and answers that were given of it, as text. Whoever has it needs no vector to check it: an audit makes
 * each edit anew and computes each answer plainly. A front is as much of one as was written: whole lines, edits and answers in the order of time. */
#ifndef LIVEVEC_TRANSCRIPTS_H
#define LIVEVEC_TRANSCRIPTS_H

/** An edit as it was accepted. What it doesn't have is 0. */
typedef struct livevec_edit {
    uint32_t what;   /**< a livevec_edit_kind */
    uint32_t index;  /**< of a write its index, of a swap the first one; of a reserve and of a truncate how many elements */
    uint32_t second; /**< of a swap the second index */
    int64_t value;   /**< of a push and of a write the element */
} livevec_edit;

/** What a read of the journal answers. If it was refused, all but `refusal` is 0. */
typedef struct livevec_journal_read {
    uint32_t refusal; /**< why the call was refused, a ::livevec_refusal; 0 if it was not */
    uint32_t edit; /**< the number of the last edit */
    size_t length; /**< how many edits were put into the array */
} livevec_journal_read;

/** An answer to be written into a transcript: what livevec_value or livevec_ask answered. */
typedef struct livevec_recorded {
    uint32_t edit;         /**< the edit that the answer named */
    uint32_t kind;         /**< the livevec_kind by which it was asked */
    uint32_t lo;           /**< of which range, */
    uint32_t hi;           /**< `hi` excluded */
    livevec_values values; /**< the values that were answered, of which those of the kind count, and `any` */
} livevec_recorded;

/** What a transcript's text answers. */
typedef struct livevec_text_put {
    uint32_t refusal; /**< why the call was refused, a ::livevec_refusal; 0 if it was not */
    size_t length; /**< how many bytes the text takes, also of LIVEVEC_SHORT_BUFFER; 0 if the call was refused otherwise */
} livevec_text_put;

/** What an audit found. */
typedef enum livevec_found_of_text {
    LIVEVEC_YES = 1, /**< it is sound */
    LIVEVEC_NO = 2,  /**< the line has the right form, and is false */
    LIVEVEC_BAD = 3  /**< the line is not of the form that may stand there, or is missing */
} livevec_found_of_text;

/** What an audit answers, and a restoration. */
typedef struct livevec_audited {
    uint32_t refusal; /**< why the call was refused, a ::livevec_refusal; 0 if it was not */
    uint32_t detail;  /**< of a restoration that an edit's limits refuse the detail of that refusal, else 0 */
    uint32_t verdict; /**< a livevec_found_of_text; 0 if there is none */
    uint32_t line;    /**< of LIVEVEC_NO and LIVEVEC_BAD the number of the line, counted from 1, else 0 */
    uint32_t edits;   /**< of a front how many edits it has; of a restoration that was refused at an edit how many were made before it; else 0 */
    uint32_t answers; /**< of a front how many answers it has, else 0 */
} livevec_audited;

/** The accepted edits behind the first `from`, as many as there are and as an array of `length` takes; what it has behind them stays. The next piece
 * starts at `from` and as many as were put. Behind the last edit there is none. Takes no memory. Reads. Cost: O(length). Refusals: NULL, NO_HANDLE.
 */
LIVEVEC_MUST_USE livevec_journal_read livevec_journal(livevec_vector *slot, uint32_t from, livevec_edit *edits, size_t length);

/** Puts the transcript of all edits and of `count` answers, which rise by their edits, into the front of `room` bytes; what stands behind stays, and
 * no zero ends it. It is sound where each answer is true, which is not looked at: livevec_audit does that. Nothing is written where it is refused.
 * With too little room, as NULL and 0, SHORT_BUFFER tells how many bytes it takes. Memory for the text is taken meanwhile. Reads. Cost: O(edits +
 * count). Refusals: NULL, BAD_KIND, NOT_IN_ORDER, NO_HANDLE, NO_MEMORY, SHORT_BUFFER. */
LIVEVEC_MUST_USE livevec_text_put livevec_transcript(livevec_vector *slot, const livevec_recorded *answers, size_t count, char *text, size_t room);

/** Audits bytes as a transcript, by the automaton of livevec_new. No zero need end them. Memory grows with the edits. Cost: O(edits), and linear in
 * the range for each answer. Refusals: NULL, TOO_LONG (more than 2^30 bytes), NO_MEMORY. */
LIVEVEC_MUST_USE livevec_audited livevec_audit(const char *text, size_t length);

/** Audits bytes as a front. What stands behind the last LF doesn't count. Cost: as livevec_audit. Refusals: those of livevec_audit. */
LIVEVEC_MUST_USE livevec_audited livevec_audit_front(const char *text, size_t length);

/** Puts a vector with the edits of a front into an empty slot, as if they were made at one of livevec_new. The answers of the front are audited, and
 * not kept. The slot stays empty where it is refused: of NO_FRONT `verdict` and `line` say why; an edit that these limits refuse is told by its
 * refusal, and `edits` by how many come before it. Cost: as livevec_audit. Refusals: NULL, IN_USE, BAD_LIMITS, TOO_LONG, NO_FRONT, those of the
 * edits; NO_MEMORY. The caller owes a livevec_free. */
LIVEVEC_MUST_USE livevec_audited livevec_restore(livevec_vector *slot, uint32_t buckets, uint32_t edits, const char *text, size_t length);

/** The same of one livevec_kind alone, as livevec_new_of. Cost: as livevec_audit. Refusals: NULL, IN_USE, BAD_KIND, then as above. */
LIVEVEC_MUST_USE livevec_audited livevec_restore_of(livevec_vector *slot, uint32_t kind, uint32_t buckets, uint32_t edits, const char *text,
                                                    size_t length);

#endif
