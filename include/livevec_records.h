/** @file
 * Part of livevec.h, which is what programs include: slots, and what calls take and answer. */
#ifndef LIVEVEC_RECORDS_H
#define LIVEVEC_RECORDS_H

/** What each slot begins with: what it holds, and all that a proved export knows of it. All zeros is 'empty'. The fields are the library's own. */
typedef struct livevec_handle {
    bool full_; /**< the library's own */
    void *at_;  /**< the library's own */
} livevec_handle;

/** The handle of a vector. Zeros mean that it is empty. */
typedef struct livevec_vector {
    livevec_handle handle_; /**< the library's own */
    unsigned char busy_;    /**< the library's own */
} livevec_vector;

/** The handle of a job. Zeros mean that it is empty. */
typedef struct livevec_job {
    livevec_handle handle_; /**< the library's own */
    unsigned char busy_;    /**< the library's own */
} livevec_job;

/** The handle of an outcome. Zeros mean that it is empty. */
typedef struct livevec_outcome {
    livevec_handle handle_; /**< the library's own */
    unsigned char busy_;    /**< the library's own */
} livevec_outcome;

/** Its slot has jobs of many blocks, or the job of a subtree, and once they are run, what they gave. */
typedef struct livevec_batch {
    livevec_handle handle_; /**< the library's own */
    unsigned char busy_;    /**< the library's own */
} livevec_batch;

/** Its slot has the board, and once that is closed, what it came to. */
typedef struct livevec_board {
    livevec_handle handle_; /**< the library's own */
    unsigned char busy_;    /**< the library's own */
} livevec_board;

/** The handle of a seat. Zeros mean that it is empty. */
typedef struct livevec_seat {
    livevec_handle handle_; /**< the library's own */
    unsigned char busy_;    /**< the library's own */
} livevec_seat;

/** Its slot has a set of standing queries. */
typedef struct livevec_queries {
    livevec_handle handle_; /**< the library's own */
    unsigned char busy_;    /**< the library's own */
} livevec_queries;

/** What a slot holds, for livevec_free_slot. */
typedef enum livevec_sort {
    LIVEVEC_VECTOR = 0,  /**< a vector, in a livevec_vector */
    LIVEVEC_JOB = 1,     /**< a job, in a livevec_job */
    LIVEVEC_OUTCOME = 2, /**< an outcome, in a livevec_outcome */
    LIVEVEC_BATCH = 3,   /**< jobs of blocks or of a subtree, or what they gave, in a livevec_batch */
    LIVEVEC_BOARD = 4,   /**< a board, closed or not, in a livevec_board */
    LIVEVEC_SEAT = 5,    /**< a seat, in a livevec_seat */
    LIVEVEC_SERIES = 6,  /**< a series in a livevec_series, or samples in a livevec_samples; also while they are loaded */
    LIVEVEC_QUERIES = 7  /**< standing queries, in a livevec_queries */
} livevec_sort;

/** What an edit is. */
typedef enum livevec_edit_kind {
    LIVEVEC_PUSH = 1,     /**< an element at the end */
    LIVEVEC_POP = 2,      /**< the last element dropped */
    LIVEVEC_WRITE = 3,    /**< an element overwritten */
    LIVEVEC_RESERVE = 4,  /**< room made: of a vector only */
    LIVEVEC_SWAP = 5,     /**< two elements exchanged */
    LIVEVEC_TRUNCATE = 6, /**< all behind the first ones dropped */
    LIVEVEC_EXPIRE = 7    /**< all before an index dropped: of a series only */
} livevec_edit_kind;

/** What a search looks for in a range. Those that compare do so with a number `x` of the caller's. */
typedef enum livevec_wanted {
    LIVEVEC_WHERE_LEAST = 0,          /**< the first of the least elements */
    LIVEVEC_WHERE_GREATEST = 1,       /**< the first of the greatest elements */
    LIVEVEC_WHERE_BEST = 2,           /**< the best run */
    LIVEVEC_WHERE_REACHES = 3,        /**< the least end up to which the elements add up to `x` or more */
    LIVEVEC_WHERE_REACHES_BACK = 4,   /**< the greatest start from which on they do */
    LIVEVEC_WHERE_FIRST_AT_LEAST = 5, /**< the first element that is `x` or more */
    LIVEVEC_WHERE_FIRST_AT_MOST = 6,  /**< the first element that is `x` or less */
    LIVEVEC_WHERE_LAST_AT_LEAST = 7,  /**< the last element that is `x` or more */
    LIVEVEC_WHERE_LAST_AT_MOST = 8    /**< the last element that is `x` or less */
} livevec_wanted;

/** An automaton of eight states: from state q, an element x leads to next[q][x mod 4], the remainder never negative. */
typedef struct livevec_table {
    uint8_t next[8][4]; /**< the state that follows, by state and remainder */
} livevec_table;

/** What an edit answers. If it was refused, all but `refusal` and `detail` is 0. */
typedef struct livevec_edited {
    uint32_t refusal; /**< why the call was refused, a ::livevec_refusal; 0 if it was not */
    uint32_t detail; /**< of LIVEVEC_OUT_OF_RANGE the size, of LIVEVEC_TOO_LARGE the limit, of LIVEVEC_CONTENDED and LIVEVEC_OVERTAKEN the other
                      * edit's number, else 0 */
    uint32_t edit;   /**< the edit's number */
    uint32_t place;  /**< of a push the index of the element; of a reserve how many elements now fit; of a truncate how many were dropped;
                      * else 0 */
    int64_t value;   /**< of a pop the element that was dropped; of a write the one that was overwritten; of a swap the one that stands at the
                      * first index now; else 0 */
} livevec_edited;

/** A count, 0 if it was refused. */
typedef struct livevec_count {
    uint32_t refusal; /**< why the call was refused, a ::livevec_refusal; 0 if it was not */
    uint32_t value; /**< the count */
} livevec_count;

/** An element, 0 if it was refused. */
typedef struct livevec_element {
    uint32_t refusal; /**< why the call was refused, a ::livevec_refusal; 0 if it was not */
    uint32_t detail; /**< of LIVEVEC_OUT_OF_RANGE the size, of LIVEVEC_OVERTAKEN the later edit's number, else 0 */
    int64_t value; /**< the element */
} livevec_element;

/** The plain values of a list of elements, by each of the six kinds. */
typedef struct livevec_values {
    uint64_t sum;         /**< the sum modulo 2^64 */
    int64_t least;        /**< the least element; 0 if `any` is false */
    int64_t greatest;     /**< the greatest element; 0 if `any` is false */
    uint64_t best_low;    /**< the greatest total of one or more neighbours, 128 bits in two's complement: its low 64 bits, */
    int64_t best_high;    /**< and its high 64 bits, which have the sign; both 0 if `any` is false */
    uint32_t affine_a;    /**< the map y -> a * y + b modulo 2^32 that the elements make: a */
    uint32_t affine_b;    /**< and b */
    uint8_t automaton[8]; /**< the state that the elements lead to from each of the eight */
    bool any;             /**< whether there is an element */
} livevec_values;

/** What a reduction answers. If it was refused, all but `refusal` and `detail` is 0. */
typedef struct livevec_reduced {
    uint32_t refusal; /**< why the call was refused, a ::livevec_refusal; 0 if it was not */
    uint32_t detail;    /**< of LIVEVEC_OUT_OF_RANGE the size, of LIVEVEC_OVERTAKEN the later edit's number, else 0 */
    uint32_t edit;      /**< after which edit the values are those of the range */
    uint32_t cells;     /**< how many elements were read for it; 0 of livevec_value and livevec_ask, which don't count */
    uint32_t summaries; /**< how many summaries were read for it; 0 of livevec_value and livevec_ask, which don't count */
    livevec_values values; /**< the values */
} livevec_reduced;

/** Where something stands in a range. If it was refused, all but `refusal` and `detail` is 0. */
typedef struct livevec_found {
    uint32_t refusal; /**< why the call was refused, a ::livevec_refusal; 0 if it was not */
    uint32_t detail;  /**< of LIVEVEC_OUT_OF_RANGE the size, else 0 */
    uint32_t edit;    /**< after which edit it stands there */
    uint32_t lo;      /**< of an element its index; of a run where it starts; of a sum where the range starts */
    uint32_t hi;      /**< the index behind it; of a sum the end at which it is reached */
    int64_t value;    /**< of an element the element itself, else 0 */
    uint64_t sum_low; /**< of a run what it adds up to, 128 bits in two's complement, else 0: its low 64 bits, */
    int64_t sum_high; /**< and its high 64 bits, which have the sign */
    bool found;       /**< whether there is such a thing; if not, all but `edit` is 0 */
} livevec_found;

/** The indices from `lo` up to `hi`, `hi` excluded. */
typedef struct livevec_range {
    uint32_t lo; /**< the first index */
    uint32_t hi; /**< the index behind the last one */
} livevec_range;

/** How many bytes a summary has, in each version of the library that has its layout. */
#define LIVEVEC_SUMMARY_BYTES 184

/** A summary that travels: what a list of elements comes to by each of the six kinds, how many elements there are, by which automaton, and after
 * which edit of which a vector had them. It is plain bytes, the same on every machine (docs/engines.md has their places), without a pointer: it may
 * be copied, sent, kept in a file and read by another process. Zeros are no summary. */
typedef struct livevec_summary {
    uint8_t bytes[LIVEVEC_SUMMARY_BYTES]; /**< the bytes */
} livevec_summary;

/** What answers by a summary. If it was refused, all but `refusal` and `detail` is 0. */
typedef struct livevec_summarised {
    uint32_t refusal; /**< why the call was refused, a ::livevec_refusal; 0 if it was not */
    uint32_t detail; /**< of LIVEVEC_OUT_OF_RANGE the size, else 0 */
    livevec_summary summary; /**< the summary */
} livevec_summarised;

/** What a summary says. If it was refused, all but `refusal` is 0. */
typedef struct livevec_opened {
    uint32_t refusal; /**< why the call was refused, a ::livevec_refusal; 0 if it was not */
    uint32_t edit;         /**< after which edit the vector had these elements; 0 if `at_edit` is false */
    uint64_t count;        /**< how many elements it is of */
    livevec_values values; /**< their plain values */
    livevec_table table;   /**< the table of the automaton */
    bool at_edit;          /**< whether it comes from a range of one vector */
} livevec_opened;

/** What a scan answers. */
typedef struct livevec_scanned {
    uint32_t refusal; /**< why the call was refused, a ::livevec_refusal; 0 if it was not */
    uint32_t detail; /**< of LIVEVEC_OUT_OF_RANGE the size, of LIVEVEC_SHORT_BUFFER the wanted length, else 0 */
    uint32_t edit;   /**< after which edit the values are those of the range; 0 if it was refused */
    uint32_t length; /**< how many values were written; 0 if it was refused */
} livevec_scanned;

/** The cells of the columns that scans by one kind write, where a number isn't enough, and an exact sum. A total has 128 bits in two's complement:
 * its low 64 bits, and its high 64 bits, which have the sign. */
typedef struct livevec_total {
    uint64_t low; /**< the low 64 bits */
    int64_t high; /**< the high 64 bits, which have the sign */
} livevec_total;

/** An exact sum. If it was refused, all but `refusal` and `detail` is 0. */
typedef struct livevec_summed {
    uint32_t refusal;  /**< why the call was refused, a ::livevec_refusal; 0 if it was not */
    uint32_t detail;   /**< of LIVEVEC_OUT_OF_RANGE the size, else 0 */
    uint32_t edit;     /**< after which edit it is the sum of the range */
    livevec_total sum; /**< the sum */
} livevec_summed;

/** The map y -> a * y + b modulo 2^32. */
typedef struct livevec_map {
    uint32_t a; /**< a */
    uint32_t b; /**< b */
} livevec_map;

/** The state that the elements lead to from each of the eight. */
typedef struct livevec_states {
    uint8_t to[8]; /**< the state reached from each */
} livevec_states;

/** What many pushes answer. */
typedef struct livevec_pushed {
    uint32_t refusal; /**< of the first push that is refused; 0 where none is */
    uint32_t detail;  /**< 0 */
    uint32_t edit;    /**< the number of the last push; 0 if none was made */
    uint32_t pushed;  /**< how many elements were pushed: all or none */
} livevec_pushed;

/** What many writes, or many queries, answer. */
typedef struct livevec_many {
    uint32_t refusal; /**< of the one that was refused; 0 if none was */
    uint32_t detail;  /**< of LIVEVEC_OUT_OF_RANGE the size, else 0 */
    uint32_t edit;    /**< the number of the last edit, after which the values are those of their ranges; 0 if it was refused */
    size_t done;      /**< how many writes were made, or ranges answered: all or none */
    size_t place;     /**< which one was refused, counted from 0; 0 if none was */
} livevec_many;

/** What a claim answers. Where no job was found, or it was refused, the numbers are 0. */
typedef struct livevec_claimed {
    uint32_t refusal; /**< why the call was refused, a ::livevec_refusal; 0 if it was not */
    bool found;       /**< whether there was a job; if not, its slot stays empty */
    uint32_t level;   /**< the node whose summary is wanted: 8^level elements */
    uint32_t number;  /**< from index number * 8^level on */
    uint32_t version; /**< the edit that touched the node last */
} livevec_claimed;

/** What became of an outcome. */
typedef enum livevec_became {
    LIVEVEC_INSTALLED = 1, /**< its summary is kept from now on */
    LIVEVEC_HELD = 2,      /**< it was kept already */
    LIVEVEC_STALE = 3      /**< edits overtook it */
} livevec_became;

/** What a delivery answers. */
typedef struct livevec_accepted {
    uint32_t refusal; /**< why the call was refused, a ::livevec_refusal; 0 if it was not */
    uint32_t became; /**< a livevec_became; 0 if it was refused */
    uint32_t now;    /**< of LIVEVEC_STALE the number of the last edit that touched the node, else 0 */
} livevec_accepted;

/** A yes or a no, no if it was refused. */
typedef struct livevec_vetted {
    uint32_t refusal; /**< why the call was refused, a ::livevec_refusal; 0 if it was not */
    bool yes; /**< yes or no */
} livevec_vetted;

/** What became of the outcomes of a batch, all 0 if it was refused. */
typedef struct livevec_taken {
    uint32_t refusal; /**< why the call was refused, a ::livevec_refusal; 0 if it was not */
    uint64_t installed; /**< how many summaries are kept from now on */
    uint64_t held;      /**< how many were kept already */
    uint64_t stale;     /**< how many edits overtook */
    uint64_t strangers; /**< how many this vector can't vouch for: another vector's, as a rule */
} livevec_taken;

/** Why an edit would be refused, 0 if it would be accepted. */
typedef struct livevec_verdict {
    uint32_t refusal; /**< why the call was refused, a ::livevec_refusal; 0 if it was not */
    uint32_t detail; /**< of LIVEVEC_OUT_OF_RANGE the size, of LIVEVEC_TOO_LARGE the limit, else 0 */
} livevec_verdict;

/** What a board reduces by, and what a vector may be asked by alone. */
typedef enum livevec_kind {
    LIVEVEC_SUM = 0,       /**< the sum modulo 2^64 */
    LIVEVEC_LEAST = 1,     /**< the minimum */
    LIVEVEC_GREATEST = 2,  /**< the maximum */
    LIVEVEC_BEST = 3,      /**< the maximum subarray sum */
    LIVEVEC_AFFINE = 4,    /**< the composition of affine maps modulo 2^32 */
    LIVEVEC_AUTOMATON = 5  /**< the composition of an automaton's transitions */
} livevec_kind;

/** In place of a ::livevec_kind, where a scan is by all six at once. */
#define LIVEVEC_ALL_SIX 6

/** How many bytes the name of a standing query has at most, and how many queries a set has. So no call tells more notes than that. */
#define LIVEVEC_NAME_BYTES 16
/** How many queries a set has at most, so that no call tells more notes. */
#define LIVEVEC_MOST_QUERIES 64

/** Which elements a standing query is about. */
typedef enum livevec_span {
    LIVEVEC_BETWEEN = 0, /**< those from index `lo` up to `hi`, as many of them as there are */
    LIVEVEC_LAST = 1,    /**< the last `lo`, or all if there are fewer */
    LIVEVEC_WITHIN = 2   /**< those of the last `lo` of time, as livevec_samples_last has them: of samples only */
} livevec_span;

/** When a note of a standing query is due. */
typedef enum livevec_bound {
    LIVEVEC_EACH_CHANGE = 0, /**< the answer is another than it was told last */
    LIVEVEC_AT_LEAST = 1,    /**< it begins or ends to be at least `x`. An answer that is no number, or none, never is; a sum is taken as signed */
    LIVEVEC_AT_MOST = 2      /**< it begins or ends to be at most `x` */
} livevec_bound;

/** What a standing query asks. Zeros behind the kind are the empty range from 0, and each change. */
typedef struct livevec_query {
    uint32_t kind;  /**< a ::livevec_kind */
    uint32_t span;  /**< a ::livevec_span */
    uint32_t bound; /**< a ::livevec_bound */
    uint64_t lo;    /**< of LIVEVEC_BETWEEN the first index, of LIVEVEC_LAST how many, of LIVEVEC_WITHIN how much time */
    uint64_t hi;    /**< of LIVEVEC_BETWEEN the index behind the last one; else it is not looked at */
    int64_t x;      /**< of a bound what it is compared with; else it is not looked at */
} livevec_query;

/** That a note of a standing query is due. */
typedef struct livevec_note {
    char name[LIVEVEC_NAME_BYTES + 1]; /**< the query's name, and zeros behind it, one at least */
    uint32_t kind;                     /**< its livevec_kind */
    uint32_t edit;                     /**< after which edit this is its answer: the low 32 bits of its number */
    livevec_values values;             /**< its answer: of that kind only, and `any`; the others are 0 */
} livevec_note;

/** What a call for notes answers. */
typedef struct livevec_noted {
    uint32_t refusal; /**< why the call was refused, a ::livevec_refusal; 0 if it was not */
    uint32_t detail; /**< of LIVEVEC_SHORT_BUFFER how many notes there are, of LIVEVEC_BAD_KIND which query may not be asked, counted from 0, else
                      * 0 */
    uint32_t edit;   /**< the vector's last edit; 0 if it was refused */
    uint32_t count;  /**< how many notes were told; 0 if it was refused */
} livevec_noted;

/** What a refresh at a seat answers. If it was refused, the edit and the version are 0. */
typedef struct livevec_renewed {
    uint32_t refusal; /**< why the call was refused, a ::livevec_refusal; 0 if it was not */
    uint32_t detail;  /**< of LIVEVEC_OUT_OF_RANGE the size, of LIVEVEC_OVERTAKEN the later edit's number, else 0 */
    uint32_t edit;    /**< after which edit the block was read */
    uint32_t version; /**< the edit that touched the block last */
} livevec_renewed;

#endif
