/** @file
 * Part of livevec.h, which is what programs include: why a call was refused. */
#ifndef LIVEVEC_REFUSALS_H
#define LIVEVEC_REFUSALS_H

/** Why a call was refused. */
typedef enum livevec_refusal {
    LIVEVEC_OK = 0,            /**< not refused */
    LIVEVEC_WORN = 1,          /**< as many edits are accepted as the limits allow */
    LIVEVEC_EMPTY = 2,         /**< there is nothing to pop */
    LIVEVEC_OUT_OF_RANGE = 3,  /**< an index, or the end of a range, is past the end; `detail` is the size */
    LIVEVEC_TOO_LARGE = 4,     /**< more was to be reserved than the limits allow; `detail` is the limit in elements */
    LIVEVEC_FULL = 5,          /**< as many elements as the limits allow */
    LIVEVEC_NO_MEMORY = 6,     /**< out of memory */
    LIVEVEC_BAD_RANGE = 7,     /**< a range whose start is past its end */
    LIVEVEC_BAD_LIMITS = 8,    /**< limits outside their ranges */
    LIVEVEC_BAD_TABLE = 9,     /**< an automaton's table with an entry above 7 */
    LIVEVEC_NAME_TAKEN = 10,   /**< a query of that name is there already */
    LIVEVEC_NO_SUCH_NAME = 11, /**< no query has that name */
    LIVEVEC_TOO_MANY = 12,     /**< as many queries as a set may have */
    LIVEVEC_READ_FAULT = 13,   /**< 13, 14, 19 and 20: answered by no function of this header */
    LIVEVEC_WRITE_FAULT = 14,  /**< as 13 */
    LIVEVEC_STRANGER = 15,     /**< an outcome that this vector can't vouch for: another vector's, as a rule */
    LIVEVEC_TOO_WIDE = 16,     /**< an element of a board outside -32768 to 32767 */
    LIVEVEC_CONTENDED = 17,    /**< another seat's edit came first; `detail` is its number. Nothing has happened: try again */
    LIVEVEC_OVERTAKEN = 18,    /**< a later edit wrote where the call read; `detail` is its number. Nothing has happened: try again */
    LIVEVEC_NO_JOB = 19,       /**< as 13 */
    LIVEVEC_NOT_NOW = 20,      /**< as 13 */
    LIVEVEC_EARLIER = 21,      /**< a sample's time is before that of the last sample; `value` is that time */
    LIVEVEC_NOT_SAVED = 22,    /**< bytes that no saved vector, series or samples have: they were changed, or are too few or too many */
    LIVEVEC_NO_HANDLE = 101,   /**< a slot that should be full is empty: never filled, or freed, or moved from */
    LIVEVEC_NULL = 102,        /**< a null pointer */
    LIVEVEC_SHORT_BUFFER = 103, /**< a buffer shorter than what it should take; `detail` is the wanted length */
    LIVEVEC_IN_USE = 104,      /**< a slot that should be empty is full */
    LIVEVEC_NO_SEAT = 105,     /**< no seat of the board is there: each was taken, and is not back */
    LIVEVEC_SEATS_OUT = 106,   /**< a seat of the board is not back */
    LIVEVEC_OTHER_BOARD = 107, /**< a seat of another board */
    LIVEVEC_BUSY = 108,        /**< an edit is under way at the slot, or any call beside this edit. Nothing has happened: try again */
    LIVEVEC_OTHER_VERSION = 109, /**< a summary whose bytes are of another version of the layout, or no summary at all */
    LIVEVEC_DAMAGED = 110,     /**< a summary whose bytes were changed, or that no elements have */
    LIVEVEC_OTHER_TABLE = 111, /**< two summaries by automata of two tables */
    LIVEVEC_TOO_LONG = 112,    /**< summaries of more than 2^62 elements together, a text of more than 2^30 bytes, or an array of more than
                                * PTRDIFF_MAX */
    LIVEVEC_BAD_KIND = 113,    /**< a number that is no livevec_kind (or livevec_span, or livevec_bound); or, at a vector of one kind, a query by another
                                * or by all six; or a standing query of the last so much time, at what has no times */
    LIVEVEC_BAD_NAME = 114,    /**< bytes that are no name of a query: 1 to 16 of a-z, 0-9 and _ */
    LIVEVEC_NOT_IN_ORDER = 115, /**< recorded answers that don't rise by their edits */
    LIVEVEC_NO_FRONT = 116     /**< bytes that are no front of a transcript */
} livevec_refusal;

#endif
