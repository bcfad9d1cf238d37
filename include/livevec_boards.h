/** @file
 * Part of livevec.h, which is what programs include: boards and seats.
 *
 * A board: one vector for up to eight threads at once, without a lock. No call waits for another thread.
 *
 * One thread makes the board and a seat for each thread. Each thread then calls at its own seat, beside all others. When all seats are back the
 * board can be closed, and its elements read. The caller owes no more than for any slot: a board's slot and each seat's serve one call at a time.
 * So two threads don't share a seat, but calls at two seats need no lock.
 *
 * All seats' accepted edits are one list, numbered 1, 2, 3 and so on. Elements have 16 bits, from -32768 to 32767.
 *
 * Trying again. CONTENDED and OVERTAKEN mean that another thread was faster, and that nothing has happened. An edit tries again by itself: at most
 * `tries` times in all, where 0 counts as 1. The pauses between are of microseconds at most. An edit that is still refused with 17 or 18 may be
 * called again, now or after other work. For example, two threads push at once after edit 7, each with `tries` 1. One push is accepted as edit 8.
 * The other is refused with CONTENDED, `detail` 8; called again in peace it is edit 9. A get, a reduce or a refresh makes one try, and a loop
 * around it is the caller's. No call promises that a try is ever accepted. */
#ifndef LIVEVEC_BOARDS_H
#define LIVEVEC_BOARDS_H

/** Puts a new board into an empty slot: of a livevec_kind, 1 to 9 buckets (k hold 8 * (2^k - 1) elements, 9 hold 4,088), 1 to 16,777,215 edits and 1
 * to 8 seats. It takes all its memory now. An automaton leads from q by x to (2 * q + x mod 4) mod 8. Cost: O(elements that it may hold). Refusals:
 * NULL, IN_USE, BAD_LIMITS (of the kind too), NO_MEMORY. The caller owes a livevec_free_board. */
LIVEVEC_MUST_USE uint32_t livevec_board_new(livevec_board *slot, uint32_t kind, uint32_t buckets, uint32_t edits, uint32_t seats);

/** Puts a seat of the board into an empty slot: the one that has been there for the longest. Cost: O(1). Refusals: NULL, IN_USE (of the seat's
 * slot), NO_HANDLE (of the board's), NO_MEMORY, NO_SEAT. The caller owes a livevec_board_take_back, or a livevec_free_seat. */
LIVEVEC_MUST_USE uint32_t livevec_board_sit(livevec_board *board, livevec_seat *seat);

/** Takes a seat back at its board, and empties the seat's slot. It may be taken again. The close accounts for all its edits. Cost: O(1). Refusals:
 * NULL, NO_HANDLE (of either slot), OTHER_BOARD; the seat then stays in its slot. Takes no memory. */
LIVEVEC_MUST_USE uint32_t livevec_board_take_back(livevec_board *board, livevec_seat *seat);

/** Puts an element at the end. `place` is its index. Cost: O(1) a try. Refusals: NULL, NO_HANDLE, TOO_WIDE, WORN, FULL, CONTENDED. */
LIVEVEC_MUST_USE livevec_edited livevec_seat_push(livevec_seat *seat, int64_t value, uint32_t tries);

/** Drops the last element. `value` is that element. Cost: O(1) a try. Refusals: NULL, NO_HANDLE, WORN, EMPTY, CONTENDED, OVERTAKEN. */
LIVEVEC_MUST_USE livevec_edited livevec_seat_pop(livevec_seat *seat, uint32_t tries);

/** Overwrites the element at an index. `value` is the element before. Cost: O(1) a try. Refusals: NULL, NO_HANDLE, TOO_WIDE, WORN, OUT_OF_RANGE,
 * CONTENDED, OVERTAKEN. */
LIVEVEC_MUST_USE livevec_edited livevec_seat_write(livevec_seat *seat, uint32_t index, int64_t value, uint32_t tries);

/** The element at an index. Reads. Cost: O(1). Refusals: NULL, NO_HANDLE, OUT_OF_RANGE, OVERTAKEN. */
LIVEVEC_MUST_USE livevec_element livevec_seat_get(livevec_seat *seat, uint32_t index);

/** How many elements there are. Reads. Cost: O(1). Refusals: NULL, NO_HANDLE. */
LIVEVEC_MUST_USE livevec_count livevec_seat_size(livevec_seat *seat);

/** The plain value of the elements of a range, all as they were after one edit. Of `values` only those of the board's kind are told, and `any`; the
 * others are 0. Reads. Cost: O((hi - lo) / 8) if the blocks were refreshed, else O(hi - lo). Refusals: NULL, NO_HANDLE, BAD_RANGE, OUT_OF_RANGE,
 * OVERTAKEN. */
LIVEVEC_MUST_USE livevec_reduced livevec_seat_reduce(livevec_seat *seat, uint32_t lo, uint32_t hi);

/** Computes the summary of a block, the eight elements from index 8 * block on, so that reductions read less. No answer changes. Cost: O(1).
 * Refusals: NULL, NO_HANDLE, OUT_OF_RANGE (not all eight are there), OVERTAKEN. */
livevec_renewed livevec_seat_refresh(livevec_seat *seat, uint32_t block);

/** Closes a board whose seats are all there: back, or never taken. Its slot then holds the elements, and is good for the three calls below and for
 * livevec_free_board. `value` is how many edits were accepted at all seats together. Cost: O(n). Refusals: NULL, NO_HANDLE (also where it is
 * closed), SEATS_OUT, NO_MEMORY; the board is then as it was. */
LIVEVEC_MUST_USE livevec_count livevec_board_close(livevec_board *board);

/**@{*/
/** Of a closed board: how many elements there are, and the element at an index. Reads. Cost: O(1). Refusals: NULL, NO_HANDLE (also where it is not
 * closed), and OUT_OF_RANGE of an index. */
LIVEVEC_MUST_USE livevec_count livevec_closed_size(livevec_board *board);
LIVEVEC_MUST_USE livevec_element livevec_closed_get(livevec_board *board, uint32_t index);
/**@}*/

/** All elements of a closed board, into a buffer that takes `room` of them. `*count` is how many there are, also if the buffer is too short; it
 * and the buffer are as they were where the call is refused otherwise. Reads. Cost: O(n). Refusals: NULL (of slot, count, or a buffer with room),
 * NO_HANDLE, SHORT_BUFFER. */
LIVEVEC_MUST_USE uint32_t livevec_closed_read(livevec_board *board, int64_t *buffer, size_t room, uint32_t *count);

/**@{*/
/** Frees a board, closed or not; frees a seat. The slot is then empty. Board and seats may be freed in any order: a seat whose board was freed stays
 * good. A seat that is freed is not back, and never will be: its board can't be closed any more, but freed. Cost: O(n). Refusals: NULL, NO_HANDLE. */
LIVEVEC_INLINE uint32_t livevec_free_board(livevec_board *board) { return livevec_free_slot(board, LIVEVEC_BOARD); }
LIVEVEC_INLINE uint32_t livevec_free_seat(livevec_seat *seat) { return livevec_free_slot(seat, LIVEVEC_SEAT); }
/**@}*/

#endif
