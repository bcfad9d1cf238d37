/* Boards, and their seats. */
#include "livevec_slots.h"

#include <stdatomic.h>

TOLD_AT_TWO(board_sit, (livevec_board *board, livevec_seat *seat), board, seat, (board, seat))
TOLD_AT_TWO(board_take_back, (livevec_board *board, livevec_seat *seat), board, seat, (board, seat))
/* A seat's calls are an edit by its livevec_edit_kind, or one of these. */
enum { LOOK_AT = 4, COUNT = 5, REFRESH = 6 };
livevec_edited livevec_proved_seat_call(livevec_seat *slot, uint32_t what, uint32_t index, int64_t value, uint32_t tries);
#define SEAT_EDITED(name, parameters, call) ENTERED(livevec_edited, AS_STRUCT, name, parameters, THERE(slot), slot, enter, call)
SEAT_EDITED(seat_push, (livevec_seat *slot, int64_t value, uint32_t tries), seat_call(slot, LIVEVEC_PUSH, 0, value, tries))
SEAT_EDITED(seat_pop, (livevec_seat *slot, uint32_t tries), seat_call(slot, LIVEVEC_POP, 0, 0, tries))
SEAT_EDITED(seat_write, (livevec_seat *slot, uint32_t index, int64_t value, uint32_t tries), seat_call(slot, LIVEVEC_WRITE, index, value, tries))

static livevec_element as_element(livevec_edited told)
{
    return (livevec_element){.refusal = told.refusal, .detail = told.detail, .value = told.value};
}
static livevec_count as_count(livevec_edited told)
{
    return (livevec_count){.refusal = told.refusal, .value = told.place};
}
static livevec_renewed as_renewed(livevec_edited told)
{
    return (livevec_renewed){.refusal = told.refusal, .detail = told.detail, .edit = told.edit, .version = told.place};
}
LOOKS_AT(livevec_element, seat_get, (livevec_seat *slot, uint32_t index), THERE(slot), as_element(livevec_proved_seat_call(slot, LOOK_AT, index, 0, 1)))
LOOKS_AT(livevec_count, seat_size, (livevec_seat *slot), THERE(slot), as_count(livevec_proved_seat_call(slot, COUNT, 0, 0, 1)))
EDITS(livevec_renewed, seat_refresh, (livevec_seat *slot, uint32_t block), THERE(slot), as_renewed(livevec_proved_seat_call(slot, REFRESH, block, 0, 1)))
READS(livevec_reduced, seat_reduce, (livevec_seat *seat, uint32_t lo, uint32_t hi), seat, (seat, lo, hi))
ANSWERED(livevec_count, board_close, (livevec_board *board), board, (board))
COUNTED(livevec_count, closed_size, livevec_board, LIVEVEC_BOARD, ELEMENTS)
ENTERED(livevec_element, AS_STRUCT, closed_get, (livevec_board *slot, uint32_t index), THERE(slot), slot, enter_to_read,
        get(slot, LIVEVEC_BOARD, index))

/* Each board has a stamp of its own, which its seats have too: so a seat is told from those of other boards. */
uint32_t livevec_proved_board_new(livevec_board *slot, uint32_t kind, uint32_t buckets, uint32_t edits, uint32_t seats, uint64_t stamp);

static _Atomic uint64_t stamps;
ENTERED(uint32_t, AS_NUMBER, board_new, (livevec_board *slot, uint32_t kind, uint32_t buckets, uint32_t edits, uint32_t seats), THERE(slot), slot, enter,
        board_new(slot, kind, buckets, edits, seats, atomic_fetch_add(&stamps, 1)))

static uint32_t read_closed(livevec_board *board, int64_t *buffer, size_t room, uint32_t *count)
{
    livevec_series_count size = livevec_proved_count(board, LIVEVEC_BOARD, ELEMENTS);
    if (size.refusal)
        return size.refusal;
    *count = (uint32_t)size.value;
    return livevec_proved_read(board, LIVEVEC_BOARD, 0, *count, buffer ? buffer : &(int64_t){0}, room).refusal;
}
IN_SLOT(uint32_t, AS_NUMBER, closed_read, (livevec_board *board, int64_t *buffer, size_t room, uint32_t *count),
        first_of(THERE(board && count), ARRAY(buffer, room)), board, enter_to_read, read_closed(board, buffer, room, count))
