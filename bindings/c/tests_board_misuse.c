/* Boards and seats: slots that are empty, freed or of other types, and null pointers. */
#include "tests_board.h"

static const livevec_board empty_board;
static const livevec_seat empty_seat;

/* Every call at a seat's slot that holds no seat. */
static void no_seat_is_at(livevec_seat *slot)
{
    IS(livevec_seat_push(slot, 1, ONCE).refusal, LIVEVEC_NO_HANDLE);
    IS(livevec_seat_pop(slot, ONCE).refusal, LIVEVEC_NO_HANDLE);
    IS(livevec_seat_write(slot, 0, 1, ONCE).refusal, LIVEVEC_NO_HANDLE);
    IS(livevec_seat_get(slot, 0).refusal, LIVEVEC_NO_HANDLE);
    IS(livevec_seat_size(slot).refusal, LIVEVEC_NO_HANDLE);
    IS(livevec_seat_reduce(slot, 0, 0).refusal, LIVEVEC_NO_HANDLE);
    IS(livevec_seat_refresh(slot, 0).refusal, LIVEVEC_NO_HANDLE);
}

/* Every call at a board's slot that holds neither an open nor a closed board. */
static void no_board_is_at(livevec_board *slot)
{
    livevec_seat s = empty_seat;
    int64_t buffer[1];
    uint32_t count;
    IS(livevec_board_sit(slot, &s), LIVEVEC_NO_HANDLE);
    IS(livevec_board_take_back(slot, &s), LIVEVEC_NO_HANDLE);
    IS(livevec_board_close(slot).refusal, LIVEVEC_NO_HANDLE);
    IS(livevec_closed_size(slot).refusal, LIVEVEC_NO_HANDLE);
    IS(livevec_closed_get(slot, 0).refusal, LIVEVEC_NO_HANDLE);
    IS(livevec_closed_read(slot, buffer, 1, &count), LIVEVEC_NO_HANDLE);
}

/* Slots that are empty, freed, or hold something else. */
static void misuse(void)
{
    livevec_vector v = {0};
    livevec_board b = empty_board;
    livevec_seat s = empty_seat;
    no_board_is_at(&b);
    no_seat_is_at(&s);
    IS(livevec_free_seat(&s), LIVEVEC_NO_HANDLE);
    IS(livevec_new(&v, 1, 9), LIVEVEC_OK);
    no_board_is_at((livevec_board *)(void *)&v);
    no_seat_is_at((livevec_seat *)(void *)&v);
    IS(livevec_size(&v).value, 0);
    open_with_seat(&b, &s, LIVEVEC_SUM, 1, 9);
    no_board_is_at((livevec_board *)(void *)&s);
    no_seat_is_at((livevec_seat *)(void *)&b);
    IS(livevec_board_take_back((livevec_board *)(void *)&v, &s), LIVEVEC_NO_HANDLE);
    IS(livevec_board_take_back(&b, (livevec_seat *)(void *)&v), LIVEVEC_NO_HANDLE);
    IS(livevec_push((livevec_vector *)(void *)&b, 1).refusal, LIVEVEC_NO_HANDLE);
    IS(livevec_push((livevec_vector *)(void *)&s, 1).refusal, LIVEVEC_NO_HANDLE);
    IS(livevec_size((livevec_vector *)(void *)&s).refusal, LIVEVEC_NO_HANDLE);
    IS(livevec_seat_push(&s, 1, ONCE).edit, 1);
    IS(livevec_board_take_back(&b, &s), LIVEVEC_OK);
    no_seat_is_at(&s);
    IS(livevec_free_seat(&s), LIVEVEC_NO_HANDLE);
    IS(livevec_board_close(&b).value, 1);
    no_seat_is_at((livevec_seat *)(void *)&b);
    IS(livevec_free_board(&b), LIVEVEC_OK);
    no_board_is_at(&b);
    IS(livevec_free_board(&b), LIVEVEC_NO_HANDLE);
    IS(livevec_free(&v), LIVEVEC_OK);
}

static void null(void)
{
    livevec_board b = empty_board;
    livevec_seat s = empty_seat;
    int64_t buffer[1];
    uint32_t count;
    IS(livevec_board_new(NULL, LIVEVEC_SUM, 1, 1, 1), LIVEVEC_NULL);
    IS(livevec_board_sit(NULL, &s), LIVEVEC_NULL);
    IS(livevec_board_sit(&b, NULL), LIVEVEC_NULL);
    IS(livevec_board_take_back(NULL, &s), LIVEVEC_NULL);
    IS(livevec_board_take_back(&b, NULL), LIVEVEC_NULL);
    IS(livevec_board_close(NULL).refusal, LIVEVEC_NULL);
    IS(livevec_closed_size(NULL).refusal, LIVEVEC_NULL);
    IS(livevec_closed_get(NULL, 0).refusal, LIVEVEC_NULL);
    IS(livevec_closed_read(NULL, buffer, 1, &count), LIVEVEC_NULL);
    IS(livevec_closed_read(&b, NULL, 1, &count), LIVEVEC_NULL);
    IS(livevec_closed_read(&b, buffer, 1, NULL), LIVEVEC_NULL);
    IS(livevec_seat_push(NULL, 1, ONCE).refusal, LIVEVEC_NULL);
    IS(livevec_seat_pop(NULL, ONCE).refusal, LIVEVEC_NULL);
    IS(livevec_seat_write(NULL, 0, 1, ONCE).refusal, LIVEVEC_NULL);
    IS(livevec_seat_get(NULL, 0).refusal, LIVEVEC_NULL);
    IS(livevec_seat_size(NULL).refusal, LIVEVEC_NULL);
    IS(livevec_seat_reduce(NULL, 0, 0).refusal, LIVEVEC_NULL);
    IS(livevec_seat_refresh(NULL, 0).refusal, LIVEVEC_NULL);
    IS(livevec_free_board(NULL), LIVEVEC_NULL);
    IS(livevec_free_seat(NULL), LIVEVEC_NULL);
}

void misuse_of_boards(void)
{
    misuse();
    null();
}
