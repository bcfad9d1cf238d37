/* What the tests of boards share. */
#ifndef TESTS_BOARD_H
#define TESTS_BOARD_H

#include "tests.h"

/* Where one thread alone edits, one try is enough. */
enum { ONCE = 1 };

/* A board with one seat. */
void open_with_seat(livevec_board *board, livevec_seat *seat, livevec_kind kind, uint32_t buckets, uint32_t edits);

void free_both(livevec_board *board, livevec_seat *seat);

/* The tests of boards that stand in files of their own. */
void misuse_of_boards(void);
void starved_boards(void);
void threads_at_boards(void);

#endif
