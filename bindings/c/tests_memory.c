/* Want of memory: requests that fail when a test says so, and boards that meet them. And how much memory is held. */
#include "tests_board.h"

#include <malloc.h>
#include <stdlib.h>

/* The linker has the archive call these four in place of the C library's (--wrap). */

void *__real_malloc(size_t size);
void *__real_calloc(size_t count, size_t size);
void *__real_realloc(void *old, size_t size);
void __real_free(void *held);
void *__wrap_malloc(size_t size);
void *__wrap_calloc(size_t count, size_t size);
void *__wrap_realloc(void *old, size_t size);
void __wrap_free(void *held);

int until_failure;
static size_t held;

size_t memory_held(void)
{
    return __atomic_load_n(&held, __ATOMIC_RELAXED);
}

/* What an allocation holds counts from when it is made until it is freed. */
static void *counted(void *made)
{
    __atomic_fetch_add(&held, malloc_usable_size(made), __ATOMIC_RELAXED);
    return made;
}

static void uncounted(void *gone)
{
    __atomic_fetch_sub(&held, malloc_usable_size(gone), __ATOMIC_RELAXED);
}

static bool fails(void)
{
    return until_failure > 0 && --until_failure == 0;
}

void *__wrap_malloc(size_t size)
{
    return fails() ? NULL : counted(__real_malloc(size));
}

void *__wrap_calloc(size_t count, size_t size)
{
    return fails() ? NULL : counted(__real_calloc(count, size));
}

void *__wrap_realloc(void *old, size_t size)
{
    if (fails())
        return NULL;
    size_t before = malloc_usable_size(old);
    void *made = __real_realloc(old, size);
    if (made)
        __atomic_fetch_sub(&held, before, __ATOMIC_RELAXED);
    return made ? counted(made) : NULL;
}

void __wrap_free(void *gone)
{
    uncounted(gone);
    __real_free(gone);
}

/* Lets each request for memory of a call fail, one at a time, until the call is through. Tells how many were refused, -1 for any other answer. */
static int starved(uint32_t (*call)(void))
{
    for (int refused = 0;; refused++) {
        until_failure = refused + 1;
        uint32_t refusal = call();
        until_failure = 0;
        if (refusal != LIVEVEC_NO_MEMORY)
            return refusal == LIVEVEC_OK ? refused : -1;
    }
}

static livevec_board short_board;
static livevec_seat short_seat;

static uint32_t makes(void)
{
    return livevec_board_new(&short_board, LIVEVEC_AFFINE, 9, 100, 8);
}

static uint32_t sits(void)
{
    return livevec_board_sit(&short_board, &short_seat);
}

static uint32_t ends(void)
{
    return livevec_board_close(&short_board).refusal;
}

/* A call that wants memory is refused where there is none, and goes through unharmed later. */
void starved_boards(void)
{
    IS(starved(makes) > 0, true);
    IS(starved(sits) > 0, true);
    IS(livevec_seat_push(&short_seat, 42, ONCE).edit, 1);
    IS(livevec_board_take_back(&short_board, &short_seat), LIVEVEC_OK);
    IS(starved(ends) > 0, true);
    IS(livevec_closed_get(&short_board, 0).value, 42);
    IS(livevec_free_board(&short_board), LIVEVEC_OK);
    /* no other call wants any */
    IS(livevec_board_new(&short_board, LIVEVEC_SUM, 9, 100, 1), LIVEVEC_OK);
    IS(livevec_board_sit(&short_board, &short_seat), LIVEVEC_OK);
    until_failure = 1;
    for (int64_t i = 0; i < 9; i++)
        IS(livevec_seat_push(&short_seat, i, ONCE).refusal, LIVEVEC_OK);
    IS(livevec_seat_write(&short_seat, 0, 1, ONCE).refusal, LIVEVEC_OK);
    IS(livevec_seat_refresh(&short_seat, 0).refusal, LIVEVEC_OK);
    IS(livevec_seat_reduce(&short_seat, 0, 9).values.sum, 37);
    IS(livevec_seat_pop(&short_seat, ONCE).refusal, LIVEVEC_OK);
    IS(livevec_board_take_back(&short_board, &short_seat), LIVEVEC_OK);
    IS(livevec_free_board(&short_board), LIVEVEC_OK);
    until_failure = 0;
}
