/* How the C functions of the library enter the slots of a call, and stand over the proved exports of their names. Not installed. */
#ifndef LIVEVEC_SLOTS_H
#define LIVEVEC_SLOTS_H

#define _POSIX_C_SOURCE 200809L /* of nanosleep */

#include "livevec.h"

#include <sched.h>
#include <time.h>

/* Whether this process has one thread alone, as glibc tells since 2.32; elsewhere it isn't known. */
extern char __libc_single_threaded __attribute__((weak));

/* What a slot's byte says: no call is at it; one that may edit is; its elements are lent; one that only reads is. */
enum { LEFT = 0, ENTERED_TO_EDIT = 1, LENT_OUT = 2, ENTERED_TO_READ = 3 };

/* A slot serves one call at a time, as a read also keeps what it computes: the slot is entered for a call. One that may edit and finds the slot
 * entered does nothing.
 * One thread marks it by a plain store. glibc takes back that there is one before a second begins, and no call here begins one: so only a
 * signal's handler comes between look and mark, and its calls end before it returns. The fence keeps a call's reads behind its mark. */
static inline bool is_single(void)
{
    return &__libc_single_threaded && __libc_single_threaded;
}

static inline bool mark_single(unsigned char *busy, unsigned char as)
{
    if (__atomic_load_n(busy, __ATOMIC_ACQUIRE))
        return false;
    __atomic_store_n(busy, as, __ATOMIC_RELAXED);
    __atomic_signal_fence(__ATOMIC_SEQ_CST);
    return true;
}

static inline bool enter(unsigned char *busy)
{
    unsigned char left = LEFT;
    if (is_single())
        return mark_single(busy, ENTERED_TO_EDIT);
    return __atomic_compare_exchange_n(busy, &left, ENTERED_TO_EDIT, false, __ATOMIC_ACQUIRE, __ATOMIC_RELAXED);
}

/* How long a read waits for another one: some looks, then turns of other threads, then naps, so that a thread of a lower priority gets on. */
enum { LOOKS = 100, TURNS = 1000, NAP_NANOSECONDS = 50000 };

static inline void wait_for_turn(unsigned tries)
{
    if (tries < LOOKS)
        return;
    if (tries < TURNS)
        sched_yield();
    else
        nanosleep(&(struct timespec){.tv_nsec = NAP_NANOSECONDS}, NULL);
}

/* A read waits while another one is at the slot. Beside an edit, or at a slot that is lent, it does nothing. So does one that a signal's handler
 * makes in the midst of another where there is one thread, which would wait for itself. */
static inline bool enter_to_read(unsigned char *busy)
{
    if (is_single())
        return mark_single(busy, ENTERED_TO_READ);
    for (unsigned tries = 0;;) {
        unsigned char was = LEFT;
        if (__atomic_compare_exchange_n(busy, &was, ENTERED_TO_READ, false, __ATOMIC_ACQUIRE, __ATOMIC_RELAXED))
            return true;
        if (was != ENTERED_TO_READ)
            return false;
        for (; __atomic_load_n(busy, __ATOMIC_RELAXED) == ENTERED_TO_READ; tries += tries < TURNS)
            wait_for_turn(tries);
    }
}

/* What a call did stays before this store, for a handler too. */
static inline void leave(unsigned char *busy)
{
    __atomic_store_n(busy, LEFT, __ATOMIC_RELEASE);
}

/* A slot that a call has entered stays entered, as one that is lent, until it is given back. */
static inline void lend(unsigned char *busy)
{
    __atomic_store_n(busy, LENT_OUT, __ATOMIC_RELEASE);
}

/* Leaves a slot that is lent, and tells what it was. What was read of it stays before. */
static inline unsigned char give_back(unsigned char *busy)
{
    unsigned char was = LENT_OUT;
    __atomic_compare_exchange_n(busy, &was, LEFT, false, __ATOMIC_ACQ_REL, __ATOMIC_RELAXED);
    return was;
}

/* Enters two slots, or none, each as is told. One slot isn't two. */
static inline bool enter_both(unsigned char *first, bool (*as_first)(unsigned char *), unsigned char *second, bool (*as_second)(unsigned char *))
{
    if (first == second || !as_first(first))
        return false;
    if (as_second(second))
        return true;
    leave(first);
    return false;
}

static inline void leave_it(unsigned char **busy)
{
    leave(*busy);
}

/* An answer that has a refusal alone, as a number and as a struct. */
#define AS_NUMBER(answer, number) (number)
#define AS_STRUCT(answer, number) ((answer){.refusal = (number)})

/* Leaves a slot where the function ends that has this line: the answer is made in the caller's place then, and isn't copied. */
#define LEAVES(name, slot) unsigned char *name __attribute__((cleanup(leave_it), unused)) = &(slot)->busy_
/* The same of two, the second first. */
#define LEAVES_BOTH(first, second) LEAVES(left_last, first); LEAVES(left, second)

/* What refuses an array of the caller's before it is read: no pointer, or a length that no array can have. */
static inline uint32_t judge_array(const void *array, size_t length, size_t each)
{
    return !array && length ? LIVEVEC_NULL : length > PTRDIFF_MAX / each ? LIVEVEC_TOO_LONG : LIVEVEC_OK;
}
#define ARRAY(array, length) judge_array(array, length, sizeof *(array))
/* The first that refuses, of pointers and of arrays that are judged. */
#define THERE(pointers) ((pointers) ? LIVEVEC_OK : LIVEVEC_NULL)
static inline uint32_t first_of(uint32_t why, uint32_t next)
{
    return why ? why : next;
}

/* `livevec_NAME`: `judged` refuses pointers and lengths; `entered` enters the slots of the call, and `leaves` leaves them at its end. */
#define IN_SLOTS(answer, as, name, parameters, judged, entered, leaves, ...) \
    answer livevec_##name parameters                                         \
    {                                                                        \
        uint32_t why = judged;                                               \
        if (why)                                                             \
            return as(answer, why);                                          \
        if (!entered)                                                        \
            return as(answer, LIVEVEC_BUSY);                                 \
        leaves;                                                              \
        return __VA_ARGS__;                                                  \
    }
/* The same at one slot, entered as `as_slot` does, and at two. An answer of more than a refusal is a struct. */
#define IN_SLOT(answer, as, name, parameters, judged, slot, as_slot, ...) \
    IN_SLOTS(answer, as, name, parameters, judged, as_slot(&(slot)->busy_), LEAVES(left, slot), __VA_ARGS__)
#define IN_BOTH(answer, as, name, parameters, judged, first, as_first, second, as_second, ...)                                     \
    IN_SLOTS(answer, as, name, parameters, judged, enter_both(&(first)->busy_, as_first, &(second)->busy_, as_second),         \
             LEAVES_BOTH(first, second), __VA_ARGS__)
#define EDITS(answer, name, parameters, judged, ...) IN_SLOT(answer, AS_STRUCT, name, parameters, judged, slot, enter, __VA_ARGS__)
#define LOOKS_AT(answer, name, parameters, judged, ...) IN_SLOT(answer, AS_STRUCT, name, parameters, judged, slot, enter_to_read, __VA_ARGS__)

/* By a call of a proved export of crates/livevec_c: what that promises stands in its contract there. */
#define BY_PROVED(answer, as, name, parameters, judged, entered, leaves, call) \
    IN_SLOTS(answer, as, name, parameters, judged, entered, leaves, livevec_proved_##call)
#define ENTERED(answer, as, name, parameters, judged, slot, as_slot, call) IN_SLOT(answer, as, name, parameters, judged, slot, as_slot, livevec_proved_##call)

/* `livevec_NAME` over the proved export of its name. */
#define OVER_PROVED(answer, as, name, parameters, judged, entered, leaves, arguments) \
    answer livevec_proved_##name parameters;                                          \
    BY_PROVED(answer, as, name, parameters, judged, entered, leaves, name arguments)

/* The same at one slot, with a further pointer or not, and at two; `as_..` is how each is entered. */
#define AT_ONE(answer, as, name, parameters, judged, slot, as_slot, arguments) \
    answer livevec_proved_##name parameters;                                   \
    ENTERED(answer, as, name, parameters, judged, slot, as_slot, name arguments)
#define AT_TWO(answer, as, name, parameters, first, as_first, second, as_second, arguments) \
    answer livevec_proved_##name parameters;                                                \
    IN_BOTH(answer, as, name, parameters, THERE(first && second), first, as_first, second, as_second, livevec_proved_##name arguments)

/* Of what answers by its refusal alone, of what answers more, and of what answers more and only reads. */
#define TOLD(name, parameters, slot, arguments) AT_ONE(uint32_t, AS_NUMBER, name, parameters, THERE(slot), slot, enter, arguments)
#define ANSWERED(answer, name, parameters, slot, arguments) AT_ONE(answer, AS_STRUCT, name, parameters, THERE(slot), slot, enter, arguments)
#define READS(answer, name, parameters, slot, arguments) AT_ONE(answer, AS_STRUCT, name, parameters, THERE(slot), slot, enter_to_read, arguments)
#define TOLD_AT_TWO(name, parameters, first, second, arguments) \
    AT_TWO(uint32_t, AS_NUMBER, name, parameters, first, enter, second, enter, arguments)
#define ANSWERED_AT_TWO(answer, name, parameters, first, as_first, second, as_second, arguments) \
    AT_TWO(answer, AS_STRUCT, name, parameters, first, as_first, second, as_second, arguments)

/* Of what takes bytes of the caller's and no slot. */
#define OF_BYTES(answer, name, parameters, judged, arguments) \
    OVER_PROVED(answer, AS_STRUCT, name, parameters, judged, true, (void)0, arguments)

/* What a slot of each livevec_sort is: so one function enters them all. Only the byte is read and written by way of it, as a character, which may be
 * done to what has any type. */
struct slot {
    livevec_handle handle_;
    unsigned char busy_;
};
#define AS_SLOT(any) ((struct slot *)(any))
#define IS_SLOT(type) \
    _Static_assert(sizeof(type) == sizeof(struct slot) && offsetof(type, busy_) == offsetof(struct slot, busy_), #type " is laid out as a slot");
IS_SLOT(livevec_vector) IS_SLOT(livevec_job) IS_SLOT(livevec_outcome) IS_SLOT(livevec_batch)
IS_SLOT(livevec_board) IS_SLOT(livevec_seat) IS_SLOT(livevec_series) IS_SLOT(livevec_queries)

uint32_t livevec_proved_free(void *slot, uint32_t sort);

/* What has no parameter begins by its number. */
enum { NEW_SERIES = 0, NEW_SAMPLES = 1, NEW_LOADER = 2, NEW_QUERIES = 3 };
uint32_t livevec_proved_begin(void *slot, uint32_t what);
#define BEGUN(name, type, what) ENTERED(uint32_t, AS_NUMBER, name, (type *slot), THERE(slot), slot, enter, begin(slot, what))

/* A proved scan has a column for each type of cell. It fills the one that its kind has, or that of all six. The others have no places, and begin
 * anywhere, since a proved call is never given a null pointer. */
#define COLUMNS                                                                                                                   \
    uint64_t *sums, size_t sums_length, int64_t *extremes, size_t extremes_length, livevec_total *totals, size_t totals_length,   \
        livevec_map *maps, size_t maps_length, livevec_states *states, size_t states_length, livevec_values *values, size_t values_length
static inline void *begin_of(bool filled, void *column)
{
    static livevec_values nowhere;
    return filled && column ? column : &nowhere;
}
/* By a function's own `column` and `length`. */
#define COLUMN_IF(filled) begin_of(filled, column), (filled) ? length : 0
#define COLUMNS_OF(kind)                                                                                                                 \
    COLUMN_IF(kind == LIVEVEC_SUM), COLUMN_IF(kind == LIVEVEC_LEAST || kind == LIVEVEC_GREATEST), COLUMN_IF(kind == LIVEVEC_BEST),       \
        COLUMN_IF(kind == LIVEVEC_AFFINE), COLUMN_IF(kind == LIVEVEC_AUTOMATON), COLUMN_IF(kind == LIVEVEC_ALL_SIX)

/* What refuses a column, before the slot is entered: its cells are those of its kind, and of no kind as long as a number. */
static inline uint32_t judge_column(uint32_t kind, const void *column, size_t length)
{
    size_t each = kind == LIVEVEC_ALL_SIX ? sizeof(livevec_values) : kind == LIVEVEC_BEST ? sizeof(livevec_total) : sizeof(uint64_t);
    return judge_array(column, length, each);
}

/* What is counted, by the numbers of the proved export: of a vector (and of a closed board its elements), and of a series or samples. */
enum { ELEMENTS = 0, ROOM = 1, ACCEPTED = 2 };
enum { FIRST_KEPT = 0, BEHIND_LAST = 1, SERIES_ACCEPTED = 2, SAVED_BYTES = 3 };
livevec_series_count livevec_proved_count(void *slot, uint32_t sort, uint32_t what);

/* `livevec_NAME` tells one of them. */
#define COUNTED(answer, name, type, sort, what) \
    LOOKS_AT(answer, name, (type *slot), THERE(slot), count_as_##answer(livevec_proved_count(slot, sort, what)))
static inline livevec_series_count count_as_livevec_series_count(livevec_series_count told)
{
    return told;
}
static inline livevec_count count_as_livevec_count(livevec_series_count told)
{
    return (livevec_count){.refusal = told.refusal, .value = (uint32_t)told.value};
}

/* The elements of a range of a vector, or of a closed board, into a buffer. */
livevec_scanned livevec_proved_read(void *slot, uint32_t sort, uint32_t lo, uint32_t hi, int64_t *buffer, size_t length);

/* What refuses a range of a vector whose slot is entered. A proved read says it, which is given no places: where they alone are wanting, nothing else
 * refuses the range. */
static inline livevec_scanned judge_range(livevec_vector *slot, uint32_t lo, uint32_t hi)
{
    livevec_scanned told = livevec_proved_read(slot, LIVEVEC_VECTOR, lo, hi, &(int64_t){0}, 0);
    return told.refusal == LIVEVEC_SHORT_BUFFER ? (livevec_scanned){.length = told.detail} : told;
}

/* All pushes at once, or all writes, or none. As many values as indices are handed over. A proved call is never given a null pointer. */
livevec_many livevec_proved_edit_all(livevec_vector *slot, bool pushes, const uint32_t *indices, size_t places, const int64_t *values, size_t length);

/* Pushes some elements at a vector whose slot is entered: all or none. */
static inline livevec_pushed push_all(livevec_vector *slot, const int64_t *values, size_t length)
{
    static const uint32_t no_index[1];
    if (!length)
        return (livevec_pushed){.refusal = livevec_proved_count(slot, LIVEVEC_VECTOR, ELEMENTS).refusal};
    livevec_many told = livevec_proved_edit_all(slot, true, no_index, 0, values, length);
    return (livevec_pushed){.refusal = told.refusal, .detail = told.detail, .edit = told.edit, .pushed = (uint32_t)told.done};
}

/* The same of a series, in 64 bits. */
livevec_series_many livevec_proved_series_edit_all(livevec_series *slot, bool pushes, const uint64_t *indices, size_t places, const int64_t *values,
                                                   size_t length);

/* The elements of a range of a series into a buffer, as many as it takes, or the times of samples. */
livevec_series_scanned livevec_proved_series_read(livevec_series *slot, bool times, uint64_t lo, uint64_t hi, int64_t *buffer, size_t length);

/* The elements that a proved call lends. It is given some to begin with, of which there are none. */
struct lent {
    const int64_t *elements;
    size_t length;
};
livevec_series_scanned livevec_proved_series_lend(livevec_series *slot, uint64_t lo, uint64_t hi, struct lent *lent);

/* Series and samples as bytes, and back. */
livevec_series_scanned livevec_proved_series_save(livevec_series *slot, uint64_t from, uint8_t *buffer, size_t length);
uint32_t livevec_proved_series_load(livevec_series *slot, const uint8_t *bytes, size_t length);
uint32_t livevec_proved_series_end_load(livevec_series *slot, bool timed);

/* The plain values of a range: by one kind; by all six, each by its tree; or by all six, as they are kept. */
#define BY_KIND false, false
#define BY_TREES true, true
#define AS_KEPT true, false
livevec_reduced livevec_proved_value(livevec_vector *slot, bool six, bool trees, uint32_t kind, uint32_t lo, uint32_t hi);
livevec_series_reduced livevec_proved_series_value(livevec_series *slot, bool six, bool trees, uint32_t kind, uint64_t lo, uint64_t hi);
#define VALUED(answer, name, parameters, call) ENTERED(answer, AS_STRUCT, name, parameters, THERE(slot), slot, enter_to_read, call)

/* An element of a vector, or of a closed board. */
livevec_element livevec_proved_get(void *slot, uint32_t sort, uint32_t index);

/* An element of a series, or of samples with its time. */
livevec_sample livevec_proved_series_get(livevec_series *slot, uint64_t index, bool timed);

#endif
