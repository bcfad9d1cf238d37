/* A lock round a vector, a series or samples, and its subscribers. All is done by calls of livevec.h at the handle; no proof covers what stands here.
 * It is an object of its own, so that only a program that shares asks for the calls of threads. */
#include "livevec_shared_lock.h"

/* Its place is each thread's own. */
static _Thread_local char place;

bool livevec_private_is_within(const shared_lock *at)
{
    return __atomic_load_n(&at->holder, __ATOMIC_RELAXED) == &place;
}

/* The number of the last edit. Of a handle that can't be asked, as one whose elements are lent, it is the last one that is known. */
static uint64_t edits_of(shared_lock *at)
{
    livevec_series_count count = {.refusal = 0};
    if (at->is_series) {
        count = livevec_series_edits(at->series);
    } else {
        livevec_count of_vector = livevec_edits(at->vector);
        count = (livevec_series_count){.refusal = of_vector.refusal, .value = of_vector.value};
    }
    if (!count.refusal)
        at->edits = count.value;
    return at->base + at->edits;
}

static uint32_t put_round(livevec_shared *slot, livevec_vector *vector, livevec_series *series)
{
    uint32_t why = IS_EMPTY(slot);
    if (!why)
        why = series ? livevec_series_edits(series).refusal : livevec_edits(vector).refusal;
    if (why)
        return why;
    shared_lock *at = malloc(sizeof *at);
    if (!at)
        return LIVEVEC_NO_MEMORY;
    *at = (shared_lock){.mutex = PTHREAD_MUTEX_INITIALIZER, .vector = vector, .series = series, .is_series = series, .holders = 1};
    at->told = edits_of(at);
    slot->at_ = at;
    return LIVEVEC_OK;
}

uint32_t livevec_shared_new(livevec_shared *slot, livevec_vector *vector)
{
    return put_round(slot, vector, NULL);
}

uint32_t livevec_shared_new_series(livevec_shared *slot, livevec_series *series)
{
    return series ? put_round(slot, NULL, series) : LIVEVEC_NULL;
}

uint32_t livevec_shared_enter(livevec_shared *slot)
{
    uint32_t why = LEADS(slot);
    if (why)
        return why;
    shared_lock *at = slot->at_;
    why = take_lock(at);
    if (!why && at->closed) {
        give_lock(at);
        why = LIVEVEC_NO_HANDLE;
    }
    if (!why)
        __atomic_store_n(&at->holder, &place, __ATOMIC_RELAXED);
    return why;
}

/* What refuses a call of a thread that hasn't entered. */
static uint32_t judge_within(livevec_shared *slot)
{
    uint32_t why = LEADS(slot);
    return why ? why : livevec_private_is_within(slot->at_) ? LIVEVEC_OK : LIVEVEC_NO_HANDLE;
}

/* Lets the lock go, and wakes who waits for a change. A worker that is awake sees it by itself, and calls others where there is much to do. */
static void wake(shared_lock *at, bool is_changed)
{
    bool is_called = is_changed && at->idle == at->working && !at->calls && call_worker(at);
    bool is_awaited = is_changed && at->unaware;
    at->changes += is_changed;
    at->unaware = at->unaware && !is_changed;
    give_lock(at);
    if (is_called)
        ring(&at->work, 1);
    if (is_awaited)
        ring(&at->change, ALL);
}

livevec_left livevec_shared_leave(livevec_shared *slot)
{
    uint32_t why = judge_within(slot);
    if (why)
        return AS_STRUCT(livevec_left, why);
    shared_lock *at = slot->at_;
    uint64_t edit = edits_of(at);
    bool is_edited = edit != at->told;
    at->told = edit;
    __atomic_store_n(&at->holder, NULL, __ATOMIC_RELAXED);
    wake(at, is_edited);
    return (livevec_left){.is_edited = is_edited, .edit = edit};
}

static uint32_t exchange(livevec_shared *slot, bool is_series, livevec_vector *vector, livevec_series *series)
{
    uint32_t why = judge_within(slot);
    if (why)
        return why;
    shared_lock *at = slot->at_;
    if (at->is_series != is_series)
        return LIVEVEC_NO_HANDLE;
    if (at->vector == vector && at->series == series)
        return LIVEVEC_OK;
    at->vector = vector;
    at->series = series;
    at->base = at->told + 1;
    at->edits = 0;
    return LIVEVEC_OK;
}

uint32_t livevec_shared_exchange(livevec_shared *slot, livevec_vector *vector)
{
    return exchange(slot, false, vector, NULL);
}

uint32_t livevec_shared_exchange_series(livevec_shared *slot, livevec_series *series)
{
    return exchange(slot, true, NULL, series);
}

/* Pushes all elements of one vector into another. */
static uint32_t copy_all(livevec_vector *from, livevec_vector *to)
{
    livevec_count size = livevec_size(from);
    int64_t *elements = size.value ? malloc(size.value * sizeof *elements) : NULL;
    uint32_t why = size.refusal;
    if (!why && size.value && !elements)
        why = LIVEVEC_NO_MEMORY;
    if (!why)
        why = livevec_read(from, 0, size.value, elements, size.value).refusal;
    if (!why)
        why = livevec_push_many(to, elements, size.value).refusal;
    free(elements);
    return why;
}

uint32_t livevec_shared_renew(livevec_shared *slot, livevec_vector *fresh)
{
    uint32_t why = first_of(THERE(slot && fresh), judge_within(slot));
    if (why)
        return why;
    shared_lock *at = slot->at_;
    if (at->is_series)
        return LIVEVEC_NO_HANDLE;
    livevec_count made = livevec_edits(fresh);
    uint64_t edit = edits_of(at);
    why = made.refusal ? made.refusal : made.value || fresh == at->vector ? LIVEVEC_IN_USE : copy_all(at->vector, fresh);
    if (why)
        return why;
    at->vector = fresh;
    at->edits = livevec_edits(fresh).value;
    at->base = edit - at->edits;
    // nothing has changed, but that all summaries are wanted
    if (call_worker(at))
        ring(&at->work, 1);
    return LIVEVEC_OK;
}

/* What a subscriber has at a shared form. */
typedef struct shared_seat {
    shared_lock *at;
    struct shared_seat *next;
    livevec_queries *queries;
    uint64_t seen;                          /* the changes that there were when it looked last; others before its first look */
    uint64_t pause, rested;                 /* how long it pauses after a look, and until when it does */
    livevec_told end;                       /* what it is told at the end, and wasn't given yet, */
    livevec_note last[LIVEVEC_MOST_QUERIES]; /* with the notes */
} shared_seat;

enum { MILLISECOND = 1000000 };
static const uint64_t a_day = UINT64_C(86400000000000);

/* What a set tells by the handle. */
static livevec_series_noted noted_by(shared_lock *at, livevec_queries *queries, livevec_note *notes, size_t room)
{
    if (at->is_series)
        return livevec_series_notes(queries, at->series, notes, room);
    livevec_noted noted = livevec_notes(queries, at->vector, notes, room);
    return (livevec_series_noted){.refusal = noted.refusal, .detail = noted.detail, .count = noted.count};
}

/* The notes that there are now, under the lock. */
static livevec_told look(shared_seat *seat, livevec_note *notes, size_t room)
{
    shared_lock *at = seat->at;
    livevec_series_noted noted = noted_by(at, seat->queries, notes, room);
    if (noted.refusal)
        return (livevec_told){.refusal = noted.refusal, .detail = noted.detail};
    seat->seen = at->changes;
    for (uint32_t i = 0; i < noted.count; i++)
        notes[i].edit += (uint32_t)at->base;
    return (livevec_told){.edit = noted.count ? edits_of(at) : 0, .count = noted.count};
}

/* The same, with a pause behind it. */
static livevec_told look_and_rest(shared_seat *seat, livevec_note *notes, size_t room)
{
    uint64_t start = now();
    livevec_told told = look(seat, notes, room);
    uint64_t end = now(), pause = 2 * (end - start);
    seat->rested = end + (!seat->pause ? 0 : pause > seat->pause ? pause : seat->pause);
    return told;
}

/* What is told once it is closed. */
static livevec_told last_of(shared_seat *seat, livevec_note *notes, size_t room)
{
    livevec_told told = seat->end;
    if (told.count > room)
        return (livevec_told){.refusal = LIVEVEC_SHORT_BUFFER, .detail = told.count};
    if (told.count)
        memcpy(notes, seat->last, told.count * sizeof *notes);
    seat->end = (livevec_told){.is_over = true};
    return told;
}

uint32_t livevec_shared_close(livevec_shared *slot)
{
    uint32_t why = LEADS(slot);
    if (why)
        return why;
    shared_lock *at = slot->at_;
    why = take_open(at, at->is_series);
    if (why)
        return why;
    at->closed = true;
    for (shared_seat *seat = at->seats; seat; seat = seat->next) {
        seat->end = seat->seen == at->changes ? (livevec_told){.is_over = true} : look(seat, seat->last, LIVEVEC_MOST_QUERIES);
        if (!seat->end.refusal && !seat->end.count)
            seat->end.is_over = true;
    }
    // jobs that nobody delivers any more are handed out again
    if (!at->is_series)
        livevec_forget(at->vector);
    give_lock(at);
    ring(&at->work, ALL);
    ring(&at->change, ALL);
    ring(&at->pause, ALL);
    return LIVEVEC_OK;
}

uint32_t livevec_free_shared(livevec_shared *slot)
{
    uint32_t why = LEADS(slot);
    if (!why && livevec_shared_close(slot) == LIVEVEC_BUSY)
        why = LIVEVEC_BUSY;
    if (why)
        return why;
    let_go(slot->at_);
    slot->at_ = NULL;
    return LIVEVEC_OK;
}

uint32_t livevec_shared_subscribe(livevec_shared *slot, livevec_subscriber *subscriber, livevec_queries *queries)
{
    uint32_t why = first_of(first_of(THERE(slot && queries), IS_EMPTY(subscriber)), LEADS(slot));
    if (why)
        return why;
    shared_lock *at = slot->at_;
    shared_seat *seat = zeros(sizeof *seat);
    why = seat ? take_open(at, at->is_series) : LIVEVEC_NO_MEMORY;
    if (why) {
        free(seat);
        return why;
    }
    *seat = (shared_seat){.at = at, .next = at->seats, .queries = queries, .seen = at->changes - 1, .pause = MILLISECOND};
    at->seats = seat;
    hold(at);
    give_lock(at);
    subscriber->at_ = seat;
    return LIVEVEC_OK;
}

/* Sleeps under the lock until there is something to tell, or until a time. */
static livevec_told awaited(shared_seat *seat, livevec_note *notes, size_t room, uint64_t till)
{
    shared_lock *at = seat->at;
    while (!at->closed) {
        uint64_t time = now();
        if (time >= seat->rested && seat->seen != at->changes) {
            livevec_told told = look_and_rest(seat, notes, room);
            if (told.refusal || told.count)
                return told;
        } else if (time >= till) {
            return AS_STRUCT(livevec_told, LIVEVEC_OK);
        } else if (time < seat->rested) {
            sleep_till(at, &at->pause, seat->rested < till ? seat->rested : till);
        } else {
            at->unaware = true;
            sleep_till(at, &at->change, till);
        }
    }
    return last_of(seat, notes, room);
}

/* What there is to tell: now, or once there is something, but not later than in so many nanoseconds. */
static livevec_told told_to(livevec_subscriber *slot, livevec_note *notes, size_t room, bool sleeps, uint64_t nanoseconds)
{
    uint32_t why = first_of(first_of(THERE(slot), ARRAY(notes, room)), LEADS(slot));
    if (why)
        return AS_STRUCT(livevec_told, why);
    shared_seat *seat = slot->at_;
    uint64_t start = now();
    why = take_lock(seat->at);
    if (why)
        return AS_STRUCT(livevec_told, why);
    livevec_told told = {.refusal = 0};
    if (seat->at->closed)
        told = last_of(seat, notes, room);
    else if (sleeps)
        told = awaited(seat, notes, room, nanoseconds > UINT64_MAX - start ? UINT64_MAX : start + nanoseconds);
    else if (seat->seen != seat->at->changes)
        told = look_and_rest(seat, notes, room);
    give_lock(seat->at);
    return told;
}

livevec_told livevec_subscriber_next(livevec_subscriber *slot, livevec_note *notes, size_t room, uint64_t nanoseconds)
{
    return told_to(slot, notes, room, true, nanoseconds);
}

livevec_told livevec_subscriber_look(livevec_subscriber *slot, livevec_note *notes, size_t room)
{
    return told_to(slot, notes, room, false, 0);
}

uint32_t livevec_subscriber_set_pause(livevec_subscriber *slot, uint64_t nanoseconds)
{
    uint32_t why = LEADS(slot);
    if (!why)
        ((shared_seat *)slot->at_)->pause = nanoseconds < a_day ? nanoseconds : a_day;
    return why;
}

uint32_t livevec_free_subscriber(livevec_subscriber *slot)
{
    uint32_t why = LEADS(slot);
    if (why)
        return why;
    shared_seat *seat = slot->at_;
    shared_lock *at = seat->at;
    // a thread that has entered is between two calls
    bool has_entered = take_lock(at) == LIVEVEC_BUSY;
    shared_seat **before = &at->seats;
    while (*before != seat)
        before = &(*before)->next;
    *before = seat->next;
    if (!has_entered)
        give_lock(at);
    let_go(at);
    free(seat);
    slot->at_ = NULL;
    return LIVEVEC_OK;
}
