/* The workers of a shared vector: threads of the caller's that compute its summaries. All is done by calls of livevec.h; no proof covers what stands
 * here. It is an object of its own. */
#include "livevec_shared_lock.h"

/* How many jobs are claimed at once, so that the lock is taken seldom. How many blocks a batch is of at most, and how many summaries are computed in
 * place at once, so that the lock is held for a fifth of a millisecond at most. Where fewer blocks of a range want a job, claims find them sooner. How
 * many blocks a subtree has. How often one tries before it sleeps for the lock. */
enum { JOBS_AT_ONCE = 16, BLOCKS_AT_ONCE = 1024, ABOVE_AT_ONCE = 256, FEW = 64, OF_SUBTREE = 512, TRIES_TO_LOCK = 1000 };

/* For so many nanoseconds a worker lets edits go on, where some came while it computed, and waits for memory. */
static const uint64_t rest = 1000000;

/* What a worker has in hand: so many jobs, and what they came to, or one batch of blocks, or one subtree. A subtree that is spent is freed without the
 * lock. */
typedef struct shared_hands {
    shared_lock *at;
    bool is_dismissed; /* guarded by the lock */
    livevec_job jobs[JOBS_AT_ONCE];
    livevec_outcome outcomes[JOBS_AT_ONCE];
    size_t count;
    livevec_batch blocks, subtrees[2], *whole, *spent;
    uint32_t number;
    bool has_blocks, has_whole, has_spent, is_wanting;
} shared_hands;

static bool are_empty(const shared_hands *mine)
{
    return !mine->count && !mine->has_blocks && !mine->has_whole;
}

/* One is back, and so many nodes are new that want one above them: its blocks, or the top of a subtree. Each has a seventh of a node above it. */
static void back(shared_sweep *over, uint64_t installed)
{
    over->out--;
    over->above += (uint32_t)(installed / 7 + 1);
}

/* Hands in a subtree. Where a write came between, its blocks are taken in its place at once, and count as in hand as it did: so a sweep gets on beside a
 * writer. */
static void deliver_subtree(shared_hands *mine, shared_lock *at)
{
    bool is_taken = livevec_accept_subtree(at->vector, mine->whole).value;
    livevec_count copied = {.refusal = 0};
    if (!is_taken)
        copied = livevec_blocks(at->vector, &mine->blocks, OF_SUBTREE * mine->number, OF_SUBTREE);
    mine->has_blocks = copied.value;
    if (!mine->has_blocks)
        back(&at->over, is_taken);
    if (copied.refusal)
        livevec_forget(at->vector);
    livevec_batch *spent = mine->whole;
    mine->whole = mine->spent;
    mine->spent = spent;
    mine->has_whole = false;
    mine->has_spent = true;
}

/* Hands in what was computed. An outcome that the vector doesn't know, since another took its place, is let go. */
static void deliver(shared_hands *mine, shared_lock *at)
{
    for (; mine->count; mine->count--) {
        livevec_outcome *made = &mine->outcomes[mine->count - 1];
        if (livevec_vet(at->vector, made).yes)
            livevec_accept(at->vector, made);
        livevec_free_outcome(made);
    }
    if (mine->has_whole) {
        deliver_subtree(mine, at);
    } else if (mine->has_blocks) {
        livevec_taken taken = livevec_accept_blocks(at->vector, &mine->blocks);
        // it wasn't run for want of memory: what was claimed of it is handed out again
        if (taken.refusal)
            livevec_forget(at->vector);
        livevec_free_batch(&mine->blocks);
        back(&at->over, taken.installed);
        mine->has_blocks = false;
    }
}

/* Takes a subtree where one begins and is worth it, for it leaves fewer summaries above to be computed under the lock; else a batch of the next blocks,
 * up to where a later subtree begins. */
static void take_blocks(shared_hands *mine, shared_lock *at)
{
    shared_sweep *over = &at->over;
    livevec_count taken = {.refusal = 0};
    uint32_t first = over->next, end = first + OF_SUBTREE;
    mine->number = first / OF_SUBTREE;
    if (first % OF_SUBTREE == 0)
        taken = livevec_subtree(at->vector, mine->whole, mine->number);
    mine->has_whole = taken.value;
    if (!taken.value && !taken.refusal) {
        uint32_t all = livevec_size(at->vector).value / 8, most = first / OF_SUBTREE * OF_SUBTREE + BLOCKS_AT_ONCE;
        end = all < most ? all : most;
        end = end > first ? end : first;
        taken = livevec_blocks(at->vector, &mine->blocks, first, end - first);
        mine->has_blocks = taken.value;
    }
    mine->is_wanting = taken.refusal == LIVEVEC_NO_MEMORY;
    if (taken.refusal)
        return;
    over->next = end;
    over->is_under_way = taken.value >= FEW;
    over->out += taken.value > 0;
}

/* Claims jobs until the hands are full or there is none. Where they lie near together, blocks are gone over from there on in their place. */
static void claim(shared_hands *mine, shared_lock *at)
{
    livevec_claimed first = {.found = false}, last = first;
    while (mine->count < JOBS_AT_ONCE) {
        livevec_claimed claimed = livevec_claim(at->vector, &mine->jobs[mine->count]);
        mine->is_wanting = claimed.refusal == LIVEVEC_NO_MEMORY;
        if (!claimed.found)
            return;
        first = mine->count++ ? first : claimed;
        last = claimed;
    }
    if (last.level != 1 || last.number - first.number >= 4 * FEW)
        return;
    while (mine->count)
        livevec_free_job(&mine->jobs[--mine->count]);
    at->over.next = first.number;
    at->over.is_under_way = true;
    take_blocks(mine, at);
}

/* Takes a subtree or blocks where many that lie near together want a job, else jobs. */
static void take(shared_hands *mine, shared_lock *at)
{
    mine->is_wanting = false;
    if (are_empty(mine) && at->over.is_under_way)
        take_blocks(mine, at);
    if (are_empty(mine) && !mine->is_wanting && !at->over.out && !at->over.above)
        claim(mine, at);
}

/* To be woken takes longer than the lock is held as a rule: so a worker tries some times before it sleeps for it. */
static void lock_again(shared_lock *at)
{
    for (int tries = 0; tries < TRIES_TO_LOCK && __atomic_load_n(&at->is_taken, __ATOMIC_RELAXED); tries++)
        sched_yield();
    take_lock(at);
}

/* Computes what is in hand without the lock, and has another help where there is more. What can't be run for want of memory is seen where it is handed
 * in. */
static void run(shared_hands *mine, shared_lock *at)
{
    bool is_helped = (mine->count == JOBS_AT_ONCE || at->over.is_under_way) && call_worker(at);
    give_lock(at);
    if (is_helped)
        ring(&at->work, 1);
    if (mine->has_spent)
        livevec_free_batch(mine->spent);
    mine->has_spent = false;
    for (size_t i = 0; i < mine->count; i++)
        livevec_run(&mine->jobs[i], &mine->outcomes[i]);
    if (mine->has_blocks)
        livevec_run_blocks(&mine->blocks);
    if (mine->has_whole)
        livevec_run_blocks(mine->whole);
    lock_again(at);
}

/* Computes some summaries above, which takes no memory, and for which claims wait: so it comes before want of memory does. */
static void rise(shared_lock *at)
{
    uint32_t wanted = at->over.above < ABOVE_AT_ONCE ? at->over.above : ABOVE_AT_ONCE;
    at->over.above = livevec_refresh(at->vector, wanted).value < wanted ? 0 : at->over.above - wanted;
    give_lock(at);
    sched_yield();
    take_lock(at);
}

/* Sleeps until it is called, or told to stop. */
static void sleep_for_work(shared_hands *mine, shared_lock *at)
{
    at->idle++;
    while (!at->calls && !at->closed && !mine->is_dismissed)
        sleep_till(at, &at->work, UINT64_MAX);
    at->idle--;
    at->calls -= at->calls > 0;
}

/* Takes and delivers under the lock, computes without it, and sleeps while there is nothing to take. */
static void work(shared_hands *mine, shared_lock *at)
{
    uint64_t seen = at->changes;
    for (;;) {
        if (!at->closed)
            deliver(mine, at);
        if (are_empty(mine) && at->changes != seen && !at->closed)
            sleep_till(at, &at->pause, now() + rest);
        // what is in hand counts as such until it is delivered
        if (at->closed || (mine->is_dismissed && are_empty(mine)))
            return;
        seen = at->changes;
        take(mine, at);
        if (!are_empty(mine) || mine->has_spent) {
            run(mine, at);
            continue;
        }
        if (!at->over.out && at->over.above) {
            rise(at);
            continue;
        }
        if (mine->is_wanting)
            sleep_till(at, &at->pause, now() + rest);
        else
            sleep_for_work(mine, at);
        seen = at->changes;
    }
}

uint32_t livevec_shared_hire(livevec_shared *slot, livevec_worker *worker)
{
    uint32_t why = first_of(first_of(THERE(slot), IS_EMPTY(worker)), LEADS(slot));
    if (why)
        return why;
    shared_lock *at = slot->at_;
    why = take_open(at, false);
    if (why)
        return why;
    shared_hands *mine = zeros(sizeof *mine);
    if (mine) {
        hold(at);
        mine->at = at;
        mine->whole = &mine->subtrees[0];
        mine->spent = &mine->subtrees[1];
        worker->at_ = mine;
    }
    give_lock(at);
    return mine ? LIVEVEC_OK : LIVEVEC_NO_MEMORY;
}

uint32_t livevec_worker_work(livevec_worker *slot)
{
    uint32_t why = LEADS(slot);
    if (why)
        return why;
    shared_hands *mine = slot->at_;
    shared_lock *at = mine->at;
    why = take_lock(at);
    if (why)
        return why;
    at->working++;
    work(mine, at);
    at->working--;
    // a call that came to one that ends is another's
    bool is_called = call_worker(at);
    give_lock(at);
    if (is_called)
        ring(&at->work, 1);
    return LIVEVEC_OK;
}

uint32_t livevec_worker_dismiss(livevec_worker *slot)
{
    uint32_t why = LEADS(slot);
    if (why)
        return why;
    shared_hands *mine = slot->at_;
    shared_lock *at = mine->at;
    why = take_lock(at);
    if (why)
        return why;
    mine->is_dismissed = true;
    give_lock(at);
    ring(&at->work, ALL);
    ring(&at->pause, ALL);
    return LIVEVEC_OK;
}

uint32_t livevec_free_worker(livevec_worker *slot)
{
    uint32_t why = LEADS(slot);
    if (why)
        return why;
    shared_hands *mine = slot->at_;
    for (size_t i = 0; i < JOBS_AT_ONCE; i++) {
        livevec_free_job(&mine->jobs[i]);
        livevec_free_outcome(&mine->outcomes[i]);
    }
    livevec_free_batch(&mine->blocks);
    livevec_free_batch(mine->whole);
    livevec_free_batch(mine->spent);
    let_go(mine->at);
    free(mine);
    slot->at_ = NULL;
    return LIVEVEC_OK;
}
