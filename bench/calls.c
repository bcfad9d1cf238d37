/* Calls from C. `calls questions`, `searches` or `windows` does by a series what `peers.rs` does by trees and queues of its own, on the same elements,
 * ranges and indices. `calls bounds` has each baseline in itself: writes and sums of all compared with a segment tree, running sums with a loop, many
 * pushes with a copy, and four workers of a shared vector with one thread. `calls pauses` has the longest single calls among 1,000,000 elements whose
 * six kinds are all asked for, by the processor time of their thread, which other work on the machine changes little. Each line that it prints is a label, nanoseconds, and how often the work was
 * done in them; or what was answered last. */
#include <livevec.h>

#include <pthread.h>
#include <stdio.h>
#include <stdlib.h>
#include <string.h>
#include <time.h>

enum { KEPT = 100000, LAST = 600, MOST = 1000000, WRITES = 100000, WORKERS = 4, LEVELS = 6 };

static const char *const kinds[] = {"sum", "least", "greatest", "best", "affine", "automaton"};
static int64_t elements[MOST];

static uint64_t next(uint64_t number) { return number * 6364136223846793005u + 1442695040888963407u; }
static uint64_t other(uint64_t number) { return number * 11400714819323198485u; }
static uint64_t pick(uint64_t number, uint64_t end) { return (number >> 33) % end; }
static int64_t element(uint64_t number) { return (int64_t)(number >> 8) - ((int64_t)1 << 55); }

static livevec_series_range range(uint64_t number, uint64_t size)
{
    uint64_t first = other(number), a = pick(first, size + 1), b = pick(other(first), size + 1);
    return a < b ? (livevec_series_range){a, b} : (livevec_series_range){b, a};
}

static void must(bool right, const char *what)
{
    if (right)
        return;
    fprintf(stderr, "wrong: %s\n", what);
    exit(EXIT_FAILURE);
}

static int64_t now(void)
{
    struct timespec t;
    clock_gettime(CLOCK_MONOTONIC, &t);
    return (int64_t)t.tv_sec * 1000000000 + t.tv_nsec;
}

static void show_since(const char *label, int64_t start, int turns) { printf("%s: %lld %d\n", label, (long long)(now() - start), turns); }

/* An answer as one number, as the plain program makes it. */
static uint64_t number_of(uint32_t kind, const livevec_values *v)
{
    uint64_t states = 0;
    switch (kind) {
    case LIVEVEC_SUM: return v->sum;
    case LIVEVEC_LEAST: return v->any ? (uint64_t)v->least : 0;
    case LIVEVEC_GREATEST: return v->any ? (uint64_t)v->greatest : 0;
    case LIVEVEC_BEST: return v->any ? v->best_low : 0;
    case LIVEVEC_AFFINE: return (uint64_t)v->affine_a * 31 + v->affine_b;
    default: memcpy(&states, v->automaton, sizeof states); return states;
    }
}

/* The answer before; at first it is a sum of 0. */
typedef struct last {
    uint32_t kind;
    livevec_values values;
} last;

static bool alike(uint32_t kind, const livevec_values *a, const livevec_values *b)
{
    return number_of(kind, a) == number_of(kind, b) && a->any == b->any && (kind != LIVEVEC_BEST || a->best_high == b->best_high);
}

/* Asks a series, and tells whether the answer is that before. So each counts. */
static uint64_t ask(last *before, livevec_series *s, uint32_t kind, uint64_t lo, uint64_t hi)
{
    livevec_series_reduced told = livevec_series_value(s, kind, lo, hi);
    bool same = !told.refusal && before->kind == kind && alike(kind, &told.values, &before->values);
    *before = (last){kind, told.values};
    return same;
}

/* What is done in a turn, by a number. What it gives goes into the number of the next. */
typedef struct work {
    livevec_series series;
    uint32_t kind;
    uint64_t size;
    last last, second;
} work;

/* A series of so many elements, with the tree of a kind. */
static work prepared(uint64_t size, uint32_t kind)
{
    work w = {.kind = kind, .size = size};
    uint64_t number = 1;
    must(!livevec_series_new(&w.series), "a series");
    for (uint64_t i = 0; i < size; i++)
        must(!livevec_series_push(&w.series, element(number = next(number))).refusal, "a push");
    must(!livevec_series_prepare(&w.series, kind), "a tree");
    return w;
}

static uint64_t asks(work *w, uint64_t number)
{
    livevec_series_range r = range(number, w->size);
    return ask(&w->last, &w->series, w->kind, r.lo, r.hi);
}

static uint64_t writes_and_asks(work *w, uint64_t number)
{
    (void)livevec_series_write(&w->series, pick(number, w->size), element(number)).refusal;
    return asks(w, number);
}

static uint64_t slides(work *w, uint64_t number)
{
    uint64_t size = livevec_series_push(&w->series, element(number)).place + 1, first = size - KEPT;
    (void)livevec_series_expire(&w->series, first).refusal;
    return ask(&w->last, &w->series, w->kind, first, size);
}

static uint64_t follows(work *w, uint64_t number)
{
    uint64_t size = livevec_series_push(&w->series, element(number)).place + 1;
    uint64_t same = ask(&w->last, &w->series, LIVEVEC_SUM, size - LAST, size);
    return same + ask(&w->second, &w->series, LIVEVEC_GREATEST, size - LAST, size);
}

/* The first element of a random range that is at least so great: behind it ends what is told, or there is none. */
static uint64_t searches(work *w, uint64_t number)
{
    livevec_series_range r = range(number, w->size);
    int64_t great = ((int64_t)1 << 55) - (((int64_t)1 << 55) >> pick(other(other(other(number))), 20));
    uint64_t found = livevec_series_where_first_at_least(&w->series, r.lo, r.hi, great).hi;
    bool same = found == w->last.values.sum;
    w->last = (last){LIVEVEC_SUM, {.sum = found}};
    return same;
}

/* Prints the least time of several tries, each of so many turns. */
static void show(const char *label, uint64_t (*turn)(work *, uint64_t), work *w, int turns, int tries)
{
    int64_t least = INT64_MAX;
    for (int try = 0; try < tries; try++) {
        uint64_t number = 1;
        int64_t start = now();
        for (int i = 0; i < turns; i++)
            number = next(number) + turn(w, number);
        int64_t took = now() - start;
        least = took < least ? took : least;
    }
    printf("%s: %lld %d\n", label, (long long)least, turns);
}

static void show_answer(const char *what, const last *it) { printf("answers: %s %llu\n", what, (unsigned long long)number_of(it->kind, &it->values)); }

static void show_questions(uint32_t kind, uint64_t size)
{
    work w = prepared(size, kind);
    char label[64] = "write and range ";
    snprintf(label + 16, sizeof label - 16, "%s %llu", kinds[kind], (unsigned long long)size);
    show(label + 10, asks, &w, 10000, 4);
    show(label, writes_and_asks, &w, 10000, 4);
    show_answer(label + 16, &w.last);
    livevec_free_series(&w.series);
}

static void show_search(uint64_t size)
{
    work w = prepared(size, LIVEVEC_GREATEST);
    char label[64];
    snprintf(label, sizeof label, "first at least %llu", (unsigned long long)size);
    show(label, searches, &w, 10000, 4);
    show_answer(label, &w.last);
    livevec_free_series(&w.series);
}

static void show_window(uint32_t kind)
{
    work w = prepared(KEPT, kind);
    char label[64];
    snprintf(label, sizeof label, "window %s series", kinds[kind]);
    show(label, slides, &w, 1000000, 1);
    label[strlen(label) - strlen(" series")] = 0;
    show_answer(label, &w.last);
    livevec_free_series(&w.series);
}

static void show_last(void)
{
    work w = prepared(LAST, LIVEVEC_SUM);
    must(!livevec_series_prepare(&w.series, LIVEVEC_GREATEST), "a tree");
    show("last series", follows, &w, 1000000, 1);
    printf("answers: last %llu %lld\n", (unsigned long long)w.last.values.sum, (long long)w.second.values.greatest);
    livevec_free_series(&w.series);
}

/* A segment tree of sums: the elements are its leaves, and each node above has the sum of its two. */
typedef struct tree {
    uint32_t leaves;
    uint64_t *sums;
} tree;

static tree tree_of(uint32_t size)
{
    tree t = {1, NULL};
    while (t.leaves < size)
        t.leaves *= 2;
    t.sums = calloc(2 * (size_t)t.leaves, sizeof *t.sums);
    must(t.sums, "memory");
    memcpy(t.sums + t.leaves, elements, size * sizeof *elements);
    for (uint32_t n = t.leaves - 1; n > 0; n--)
        t.sums[n] = t.sums[2 * n] + t.sums[2 * n + 1];
    return t;
}

static void tree_write(tree *t, uint32_t index, int64_t value)
{
    uint32_t n = t->leaves + index;
    t->sums[n] = (uint64_t)value;
    for (n /= 2; n > 0; n /= 2)
        t->sums[n] = t->sums[2 * n] + t->sums[2 * n + 1];
}

/* Of a range, as a tree is asked for any. */
static uint64_t tree_sum(const tree *t, uint32_t lo, uint32_t hi)
{
    uint64_t sum = 0;
    for (lo += t->leaves, hi += t->leaves; lo < hi; lo /= 2, hi /= 2) {
        if (lo & 1)
            sum += t->sums[lo++];
        if (hi & 1)
            sum += t->sums[--hi];
    }
    return sum;
}

/* A vector of sums alone, of the first so many elements, whose sum was asked for once. */
static void writes_and_sums(uint32_t size, const uint32_t *places, const char *by_livevec, const char *by_tree)
{
    livevec_vector v = {0};
    tree t = tree_of(size);
    uint64_t total = 0, wanted = 0;
    must(!livevec_new_of(&v, LIVEVEC_SUM, 17, 16777215), "a vector");
    must(!livevec_push_many(&v, elements, size).refusal, "pushes");
    must(!livevec_value(&v, LIVEVEC_SUM, 0, size).refusal, "a sum");
    int64_t start = now();
    for (int i = 0; i < WRITES; i++) {
        must(!livevec_write(&v, places[i] % size, i).refusal, "a write");
        total += livevec_value(&v, LIVEVEC_SUM, 0, size).values.sum;
    }
    show_since(by_livevec, start, WRITES);
    start = now();
    for (int i = 0; i < WRITES; i++) {
        tree_write(&t, places[i] % size, i);
        wanted += tree_sum(&t, 0, size);
    }
    show_since(by_tree, start, WRITES);
    must(total == wanted, "the sums");
    free(t.sums);
    must(!livevec_free(&v), "its end");
}

static void filled(livevec_vector *v)
{
    must(!livevec_new(v, 17, 16777215), "a vector");
    must(livevec_push_many(v, elements, MOST).pushed == MOST, "pushes");
}

/* Into columns that were written before, so that no page is new. */
static void running_sums(void)
{
    static uint64_t sums[MOST], wanted[MOST], sum;
    livevec_vector v = {0};
    filled(&v);
    memset(sums, 1, sizeof sums);
    memset(wanted, 1, sizeof wanted);
    int64_t start = now();
    must(!livevec_scan_inclusive_sum(&v, 0, MOST, sums, MOST).refusal, "a scan");
    show_since("livevec running sums", start, 1);
    start = now();
    for (int i = 0; i < MOST; i++)
        wanted[i] = sum += (uint64_t)elements[i];
    show_since("plain running sums", start, 1);
    must(!memcmp(sums, wanted, sizeof sums), "the running sums");
    must(!livevec_free(&v), "its end");
}

static void many_pushes(void)
{
    livevec_vector v = {0};
    must(!livevec_new(&v, 17, 16777215), "a vector");
    int64_t start = now();
    must(livevec_push_many(&v, elements, MOST).pushed == MOST, "pushes");
    show_since("livevec push_many", start, 1);
    must(!livevec_free(&v), "its end");
    start = now();
    int64_t *copy = malloc(sizeof elements);
    must(copy, "memory");
    memcpy(copy, elements, sizeof elements);
    show_since("plain copy", start, 1);
    must(copy[MOST - 1] == elements[MOST - 1], "the copy");
    free(copy);
}

static void *works(void *worker)
{
    livevec_worker_work(worker);
    return NULL;
}

/* Whether the last node of a level that is whole is fresh: it is the last of its level to be computed, and is read as one summary. */
static bool has_level(livevec_shared *shared, livevec_vector *v, uint32_t level)
{
    const uint32_t wide = 1u << (3 * level), end = MOST / wide * wide;
    must(!livevec_shared_enter(shared), "an entry");
    livevec_reduced told = livevec_reduce(v, end - wide, end);
    livevec_shared_leave(shared);
    return told.cells == 0 && told.summaries == 1;
}

/* A refresh of all elements: by one thread in place, and by workers of a shared vector, from their start until each summary is there. */
static void refreshes(uint64_t sum)
{
    livevec_vector alone = {0}, v = {0};
    livevec_shared shared = {0};
    livevec_worker workers[WORKERS] = {{0}};
    pthread_t threads[WORKERS];
    filled(&alone);
    int64_t start = now();
    must(livevec_refresh(&alone, MOST).value > MOST / 8, "summaries");
    show_since("livevec refresh in place", start, 1);
    must(!livevec_free(&alone), "its end");
    filled(&v);
    must(!livevec_shared_new(&shared, &v), "a shared vector");
    start = now();
    for (int i = 0; i < WORKERS; i++)
        must(!livevec_shared_hire(&shared, &workers[i]) && !pthread_create(&threads[i], NULL, works, &workers[i]), "a worker");
    for (uint32_t level = 1; level <= LEVELS; level++)
        while (!has_level(&shared, &v, level))
            nanosleep(&(struct timespec){0, 100000}, NULL);
    show_since("livevec refresh by 4 workers", start, 1);
    must(!livevec_free_shared(&shared), "the close");
    for (int i = 0; i < WORKERS; i++)
        must(!pthread_join(threads[i], NULL) && !livevec_free_worker(&workers[i]), "a worker's end");
    must(livevec_refresh(&v, MOST).value == 0 && livevec_reduce(&v, 0, MOST).values.sum == sum, "each summary");
    must(!livevec_free(&v), "its end");
}

static void bounds(void)
{
    static uint32_t places[WRITES];
    uint64_t number = 1, sum = 0;
    for (int i = 0; i < MOST; i++)
        sum += (uint64_t)(elements[i] = (int64_t)((number = next(number)) >> 24) - ((int64_t)1 << 39));
    for (int i = 0; i < WRITES; i++)
        places[i] = (uint32_t)pick(number = next(number), MOST);
    /* a thread that has begun makes each call dearer: so the workers come last */
    writes_and_sums(1000, places, "livevec write and sum of 1,000", "tree write and sum of 1,000");
    writes_and_sums(MOST, places, "livevec write and sum of 1,000,000", "tree write and sum of 1,000,000");
    running_sums();
    many_pushes();
    for (int round = 0; round < 5; round++)
        refreshes(sum);
}

static uint64_t spent(void)
{
    struct timespec t;
    clock_gettime(CLOCK_THREAD_CPUTIME_ID, &t);
    return (uint64_t)t.tv_sec * 1000000000u + (uint64_t)t.tv_nsec;
}

static uint32_t drawn(uint32_t below)
{
    static uint64_t number = 1;
    return (uint32_t)pick(number = next(number), below);
}

/* Makes a call, which isn't refused, and keeps how long the longest of its sort took. */
#define PAUSE(most, call) \
    do { \
        uint64_t began = spent(); \
        must(!(call).refusal, #call); \
        uint64_t took = spent() - began; \
        (most) = took > (most) ? took : (most); \
    } while (0)

static void show_pause(const char *what, uint64_t most) { printf("%s: %llu 1\n", what, (unsigned long long)most); }

static void vector_pauses(void)
{
    livevec_vector v = {0};
    uint64_t first = 0, asked = 0, write = 0, again = 0, push = 0;
    must(!livevec_new(&v, 17, 16777215), "a vector");
    for (uint32_t i = 0; i < MOST; i++)
        PAUSE(first, livevec_push(&v, drawn(1000)));
    show_pause("vector: a push, nothing asked yet", first);
    PAUSE(asked, livevec_ask(&v, 0, MOST));
    show_pause("vector: the first query of all six", asked);
    for (uint32_t i = 0; i < 5 * MOST; i++)
        PAUSE(write, livevec_write(&v, drawn(MOST), drawn(1000)));
    show_pause("vector: a write, all six asked before", write);
    PAUSE(again, livevec_ask(&v, 0, MOST));
    show_pause("vector: the query after these writes", again);
    for (uint32_t i = MOST; i < 1048568; i++)
        PAUSE(push, livevec_push(&v, drawn(1000)));
    show_pause("vector: a push, all six asked before", push);
    must(!livevec_free(&v), "its end");
}

static void series_pauses(void)
{
    livevec_series s = {0};
    uint64_t asked = 0, push = 0, expiry = 0, write = 0, ignored = 0, first = 0;
    must(!livevec_series_new(&s), "a series");
    for (uint32_t i = 0; i < MOST; i++)
        PAUSE(ignored, livevec_series_push(&s, drawn(1000)));
    PAUSE(asked, livevec_series_ask(&s, 0, MOST));
    show_pause("series: the first query of all six", asked);
    for (uint32_t i = 0; i < 5 * MOST; i++) {
        PAUSE(push, livevec_series_push(&s, drawn(1000)));
        PAUSE(expiry, livevec_series_expire(&s, ++first));
        PAUSE(write, livevec_series_write(&s, first + drawn(MOST), drawn(1000)));
    }
    show_pause("series: a push in a window", push);
    show_pause("series: an expiry in a window", expiry);
    show_pause("series: a write in a window", write);
    livevec_free_series(&s);
}

int main(int count, char **words)
{
    static const uint64_t sizes[] = {1000, 65536, 1000000};
    must(count == 2, "the part: questions, searches, windows, bounds or pauses");
    if (!strcmp(words[1], "bounds")) {
        bounds();
    } else if (!strcmp(words[1], "pauses")) {
        vector_pauses();
        series_pauses();
    } else if (!strcmp(words[1], "windows")) {
        show_window(LIVEVEC_SUM);
        show_window(LIVEVEC_GREATEST);
        show_last();
    } else {
        for (int size = 0; size < 3; size++)
            for (uint32_t kind = 0; kind < 6 && words[1][0] == 'q'; kind++)
                show_questions(kind, sizes[size]);
        for (int size = 0; size < 3 && words[1][0] == 's'; size++)
            show_search(sizes[size]);
    }
    return EXIT_SUCCESS;
}
