/* The value of a key: a series, or samples, with a retention and watches. The module passes on what the functions of livevec's C library answer: what
 * a range is, which elements it has and why a call is refused, the library decides. */
#ifndef LIVEVEC_REDIS_LISTS_H
#define LIVEVEC_REDIS_LISTS_H

#include <livevec.h>

/* Kinds that a key is asked by: the six of the library, and three that follow from a count and an exact sum. */
enum { KIND_COUNT = LIVEVEC_ALL_SIX, KIND_MEAN, KIND_EXACT_SUM, KINDS };

/* Which elements are meant. `lo` and `hi` are indices or times, or `lo` is a number of elements or a span of time. */
typedef struct window {
    enum { WHOLE, BY_INDEX, BY_TIME, BY_LAST, BY_SPAN } sort;
    int64_t lo, hi;
    bool to_end; /* of a window of time: also the samples at the greatest time of all */
} window;

/* The answer by one kind over the elements of a range. If there is none, `count` is 0; of a count and an exact sum it is how many there are. */
typedef struct answer {
    uint32_t refusal;
    uint64_t edit, count;
    livevec_values values;
    livevec_total exact;
} answer;

/* A named query whose answers are published. */
typedef struct watch {
    char name[LIVEVEC_NAME_BYTES + 1];
    livevec_query query;
} watch;

typedef struct list {
    livevec_samples held;  /* a series is held at `held.values` */
    livevec_queries asked; /* empty while nothing is watched */
    watch *watches;
    size_t bytes; /* what the library and the watches have in memory */
    uint64_t retention;
    uint8_t watched;
    bool has_times, is_armed;
} list;

/* The handles, for calls of the library. From then on such calls take and give the bytes of this list. */
livevec_samples *samples_of(list *list);
static inline livevec_series *series_of(list *list) { return &samples_of(list)->values; }

static inline uint64_t list_first(list *it) { return livevec_series_first(series_of(it)).value; }
static inline uint64_t list_size(list *it) { return livevec_series_size(series_of(it)).value; }

/* A new list, or one that is to be loaded; null if there is no memory for it. */
list *list_new(bool has_times, bool loads);
void list_free(void *list);
size_t list_bytes(const void *list);

/* The indices of a window. A window of time is for samples only. */
livevec_window list_range(list *list, window window);
answer list_answer(list *list, unsigned kind, livevec_window in);
answer list_value(list *list, unsigned kind, window window);

/* Watches. `list_watched` is the present answer of one. */
uint32_t list_watch(list *list, const char *name, size_t length, const livevec_query *query);
uint32_t list_unwatch(list *list, const char *name, size_t length);
answer list_watched(list *list, const char *name, size_t length);

#endif
