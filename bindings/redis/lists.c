/* The value of a key, over livevec's C library, whose memory is Redis'. */
#include "lists.h"
#include "redis_interface.h"

#include <string.h>

/* Whose bytes the calls of this thread take and give. */
static _Thread_local size_t *charged;

/* The memory functions of the library's archive: `make redis` has them in place of malloc, realloc and free. */
void *livevec_redis_malloc(size_t size)
{
    void *memory = RedisModule_TryAlloc(size);
    if (memory && charged)
        *charged += RedisModule_MallocSize(memory);
    return memory;
}

void livevec_redis_free(void *memory)
{
    if (memory && charged)
        *charged -= RedisModule_MallocSize(memory);
    RedisModule_Free(memory);
}

/* Redis 7.0 has no way to resize that fails without ending the server. */
void *livevec_redis_realloc(void *memory, size_t size)
{
    void *moved = livevec_redis_malloc(size);
    if (!moved || !memory)
        return moved;
    size_t had = RedisModule_MallocSize(memory);
    memcpy(moved, memory, had < size ? had : size);
    livevec_redis_free(memory);
    return moved;
}

livevec_samples *samples_of(list *list)
{
    charged = &list->bytes;
    return &list->held;
}

list *list_new(bool has_times, bool loads)
{
    list *made = RedisModule_TryAlloc(sizeof *made);
    if (!made)
        return NULL;
    *made = (list){.has_times = has_times};
    livevec_samples *held = samples_of(made);
    uint32_t refusal = has_times ? (loads ? livevec_samples_begin_load(held) : livevec_samples_new(held))
                                 : (loads ? livevec_series_begin_load(&held->values) : livevec_series_new(&held->values));
    if (!refusal)
        return made;
    list_free(made);
    return NULL;
}

/* Redis may free a large value in a thread of its own. A slot that holds nothing is left as it is. */
void list_free(void *value)
{
    list *list = value;
    if (!list)
        return;
    charged = NULL;
    livevec_free_samples(&list->held);
    livevec_free_queries(&list->asked);
    livevec_redis_free(list->watches);
    RedisModule_Free(list);
}

size_t list_bytes(const void *value) { return sizeof(list) + ((const list *)value)->bytes; }

static livevec_window between(list *list, window asked)
{
    livevec_window found = livevec_samples_between(samples_of(list), asked.lo, asked.hi);
    if (asked.to_end && !found.refusal)
        found.hi = list_size(list);
    return found;
}

/* Of indices the library says whether they are a range. */
livevec_window list_range(list *list, window asked)
{
    if (asked.sort == BY_TIME)
        return between(list, asked);
    if (asked.sort == BY_SPAN)
        return livevec_samples_last(samples_of(list), (uint64_t)asked.lo);
    uint64_t first = list_first(list), size = list_size(list), count = asked.sort == BY_LAST ? (uint64_t)asked.lo : UINT64_MAX;
    livevec_window range = {.lo = size - first > count ? size - count : first, .hi = size};
    if (asked.sort == BY_INDEX)
        range = (livevec_window){.lo = (uint64_t)asked.lo, .hi = (uint64_t)asked.hi};
    livevec_series_scanned none = livevec_series_read(series_of(list), range.lo, range.hi, NULL, 0);
    range.refusal = none.refusal;
    range.edit = none.edit;
    return range;
}

static answer by_one_kind(livevec_series_reduced result)
{ return (answer){.refusal = result.refusal, .edit = result.edit, .count = result.values.any, .values = result.values}; }

answer list_answer(list *list, unsigned kind, livevec_window in)
{
    answer result = {.refusal = in.refusal, .edit = in.edit, .count = in.hi - in.lo};
    if (result.refusal || kind == KIND_COUNT)
        return result;
    if (kind < LIVEVEC_ALL_SIX)
        return by_one_kind(livevec_series_value(series_of(list), kind, in.lo, in.hi));
    livevec_series_summed summed = livevec_series_exact_sum(series_of(list), in.lo, in.hi);
    result.refusal = summed.refusal;
    result.exact = summed.sum;
    return result;
}

/* One proved call finds the range and its value, where there is one for both. */
answer list_value(list *list, unsigned kind, window asked)
{
    livevec_samples *held = samples_of(list);
    if (kind < LIVEVEC_ALL_SIX && asked.sort == BY_INDEX)
        return by_one_kind(livevec_series_value(&held->values, kind, (uint64_t)asked.lo, (uint64_t)asked.hi));
    if (kind < LIVEVEC_ALL_SIX && asked.sort == BY_SPAN)
        return by_one_kind(livevec_samples_value_of_last(held, kind, (uint64_t)asked.lo));
    if (kind < LIVEVEC_ALL_SIX && asked.sort == BY_TIME && !asked.to_end)
        return by_one_kind(livevec_samples_value(held, kind, asked.lo, asked.hi));
    return list_answer(list, kind, list_range(list, asked));
}

/* The set of queries is made with the first watch, and freed with the last one. */
static void free_unwatched(list *list)
{
    if (list->watched)
        return;
    livevec_free_queries(&list->asked);
    livevec_redis_free(list->watches);
    list->watches = NULL;
}

uint32_t list_watch(list *list, const char *name, size_t length, const livevec_query *query)
{
    charged = &list->bytes;
    uint32_t refusal = list->watched ? LIVEVEC_OK : livevec_queries_new(&list->asked);
    if (refusal)
        return refusal;
    watch *more = livevec_redis_realloc(list->watches, (list->watched + 1u) * sizeof *more);
    list->watches = more ? more : list->watches;
    refusal = more ? livevec_watch_query(&list->asked, name, length, query) : (uint32_t)LIVEVEC_NO_MEMORY;
    if (refusal) {
        free_unwatched(list);
        return refusal;
    }
    more[list->watched] = (watch){.query = *query};
    memcpy(more[list->watched++].name, name, length);
    list->is_armed = false;
    return LIVEVEC_OK;
}

uint32_t list_unwatch(list *list, const char *name, size_t length)
{
    charged = &list->bytes;
    uint32_t refusal = list->watched ? livevec_unwatch(&list->asked, name, length) : (uint32_t)LIVEVEC_NO_SUCH_NAME;
    watch *at = list->watches;
    if (refusal)
        return refusal;
    while (strncmp(at->name, name, length) || at->name[length])
        at++;
    list->watched--;
    memmove(at, at + 1, (size_t)(list->watches + list->watched - at) * sizeof *at);
    free_unwatched(list);
    return LIVEVEC_OK;
}

answer list_watched(list *list, const char *name, size_t length)
{ return by_one_kind(livevec_series_answer(&list->asked, series_of(list), name, length)); }
