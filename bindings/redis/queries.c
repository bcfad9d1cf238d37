/* The commands that ask a key. They change no answer: at most trees are made, in memory that MEMORY USAGE counts. */
#include "module.h"

#include <string.h>

uint32_t value_command(call *it)
{
    answer result = list_value(it->list, it->kind, it->window);
    if (result.refusal)
        return result.refusal;
    reply_edit(it->ctx, 2, result.edit);
    reply_answer(it->ctx, it->kind, &result);
    return LIVEVEC_OK;
}

/* Redis also asks where the keys are. */
uint32_t mvalue_command(call *it)
{
    bool asks_where = RedisModule_IsKeysPositionRequest(it->ctx);
    if (!asks_where)
        RedisModule_ReplyWithArray(it->ctx, it->left);
    for (; it->left; it->left--, it->next++) {
        call one = *it;
        one.name = *it->next;
        if (asks_where)
            RedisModule_KeyAtPosWithFlags(it->ctx, it->count - it->left, REDISMODULE_CMD_KEY_RO | REDISMODULE_CMD_KEY_ACCESS);
        else
            at_key(&one, value_command);
    }
    return LIVEVEC_OK;
}

/* The edit number, and what was found, or null: an index; of a run its index and the one behind it; the index up to which a sum is reached. */
static uint32_t reply_found(call *it, uint32_t wanted)
{
    livevec_series_found found = livevec_series_find(series_of(it->list), wanted, it->in.lo, it->in.hi, it->x);
    if (found.refusal)
        return found.refusal;
    bool is_run = wanted == LIVEVEC_WHERE_BEST && found.found;
    reply_edit(it->ctx, is_run ? 3 : 2, found.edit);
    if (!found.found)
        return RedisModule_ReplyWithNull(it->ctx);
    RedisModule_ReplyWithLongLong(it->ctx, (long long)(wanted == LIVEVEC_WHERE_REACHES ? found.hi : found.lo));
    return is_run ? RedisModule_ReplyWithLongLong(it->ctx, (long long)found.hi) : REDISMODULE_OK;
}

uint32_t find_command(call *it)
{
    static const uint32_t wanted[2][2] = {{LIVEVEC_WHERE_FIRST_AT_LEAST, LIVEVEC_WHERE_FIRST_AT_MOST},
                                          {LIVEVEC_WHERE_LAST_AT_LEAST, LIVEVEC_WHERE_LAST_AT_MOST}};
    return reply_found(it, wanted[it->said[0] - 1][it->said[1] - 1]);
}

uint32_t reach_command(call *it) { return reply_found(it, LIVEVEC_WHERE_REACHES); }

/* Searches of a least element, a greatest and a best run are numbered as their kinds are. */
uint32_t where_command(call *it) { return reply_found(it, LIVEVEC_WHERE_LEAST + it->kind - LIVEVEC_LEAST); }

uint32_t info_command(call *it)
{
    list *list = it->list;
    const struct { const char *name; uint64_t number; } fields[] = {
        {"first", list_first(list)}, {"size", list_size(list)}, {"edits", livevec_series_edits(series_of(list)).value},
        {"retention", list->retention}, {"watches", list->watched}, {"bytes", list_bytes(list)}};
    enum { FIELDS = sizeof fields / sizeof *fields };
    RedisModule_ReplyWithMap(it->ctx, FIELDS + 1);
    RedisModule_ReplyWithCString(it->ctx, "form");
    RedisModule_ReplyWithCString(it->ctx, list->has_times ? "samples" : "series");
    for (int i = 0; i < FIELDS; i++) {
        RedisModule_ReplyWithCString(it->ctx, fields[i].name);
        RedisModule_ReplyWithLongLong(it->ctx, (long long)fields[i].number);
    }
    return LIVEVEC_OK;
}

static uint32_t reply_summary(call *it, const livevec_summary *summary)
{ return RedisModule_ReplyWithStringBuffer(it->ctx, (const char *)summary->bytes, sizeof summary->bytes); }

uint32_t summary_command(call *it)
{
    livevec_series *series = series_of(it->list);
    livevec_series_view lent = livevec_series_lend(series, it->in.lo, it->in.hi);
    if (lent.refusal)
        return lent.refusal;
    livevec_summarised result = livevec_summary_of_elements(lent.elements, lent.length);
    livevec_series_give_back(series);
    return result.refusal ? result.refusal : reply_summary(it, &result.summary);
}

/* The summary of elements one behind the other, in the order of the summaries that are left. */
static livevec_summarised combined(call *it)
{
    livevec_summarised all = livevec_summary_empty();
    while (it->left && !all.refusal) {
        livevec_summary right;
        take(it, "n");
        if (it->length != sizeof right.bytes)
            return (livevec_summarised){.refusal = LIVEVEC_OTHER_VERSION};
        memcpy(right.bytes, it->text, it->length);
        all = livevec_summary_join(&all.summary, &right);
    }
    return all;
}

/* Their six values, their count, and their summary. */
uint32_t combine_command(call *it)
{
    livevec_summarised all = combined(it);
    livevec_opened opened = livevec_summary_values(&all.summary);
    answer result = {.count = opened.count, .values = opened.values};
    if (all.refusal || opened.refusal)
        return all.refusal ? all.refusal : opened.refusal;
    RedisModule_ReplyWithMap(it->ctx, LIVEVEC_ALL_SIX + 2);
    for (unsigned kind = LIVEVEC_SUM; kind <= KIND_COUNT; kind++) {
        RedisModule_ReplyWithCString(it->ctx, kind_names[kind]);
        reply_answer(it->ctx, kind, &result);
    }
    RedisModule_ReplyWithCString(it->ctx, "summary");
    return reply_summary(it, &all.summary);
}
