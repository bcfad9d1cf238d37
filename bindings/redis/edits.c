/* The commands that edit a key. A command that is refused changes nothing, and isn't replicated. */
#include "module.h"

enum { FEW_VALUES = 64 };

static uint32_t push_values(call *it)
{
    livevec_series_pushed did = livevec_series_push_many(series_of(it->list), it->values, it->length);
    if (did.refusal)
        return did.refusal;
    edited(it);
    return RedisModule_ReplyWithLongLong(it->ctx, (long long)did.edit);
}

static bool take_values(call *it, int64_t *values)
{
    while (it->left)
        if (!take_number(it, values++))
            return false;
    return true;
}

uint32_t push_command(call *it)
{
    int64_t few[FEW_VALUES], *values = few;
    take(it, "ks");
    it->length = (size_t)it->left;
    if (it->length > FEW_VALUES)
        values = RedisModule_TryAlloc(it->length * sizeof *values);
    if (!values)
        return LIVEVEC_NO_MEMORY;
    it->values = values;
    if (take_values(it, values))
        at_key(it, push_values);
    if (values != few)
        RedisModule_Free(values);
    return LIVEVEC_OK;
}

/* The reply to most edits has the edit number and the element before; to one that drops many it has how many. */
static uint32_t reply_edited(call *it, livevec_series_edited did, bool drops)
{
    if (did.refusal)
        return did.refusal;
    edited(it);
    reply_edit(it->ctx, 2, did.edit);
    return RedisModule_ReplyWithLongLong(it->ctx, drops ? (long long)did.place : did.value);
}

static uint32_t edit(call *it, uint32_t what)
{
    livevec_series_edited did = livevec_series_make_edit(series_of(it->list), what, (uint64_t)it->index, (uint64_t)it->second, it->x);
    return reply_edited(it, did, what == LIVEVEC_TRUNCATE || what == LIVEVEC_EXPIRE);
}

uint32_t set_command(call *it) { return edit(it, LIVEVEC_WRITE); }
uint32_t pop_command(call *it) { return edit(it, LIVEVEC_POP); }
uint32_t swap_command(call *it) { return edit(it, LIVEVEC_SWAP); }
uint32_t truncate_command(call *it) { return edit(it, LIVEVEC_TRUNCATE); }

uint32_t expire_command(call *it)
{
    bool is_by_index = it->said[0];
    return is_by_index ? edit(it, LIVEVEC_EXPIRE) : reply_edited(it, livevec_samples_expire_before(samples_of(it->list), it->time), true);
}

/* Samples that are no longer among the last `span` of time go with the next LV.ADD. 0 keeps all. */
uint32_t retain_command(call *it)
{
    it->list->retention = (uint64_t)it->span;
    edited(it);
    return RedisModule_ReplyWithSimpleString(it->ctx, "OK");
}

/* What is replicated is the effect: the time itself, and from which index on samples are kept. */
static void replicate_sample(call *it, bool keeps_from)
{
    long long time = it->time, value = it->x;
    if (it->is_new && it->span)
        RedisModule_Replicate(it->ctx, "LV.RETAIN", "sl", it->name, (long long)it->span);
    if (keeps_from)
        RedisModule_Replicate(it->ctx, "LV.ADD", "sllcl", it->name, time, value, "FIRST", (long long)it->index);
    else if (it->by_effect || it->is_ts)
        RedisModule_Replicate(it->ctx, "LV.ADD", "sll", it->name, time, value);
    else
        RedisModule_ReplicateVerbatim(it->ctx);
}

/* Drops the samples that aren't kept, as an index or the retention says; answers whether replicas are told so. */
static bool dropped(call *it, bool has_first)
{
    if (!has_first && !it->list->retention)
        return false;
    if (!has_first)
        it->index = (int64_t)livevec_samples_last(samples_of(it->list), it->list->retention).lo;
    /* before an index that isn't kept there is nothing to drop */
    bool has_none = (uint64_t)it->index <= list_first(it->list);
    return has_none || !livevec_series_expire(series_of(it->list), (uint64_t)it->index).refusal;
}

/* LV.ADD, in whose last two words a master tells its replicas from which index on samples are kept; and TS.ADD, whose reply is the time, and whose
 * last words have the retention of a key that it makes. */
uint32_t add_command(call *it)
{
    bool has_first = it->said[0] && !it->is_ts;
    if (has_first && (uint64_t)it->index > list_size(it->list))
        return LIVEVEC_OUT_OF_RANGE;
    if (it->is_new)
        it->list->retention = (uint64_t)it->span;
    livevec_series_edited did = livevec_samples_push(samples_of(it->list), it->time, it->x);
    if (did.refusal)
        return did.refusal;
    replicate_sample(it, dropped(it, has_first));
    changed(it, "lv.add");
    return RedisModule_ReplyWithLongLong(it->ctx, it->is_ts ? it->time : (long long)did.edit);
}

/* Each sample is added, or refused, by itself. */
uint32_t madd_command(call *it)
{
    if (it->left % 3)
        return failed(it->ctx, "ERR syntax error");
    RedisModule_ReplyWithArray(it->ctx, it->left / 3);
    for (; it->left; it->left -= 3, it->next += 3) {
        call one = *it;
        one.by_effect = true;
        if (take(&one, "kmtx"))
            at_key(&one, add_command);
    }
    return LIVEVEC_OK;
}
