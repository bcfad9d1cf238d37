/* The commands of watches: named queries, whose answers are published on the channel `livevec:KEY` when an edit has changed them. */
#include "module.h"

/* What a call says of a watch. Its bounds are numbered as the words of the command's form. */
static livevec_query query_of(const call *it)
{
    static const uint32_t spans[] = {[WHOLE] = LIVEVEC_BETWEEN, [BY_INDEX] = LIVEVEC_BETWEEN, [BY_LAST] = LIVEVEC_LAST, [BY_SPAN] = LIVEVEC_WITHIN};
    const window *window = &it->window;
    uint64_t hi = window->sort == WHOLE ? UINT64_MAX : (uint64_t)window->hi;
    return (livevec_query){.kind = it->kind, .span = spans[window->sort], .bound = it->said[0], .lo = (uint64_t)window->lo, .hi = hi, .x = it->x};
}

/* The reply is the edit number and the answer now, after which notes are of changes. */
uint32_t watch_command(call *it)
{
    livevec_query query = query_of(it);
    uint32_t refusal = list_watch(it->list, it->text, it->length, &query);
    if (refusal)
        return refusal;
    arm(it);
    answer now = list_watched(it->list, it->text, it->length);
    reply_edit(it->ctx, 2, now.edit);
    reply_answer(it->ctx, it->kind, &now);
    edited(it);
    return LIVEVEC_OK;
}

uint32_t unwatch_command(call *it)
{
    uint32_t refusal = list_unwatch(it->list, it->text, it->length);
    if (refusal)
        return refusal;
    edited(it);
    return RedisModule_ReplyWithSimpleString(it->ctx, "OK");
}

/* A watch in the words of LV.WATCH, behind the key. */
static void reply_watch(RedisModuleCtx *ctx, const watch *watch)
{
    static const char *const spans[] = {[LIVEVEC_BETWEEN] = "INDEX", [LIVEVEC_LAST] = "LAST", [LIVEVEC_WITHIN] = "WITHIN"};
    static const char *const bounds[] = {[LIVEVEC_AT_LEAST] = "ATLEAST", [LIVEVEC_AT_MOST] = "ATMOST"};
    const livevec_query *query = &watch->query;
    bool is_whole = query->span == LIVEVEC_BETWEEN && query->hi == UINT64_MAX;
    int ends = is_whole ? 0 : query->span == LIVEVEC_BETWEEN ? 2 : 1;
    RedisModule_ReplyWithArray(ctx, 3 + ends + (query->bound ? 2 : 0));
    RedisModule_ReplyWithCString(ctx, watch->name);
    RedisModule_ReplyWithCString(ctx, kind_names[query->kind]);
    RedisModule_ReplyWithCString(ctx, is_whole ? "ALL" : spans[query->span]);
    if (ends)
        RedisModule_ReplyWithLongLong(ctx, (long long)query->lo);
    if (ends == 2)
        RedisModule_ReplyWithLongLong(ctx, (long long)query->hi);
    if (query->bound == LIVEVEC_EACH_CHANGE)
        return;
    RedisModule_ReplyWithCString(ctx, bounds[query->bound]);
    RedisModule_ReplyWithLongLong(ctx, query->x);
}

uint32_t watches_command(call *it)
{
    RedisModule_ReplyWithArray(it->ctx, it->list->watched);
    for (unsigned i = 0; i < it->list->watched; i++)
        reply_watch(it->ctx, &it->list->watches[i]);
    return LIVEVEC_OK;
}
