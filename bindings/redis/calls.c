/* A call of a command: its key is opened, it acts there and replies, and notes go to those who watch the key. */
#include "module.h"

#include <string.h>

/* The notes that are due since the last ones. While a file is loaded there are none, and watches are armed after it. */
static livevec_series_noted due(call *it, livevec_note *notes)
{
    list *list = it->list;
    list->is_armed = !(RedisModule_GetContextFlags(it->ctx) & REDISMODULE_CTX_FLAGS_LOADING);
    if (!list->is_armed)
        return (livevec_series_noted){0};
    return livevec_series_notes(&list->asked, series_of(list), notes, LIVEVEC_MOST_QUERIES);
}

/* The first note of a watch that is new or was loaded is for a change of the present answer. */
void arm(call *it)
{
    livevec_note notes[LIVEVEC_MOST_QUERIES];
    if (it->list->watched && !it->list->is_armed)
        due(it, notes);
}

/* A list for a missing key, if the command makes one; else the reply says that there is none. */
static bool made(call *it)
{
    uint64_t does = it->command->manner->keys;
    if (does & REDISMODULE_CMD_KEY_INSERT) {
        it->list = list_new(it->sort == SAMPLES_ONLY, false);
        it->is_new = it->list != NULL;
        return it->is_new || refused(it->ctx, LIVEVEC_NO_MEMORY);
    }
    if (does & REDISMODULE_CMD_KEY_RW)
        return failed(it->ctx, "ERR no such key");
    if (it->is_ts)
        return failed(it->ctx, "ERR TSDB: the key does not exist");
    RedisModule_ReplyWithNull(it->ctx);
    return false;
}

static bool open_key(call *it)
{
    bool reads = it->command->manner->keys & REDISMODULE_CMD_KEY_RO;
    list_sort sort = it->window.sort == BY_TIME || it->window.sort == BY_SPAN ? SAMPLES_ONLY : it->sort;
    it->key = RedisModule_OpenKey(it->ctx, it->name, reads ? REDISMODULE_READ : REDISMODULE_READ | REDISMODULE_WRITE);
    if (RedisModule_KeyType(it->key) == REDISMODULE_KEYTYPE_EMPTY)
        return made(it);
    if (RedisModule_ModuleTypeGetType(it->key) == list_type)
        it->list = RedisModule_ModuleTypeGetValue(it->key);
    if (!it->list || (sort != ANY_LIST && it->list->has_times != (sort == SAMPLES_ONLY)))
        return failed(it->ctx, REDISMODULE_ERRORMSG_WRONGTYPE);
    if (!reads)
        arm(it);
    if (it->needs_range)
        it->in = list_range(it->list, it->window);
    return !it->in.refusal || refused(it->ctx, it->in.refusal);
}

void at_key(call *it, action *act)
{
    uint32_t refusal = !it->name || open_key(it) ? act(it) : (uint32_t)LIVEVEC_OK;
    if (refusal)
        refused(it->ctx, refusal);
    if (it->is_new)
        list_free(it->list);
    RedisModule_CloseKey(it->key);
    it->key = NULL;
    it->is_new = false;
}

int run(const command *command, RedisModuleCtx *ctx, RedisModuleString **words, int count)
{
    call it = {.ctx = ctx, .command = command, .next = words + 1, .count = count, .left = count - 1, .most = INT64_MAX};
    it.is_ts = *command->name == 't';
    if (take(&it, command->form))
        at_key(&it, command->act);
    return REDISMODULE_OK;
}

/* The nodes of a cluster pass on what one of them publishes, so there only the master of a key does. */
static void publish_notes(call *it)
{
    livevec_note notes[LIVEVEC_MOST_QUERIES];
    int only_replica = REDISMODULE_CTX_FLAGS_CLUSTER | REDISMODULE_CTX_FLAGS_SLAVE;
    livevec_series_noted noted = due(it, notes);
    if (!noted.count || (RedisModule_GetContextFlags(it->ctx) & only_replica) == only_replica)
        return;
    size_t length;
    const char *name = RedisModule_StringPtrLen(it->name, &length);
    RedisModuleString *channel = RedisModule_CreateString(it->ctx, "livevec:", strlen("livevec:"));
    RedisModule_StringAppendBuffer(it->ctx, channel, name, length);
    for (const livevec_note *note = notes; note != notes + noted.count; note++) {
        char value[ANSWER_TEXT];
        answer result = {.count = note->values.any, .values = note->values};
        answer_text(value, note->kind, &result);
        RedisModuleString *message = RedisModule_CreateStringPrintf(it->ctx, "%llu %s %s", (unsigned long long)noted.edit, note->name, value);
        RedisModule_PublishMessage(it->ctx, channel, message);
        RedisModule_FreeString(it->ctx, message);
    }
    RedisModule_FreeString(it->ctx, channel);
}

void changed(call *it, const char *event)
{
    if (it->is_new)
        RedisModule_ModuleTypeSetValue(it->key, list_type, it->list);
    it->is_new = false;
    RedisModule_SignalModifiedKey(it->ctx, it->name);
    RedisModule_NotifyKeyspaceEvent(it->ctx, REDISMODULE_NOTIFY_MODULE, event, it->name);
    if (it->list->watched)
        publish_notes(it);
}

void edited(call *it)
{
    RedisModule_ReplicateVerbatim(it->ctx);
    changed(it, it->command->name);
}
