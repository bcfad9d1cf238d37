/* What Redis asks of a type: values as bytes in snapshots, dumps and copies, the append-only file's rewrite, digests, and memory. */
#include "module.h"

#include <string.h>

enum { LAYOUT = 1, PIECE = 1 << 16, PAGE = 1 << 12 };

RedisModuleType *list_type;

static void save_watch(RedisModuleIO *io, const watch *watch)
{
    const livevec_query *query = &watch->query;
    RedisModule_SaveStringBuffer(io, watch->name, strlen(watch->name));
    RedisModule_SaveUnsigned(io, query->kind);
    RedisModule_SaveUnsigned(io, query->span);
    RedisModule_SaveUnsigned(io, query->bound);
    RedisModule_SaveUnsigned(io, query->lo);
    RedisModule_SaveUnsigned(io, query->hi);
    RedisModule_SaveSigned(io, query->x);
}

static uint32_t load_watch(RedisModuleIO *io, list *list)
{
    livevec_query query = {0};
    size_t length = 0;
    char *name = RedisModule_LoadStringBuffer(io, &length);
    query.kind = (uint32_t)RedisModule_LoadUnsigned(io);
    query.span = (uint32_t)RedisModule_LoadUnsigned(io);
    query.bound = (uint32_t)RedisModule_LoadUnsigned(io);
    query.lo = RedisModule_LoadUnsigned(io);
    query.hi = RedisModule_LoadUnsigned(io);
    query.x = RedisModule_LoadSigned(io);
    bool is_saved = name && !RedisModule_IsIOError(io) && (query.span != LIVEVEC_WITHIN || list->has_times);
    uint32_t refusal = is_saved ? list_watch(list, name, length, &query) : (uint32_t)LIVEVEC_NOT_SAVED;
    RedisModule_Free(name);
    return refusal;
}

/* A list's bytes, in pieces, go to a snapshot or to a digest. */
static void pass_elements(list *list, RedisModuleIO *io, RedisModuleDigest *digest)
{
    uint8_t piece[PIECE];
    size_t length = 0;
    for (uint64_t at = 0; (length = livevec_series_save(series_of(list), at, piece, sizeof piece).length); at += length)
        if (io)
            RedisModule_SaveStringBuffer(io, (const char *)piece, length);
        else
            RedisModule_DigestAddStringBuffer(digest, (const char *)piece, length);
}

/* Pieces come until all bytes are there whose number came first, and none of them is empty. */
static uint32_t load_elements(RedisModuleIO *io, list *list)
{
    uint64_t left = RedisModule_LoadUnsigned(io);
    uint32_t refusal = RedisModule_IsIOError(io) ? LIVEVEC_NOT_SAVED : LIVEVEC_OK;
    while (left && !refusal) {
        size_t length = 0;
        char *piece = RedisModule_LoadStringBuffer(io, &length);
        bool is_saved = piece && length && length <= left;
        refusal = is_saved ? livevec_series_load(series_of(list), (const uint8_t *)piece, length) : (uint32_t)LIVEVEC_NOT_SAVED;
        left -= refusal ? 0 : length;
        RedisModule_Free(piece);
    }
    if (refusal)
        return refusal;
    return list->has_times ? livevec_samples_end_load(samples_of(list)) : livevec_series_end_load(series_of(list));
}

static void rdb_save(RedisModuleIO *io, void *value)
{
    list *list = value;
    RedisModule_SaveUnsigned(io, list->has_times);
    RedisModule_SaveUnsigned(io, list->retention);
    RedisModule_SaveUnsigned(io, list->watched);
    for (unsigned i = 0; i < list->watched; i++)
        save_watch(io, &list->watches[i]);
    RedisModule_SaveUnsigned(io, livevec_series_saved_length(series_of(list)).value);
    pass_elements(list, io, NULL);
}

/* Watches are loaded before what they are of. What isn't exactly a saved list is refused. */
static uint32_t load_parts(RedisModuleIO *io, list *list)
{
    uint64_t count = RedisModule_LoadUnsigned(io);
    uint32_t refusal = count > LIVEVEC_MOST_QUERIES ? LIVEVEC_NOT_SAVED : LIVEVEC_OK;
    for (uint64_t i = 0; i < count && !refusal; i++)
        refusal = load_watch(io, list);
    return refusal ? refusal : load_elements(io, list);
}

static void *rdb_load(RedisModuleIO *io, int version)
{
    uint64_t has_times = RedisModule_LoadUnsigned(io), retention = RedisModule_LoadUnsigned(io);
    bool is_saved = version == LAYOUT && !RedisModule_IsIOError(io) && has_times <= 1 && retention <= INT64_MAX;
    list *list = is_saved ? list_new(has_times, true) : NULL;
    uint32_t refusal = list ? load_parts(io, list) : is_saved ? LIVEVEC_NO_MEMORY : LIVEVEC_NOT_SAVED;
    if (refusal) {
        list_free(list);
        RedisModule_LogIOError(io, "warning", "livevec: a key is not loaded: %s", livevec_refusal_text(refusal));
        return NULL;
    }
    list->retention = retention;
    return list;
}

/* The bytes of a dump as one internal command. */
static void aof_rewrite(RedisModuleIO *io, RedisModuleString *key, void *value)
{
    RedisModuleString *bytes = RedisModule_SaveDataTypeToString(NULL, value, list_type);
    if (!bytes)
        return;
    RedisModule_EmitAOF(io, "LV.RESTORE", "ss", key, bytes);
    RedisModule_FreeString(NULL, bytes);
}

static void *copy(RedisModuleString *from, RedisModuleString *to, const void *value)
{
    (void)from;
    (void)to;
    RedisModuleString *bytes = RedisModule_SaveDataTypeToString(NULL, (void *)value, list_type);
    if (!bytes)
        return NULL;
    void *made = RedisModule_LoadDataTypeFromStringEncver(bytes, list_type, LAYOUT);
    RedisModule_FreeString(NULL, bytes);
    return made;
}

/* Elements, indices and the edit number; not what was asked of it. */
static void digest(RedisModuleDigest *digest, void *value)
{
    list *list = value;
    RedisModule_DigestAddLongLong(digest, (long long)list->retention);
    pass_elements(list, NULL, digest);
    RedisModule_DigestEndSequence(digest);
}

/* A value of many pages is freed outside the main thread. */
static size_t free_effort(RedisModuleString *key, const void *value)
{
    (void)key;
    return 1 + list_bytes(value) / PAGE;
}

RedisModuleTypeMethods list_methods = {
    .version = 3, .rdb_load = rdb_load, .rdb_save = rdb_save, .aof_rewrite = aof_rewrite, .mem_usage = list_bytes, .digest = digest,
    .free = list_free, .free_effort = free_effort, .copy = copy};

/* What a rewritten append-only file has in place of the commands that made a key. */
uint32_t restore_command(call *it)
{
    RedisModuleString **words = it->next;
    RedisModuleKey *key = RedisModule_OpenKey(it->ctx, words[0], REDISMODULE_READ | REDISMODULE_WRITE);
    bool is_there = RedisModule_KeyType(key) != REDISMODULE_KEYTYPE_EMPTY;
    void *made = is_there ? NULL : RedisModule_LoadDataTypeFromStringEncver(words[1], list_type, LAYOUT);
    if (made) {
        RedisModule_ModuleTypeSetValue(key, list_type, made);
        RedisModule_SignalModifiedKey(it->ctx, words[0]);
        RedisModule_ReplicateVerbatim(it->ctx);
        RedisModule_ReplyWithSimpleString(it->ctx, "OK");
    }
    RedisModule_CloseKey(key);
    if (is_there)
        return failed(it->ctx, "BUSYKEY Target key name already exists.");
    return made ? LIVEVEC_OK : LIVEVEC_NOT_SAVED;
}
