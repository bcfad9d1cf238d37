/* The part of the module interface of Redis 7.0 and later, and of Valkey, that this module uses. The server gives each function by its name when the
 * module is loaded, so no header of Redis is needed. Names, numbers and layouts are the interface's; redis.io documents them as "Modules API". */
#ifndef LIVEVEC_REDIS_INTERFACE_H
#define LIVEVEC_REDIS_INTERFACE_H

#include <stddef.h>
#include <stdint.h>

typedef struct RedisModuleCtx RedisModuleCtx;
typedef struct RedisModuleKey RedisModuleKey;
typedef struct RedisModuleString RedisModuleString;
typedef struct RedisModuleType RedisModuleType;
typedef struct RedisModuleCommand RedisModuleCommand;
typedef struct RedisModuleIO RedisModuleIO;
typedef struct RedisModuleDigest RedisModuleDigest;
typedef struct RedisModuleInfoCtx RedisModuleInfoCtx;
typedef int RedisModuleCmdFunc(RedisModuleCtx *ctx, RedisModuleString **words, int count);
typedef void RedisModuleInfoFunc(RedisModuleInfoCtx *ctx, int for_crash_report);

enum { REDISMODULE_OK = 0, REDISMODULE_ERR = 1, REDISMODULE_APIVER_1 = 1 };
enum { REDISMODULE_READ = 1 << 0, REDISMODULE_WRITE = 1 << 1, REDISMODULE_KEYTYPE_EMPTY = 0 };
enum { REDISMODULE_NOTIFY_MODULE = 1 << 13 };
enum { REDISMODULE_OPTIONS_HANDLE_IO_ERRORS = 1 << 0, REDISMODULE_OPTION_NO_IMPLICIT_SIGNAL_MODIFIED = 1 << 1 };
enum { REDISMODULE_CTX_FLAGS_SLAVE = 1 << 3, REDISMODULE_CTX_FLAGS_CLUSTER = 1 << 5, REDISMODULE_CTX_FLAGS_LOADING = 1 << 13 };
enum { REDISMODULE_CMD_KEY_RO = 1 << 0, REDISMODULE_CMD_KEY_RW = 1 << 1, REDISMODULE_CMD_KEY_OW = 1 << 2, REDISMODULE_CMD_KEY_ACCESS = 1 << 4,
       REDISMODULE_CMD_KEY_UPDATE = 1 << 5, REDISMODULE_CMD_KEY_INSERT = 1 << 6, REDISMODULE_CMD_KEY_DELETE = 1 << 7 };
enum { REDISMODULE_KSPEC_BS_INDEX = 2, REDISMODULE_KSPEC_FK_RANGE = 2 };

#define REDISMODULE_ERRORMSG_WRONGTYPE "WRONGTYPE Operation against a key holding the wrong kind of value"

/* What Redis calls for a value of a module's type. Version 3 ends here; later versions of the interface add fields behind. */
typedef struct RedisModuleTypeMethods {
    uint64_t version;
    void *(*rdb_load)(RedisModuleIO *io, int version);
    void (*rdb_save)(RedisModuleIO *io, void *value);
    void (*aof_rewrite)(RedisModuleIO *io, RedisModuleString *key, void *value);
    size_t (*mem_usage)(const void *value);
    void (*digest)(RedisModuleDigest *digest, void *value);
    void (*free)(void *value);
    int (*aux_load)(RedisModuleIO *io, int version, int when);
    void (*aux_save)(RedisModuleIO *io, int when);
    int aux_save_triggers;
    size_t (*free_effort)(RedisModuleString *key, const void *value);
    void (*unlink)(RedisModuleString *key, const void *value);
    void *(*copy)(RedisModuleString *from, RedisModuleString *to, const void *value);
    int (*defrag)(void *ctx, RedisModuleString *key, void **value);
} RedisModuleTypeMethods;

/* Where a command has its keys: from which word on, up to which (-1 is the last), and in which steps; and what becomes of them. */
typedef struct RedisModuleCommandKeySpec {
    const char *notes;
    uint64_t flags;
    int begin_search_type;
    union { struct { int pos; } index; struct { const char *keyword; int startfrom; } keyword; } bs;
    int find_keys_type;
    union { struct { int lastkey, keystep, limit; } range; struct { int keynumidx, firstkey, keystep; } keynum; } fk;
} RedisModuleCommandKeySpec;

/* The sizes of the parts of which a list is handed over; this module hands over lists of keys alone. */
typedef struct RedisModuleCommandInfoVersion {
    int version;
    size_t sizeof_historyentry, sizeof_keyspec, sizeof_arg;
} RedisModuleCommandInfoVersion;

typedef struct RedisModuleCommandInfo {
    const RedisModuleCommandInfoVersion *version;
    const char *summary, *complexity, *since;
    void *history;
    const char *tips;
    int arity;
    RedisModuleCommandKeySpec *key_specs;
    void *args;
} RedisModuleCommandInfo;

/* Each function: what it answers, its name behind `RedisModule_`, and what it takes. */
#define REDIS_INTERFACE(F) \
    F(void *, TryAlloc, (size_t size)) F(void, Free, (void *memory)) F(size_t, MallocSize, (void *memory)) \
    F(int, SetModuleAttribs, (RedisModuleCtx *, const char *name, int version, int interface)) F(int, IsModuleNameBusy, (const char *name)) \
    F(void, SetModuleOptions, (RedisModuleCtx *, int options)) \
    F(int, CreateCommand, (RedisModuleCtx *, const char *name, RedisModuleCmdFunc *function, const char *flags, int first, int last, int step)) \
    F(RedisModuleCommand *, GetCommand, (RedisModuleCtx *, const char *name)) \
    F(int, SetCommandInfo, (RedisModuleCommand *, const RedisModuleCommandInfo *info)) \
    F(RedisModuleType *, CreateDataType, (RedisModuleCtx *, const char *name, int version, RedisModuleTypeMethods *methods)) \
    F(int, RegisterInfoFunc, (RedisModuleCtx *, RedisModuleInfoFunc *function)) F(int, InfoAddSection, (RedisModuleInfoCtx *, const char *name)) \
    F(int, InfoAddFieldCString, (RedisModuleInfoCtx *, const char *field, const char *value)) F(int, IsKeysPositionRequest, (RedisModuleCtx *)) \
    F(void, KeyAtPosWithFlags, (RedisModuleCtx *, int position, int flags)) F(int, GetContextFlags, (RedisModuleCtx *)) \
    F(long long, Milliseconds, (void)) F(RedisModuleKey *, OpenKey, (RedisModuleCtx *, RedisModuleString *name, int mode)) \
    F(void, CloseKey, (RedisModuleKey *)) F(int, KeyType, (RedisModuleKey *)) F(RedisModuleType *, ModuleTypeGetType, (RedisModuleKey *)) \
    F(void *, ModuleTypeGetValue, (RedisModuleKey *)) F(int, ModuleTypeSetValue, (RedisModuleKey *, RedisModuleType *, void *value)) \
    F(int, SignalModifiedKey, (RedisModuleCtx *, RedisModuleString *name)) \
    F(int, NotifyKeyspaceEvent, (RedisModuleCtx *, int sort, const char *event, RedisModuleString *name)) \
    F(int, PublishMessage, (RedisModuleCtx *, RedisModuleString *channel, RedisModuleString *message)) \
    F(int, Replicate, (RedisModuleCtx *, const char *command, const char *form, ...)) F(int, ReplicateVerbatim, (RedisModuleCtx *)) \
    F(int, StringToLongLong, (const RedisModuleString *text, long long *number)) \
    F(const char *, StringPtrLen, (const RedisModuleString *text, size_t *length)) \
    F(RedisModuleString *, CreateString, (RedisModuleCtx *, const char *text, size_t length)) \
    F(RedisModuleString *, CreateStringPrintf, (RedisModuleCtx *, const char *form, ...)) \
    F(int, StringAppendBuffer, (RedisModuleCtx *, RedisModuleString *text, const char *more, size_t length)) \
    F(void, FreeString, (RedisModuleCtx *, RedisModuleString *text)) F(int, ReplyWithError, (RedisModuleCtx *, const char *error)) \
    F(int, ReplyWithSimpleString, (RedisModuleCtx *, const char *text)) \
    F(int, ReplyWithStringBuffer, (RedisModuleCtx *, const char *text, size_t length)) \
    F(int, ReplyWithCString, (RedisModuleCtx *, const char *text)) F(int, ReplyWithLongLong, (RedisModuleCtx *, long long number)) \
    F(int, ReplyWithDouble, (RedisModuleCtx *, double number)) F(int, ReplyWithNull, (RedisModuleCtx *)) \
    F(int, ReplyWithArray, (RedisModuleCtx *, long length)) F(int, ReplyWithMap, (RedisModuleCtx *, long length)) \
    F(void, SaveUnsigned, (RedisModuleIO *, uint64_t number)) F(uint64_t, LoadUnsigned, (RedisModuleIO *)) \
    F(void, SaveSigned, (RedisModuleIO *, int64_t number)) F(int64_t, LoadSigned, (RedisModuleIO *)) \
    F(void, SaveStringBuffer, (RedisModuleIO *, const char *bytes, size_t length)) \
    F(char *, LoadStringBuffer, (RedisModuleIO *, size_t *length)) F(int, IsIOError, (RedisModuleIO *)) \
    F(void, LogIOError, (RedisModuleIO *, const char *level, const char *form, ...)) \
    F(void, Log, (RedisModuleCtx *, const char *level, const char *form, ...)) \
    F(void, EmitAOF, (RedisModuleIO *, const char *command, const char *form, ...)) \
    F(RedisModuleString *, SaveDataTypeToString, (RedisModuleCtx *, void *value, const RedisModuleType *)) \
    F(void *, LoadDataTypeFromStringEncver, (const RedisModuleString *text, const RedisModuleType *, int version)) \
    F(void, DigestAddLongLong, (RedisModuleDigest *, long long number)) \
    F(void, DigestAddStringBuffer, (RedisModuleDigest *, const char *bytes, size_t length)) F(void, DigestEndSequence, (RedisModuleDigest *))

#define DECLARED(answer, name, parameters) extern answer (*RedisModule_##name) parameters;
REDIS_INTERFACE(DECLARED)
#undef DECLARED

#endif
