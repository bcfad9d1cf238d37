/* livevec as a module of Redis: the table of its commands, and how it is loaded. */
#include "module.h"

#include <stdio.h>
#include <string.h>

#define DEFINED(answer, name, parameters) answer (*RedisModule_##name) parameters;
REDIS_INTERFACE(DEFINED)

enum {
    VERSION = 1, LAYOUT = 1, TO_END = -1,
    ASKS = REDISMODULE_CMD_KEY_RO | REDISMODULE_CMD_KEY_ACCESS,
    ADDS = REDISMODULE_CMD_KEY_RW | REDISMODULE_CMD_KEY_INSERT,
    EDITS = REDISMODULE_CMD_KEY_RW | REDISMODULE_CMD_KEY_UPDATE | REDISMODULE_CMD_KEY_ACCESS,
    DROPS = REDISMODULE_CMD_KEY_RW | REDISMODULE_CMD_KEY_DELETE | REDISMODULE_CMD_KEY_ACCESS,
    MAKES = REDISMODULE_CMD_KEY_OW | REDISMODULE_CMD_KEY_INSERT
};

static const manner asks = {"readonly fast", ASKS, 1, 1};
static const manner asks_long = {"readonly", ASKS, 1, 1};
static const manner asks_many = {"readonly fast getkeys-api", ASKS, 0, 0};
static const manner asks_none = {"readonly fast", 0, 0, 0};
static const manner adds = {"write deny-oom fast", ADDS, 1, 1};
static const manner adds_many = {"write deny-oom fast", ADDS, TO_END, 3};
static const manner edits = {"write fast", EDITS, 1, 1};
static const manner drops = {"write fast", DROPS, 1, 1};
static const manner watches = {"write deny-oom", EDITS, 1, 1};
static const manner unwatches = {"write", EDITS, 1, 1};
static const manner makes = {"write deny-oom", MAKES, 1, 1};

/* Each command: the two words of its name, how many words it has, its manner and its form, what it costs and what it is for. The second word of its
 * name is also that of its function. */
#define COMMANDS(C) \
    C(lv, push, -3, &adds, "", "O(1) amortised for each", "Puts elements at the end, all or none") \
    C(lv, add, -4, &adds, "kmtx[FIRST i].", "O(1) amortised", "Puts a sample at the end") \
    C(lv, madd, -4, &adds_many, "", "O(1) amortised for each", "Puts samples at the ends of several keys") \
    C(lv, set, 4, &edits, "kix", "O(log n) for each kind asked for", "Overwrites an element") \
    C(lv, pop, 2, &drops, "k", "O(1)", "Drops the last element") \
    C(lv, swap, 4, &edits, "ksij", "O(log n) for each kind asked for", "Exchanges two elements") \
    C(lv, truncate, 3, &drops, "ki", "O(1)", "Drops the elements from an index on") \
    C(lv, expire, 4, &drops, "k[INDEX i][BEFORE mu].", "O(1) amortised", "Drops the elements before an index or a time") \
    C(lv, retain, 3, &adds, "kmr", "O(1)", "Sets for how much time samples are kept") \
    C(lv, value, -3, &asks, "kaw.", "O(log n), and O(n) at first", "The value of a window by one kind") \
    C(lv, mvalue, -4, &asks_many, "aw", "O(log n) for each key", "The values of several keys") \
    C(lv, find, -5, &asks, "k FIRST|LAST ATLEAST|ATMOST xb.o", "O(log n)", "The first or last element that is large or small enough") \
    C(lv, reach, -3, &asks, "kxb.o", "O(log n)", "The index up to which elements add up to a number") \
    C(lv, where, -3, &asks, "kpb.ho", "O(log n)", "Where the least, the greatest or the best run is") \
    C(lv, range, -2, &asks_long, "kw[COUNT c][BUCKET mda].o", "O(length), and O(log n) for each bucket", "Elements, samples, or values of buckets") \
    C(lv, scan, -3, &asks_long, "kq[EXCLUSIVE ]w.o", "O(length)", "Running values of a window") \
    C(lv, info, 2, &asks, "k", "O(1)", "Form, indices, edits, retention, watches and bytes") \
    C(lv, watch, -4, &watches, "knqwv[ATLEAST|ATMOST x].", "O(n) at first, then O(log n) for each edit", "Publishes each change of an answer") \
    C(lv, unwatch, 3, &unwatches, "kn", "O(watches)", "Forgets a watch") \
    C(lv, watches, 2, &asks, "k", "O(watches)", "The watches of a key") \
    C(lv, summary, -2, &asks_long, "kw.o", "O(length)", "The aggregate of a window, as 184 bytes") \
    C(lv, combine, -2, &asks_none, "", "O(summaries)", "Combines aggregates, in the order of their elements") \
    C(lv, restore, 3, &makes, "", "O(n)", "Internal: makes a key of what a rewritten append-only file has") \
    C(ts, add, -4, &adds, "kmtx[RETENTION r].", "O(1) amortised", "lv.add in a form of RedisTimeSeries") \
    C(ts, madd, -4, &adds_many, "", "O(1) amortised for each", "lv.madd in a form of RedisTimeSeries") \
    C(ts, get, 2, &asks, "km", "O(1)", "The last sample, in a form of RedisTimeSeries") \
    C(ts, range, -4, &asks_long, "kmf[COUNT c][AGGREGATION gd].o", "O(length), and O(log n) for each bucket", "lv.range in a form of RedisTimeSeries")

#define ROW(family, verb, ...) \
    action verb##_command; \
    static const command family##_##verb = {#family "." #verb, verb##_command, __VA_ARGS__}; \
    static int run_##family##_##verb(RedisModuleCtx *ctx, RedisModuleString **words, int count) \
    { return run(&family##_##verb, ctx, words, count); }
COMMANDS(ROW)

#define LISTED(family, verb, ...) {&family##_##verb, run_##family##_##verb},
static const struct { const command *is; RedisModuleCmdFunc *run; } commands[] = {COMMANDS(LISTED)};

/* Redis 7.2 and later put commands into categories of access, and later ones also into one of the module's own. */
static int (*set_categories)(RedisModuleCommand *command, const char *categories);
static int (*add_category)(RedisModuleCtx *ctx, const char *name);

static int described(const command *it, RedisModuleCommand *to, const char *own_category)
{
    static const RedisModuleCommandInfoVersion version = {1, 1, sizeof(RedisModuleCommandKeySpec), 1};
    const manner *how = it->manner;
    RedisModuleCommandKeySpec keys[2] = {{
        .flags = how->keys, .begin_search_type = REDISMODULE_KSPEC_BS_INDEX, .bs.index.pos = 1, .find_keys_type = REDISMODULE_KSPEC_FK_RANGE,
        .fk.range = {how->last < 0 ? how->last : 0, how->step, 0}}};
    RedisModuleCommandInfo info = {
        .version = &version, .summary = it->says, .complexity = it->cost, .since = "0.3.0", .arity = it->arity,
        .key_specs = how->step ? keys : NULL};
    char categories[32];
    const char *access = strstr(how->flags, "write") ? "write" : "read", *speed = strstr(how->flags, "fast") ? "fast" : "slow";
    snprintf(categories, sizeof categories, "%s %s%s", access, speed, own_category);
    return RedisModule_SetCommandInfo(to, &info) || (set_categories && set_categories(to, categories));
}

/* Names that another module has, as RedisTimeSeries may have those that begin with `ts.`, are left to it. */
static int commands_made(RedisModuleCtx *ctx)
{
    const char *own_category = add_category && add_category(ctx, "livevec") == REDISMODULE_OK ? " livevec" : "";
    for (size_t i = 0; i < sizeof commands / sizeof *commands; i++) {
        const command *it = commands[i].is;
        const manner *how = it->manner;
        int first = how->step ? 1 : 0;
        if (RedisModule_CreateCommand(ctx, it->name, commands[i].run, how->flags, first, how->last, how->step) == REDISMODULE_OK) {
            if (described(it, RedisModule_GetCommand(ctx, it->name), own_category) != REDISMODULE_OK)
                return REDISMODULE_ERR;
        } else if (strncmp(it->name, "ts.", 3)) {
            return REDISMODULE_ERR;
        }
    }
    return REDISMODULE_OK;
}

static void info(RedisModuleInfoCtx *ctx, int for_crash_report)
{
    (void)for_crash_report;
    RedisModule_InfoAddSection(ctx, "library");
    RedisModule_InfoAddFieldCString(ctx, "version", livevec_version());
}

/* The context begins with the function by which Redis gives the others. */
static int interface_found(RedisModuleCtx *ctx)
{
    int (*get)(const char *name, void *function);
    memcpy(&get, ctx, sizeof get);
#define FOUND(answer, name, parameters) \
    if (get("RedisModule_" #name, &RedisModule_##name) != REDISMODULE_OK) \
        return REDISMODULE_ERR;
    REDIS_INTERFACE(FOUND)
    get("RedisModule_SetCommandACLCategories", &set_categories);
    get("RedisModule_AddACLCategory", &add_category);
    return REDISMODULE_OK;
}

__attribute__((visibility("default"))) int RedisModule_OnLoad(RedisModuleCtx *ctx, RedisModuleString **words, int count);

int RedisModule_OnLoad(RedisModuleCtx *ctx, RedisModuleString **words, int count)
{
    (void)words;
    (void)count;
    if (interface_found(ctx) != REDISMODULE_OK || RedisModule_IsModuleNameBusy("livevec"))
        return REDISMODULE_ERR;
    RedisModule_SetModuleAttribs(ctx, "livevec", VERSION, REDISMODULE_APIVER_1);
    RedisModule_SetModuleOptions(ctx, REDISMODULE_OPTIONS_HANDLE_IO_ERRORS | REDISMODULE_OPTION_NO_IMPLICIT_SIGNAL_MODIFIED);
    list_type = RedisModule_CreateDataType(ctx, "livevec-s", LAYOUT, &list_methods);
    if (!list_type || RedisModule_RegisterInfoFunc(ctx, info) != REDISMODULE_OK)
        return REDISMODULE_ERR;
    RedisModule_Log(ctx, "notice", "livevec %s", livevec_version());
    return commands_made(ctx);
}
