/* What the files of the module share: a call of a command, with its words and its key, and replies. */
#ifndef LIVEVEC_REDIS_MODULE_H
#define LIVEVEC_REDIS_MODULE_H

#include "lists.h"
#include "redis_interface.h"

/* Room for the longest answer as a text. */
enum { ANSWER_TEXT = 48 };

typedef enum { ANY_LIST, SERIES_ONLY, SAMPLES_ONLY } list_sort;

/* What a command does, at its open key if its form has one. It replies and answers 0, or it answers why it is refused, which becomes the reply. */
typedef struct call call;
typedef uint32_t action(call *call);

/* How Redis runs a command, what becomes of its keys, and where these are: from the first word up to `last` (-1 is the end), in steps, or nowhere. */
typedef struct manner {
    const char *flags;
    uint64_t keys;
    int last, step;
} manner;

/* A command: how many words it has (at least so many, if negative), and in its form which, as words.c says. Names are also those of key events. */
typedef struct command {
    const char *name;
    action *act;
    int arity;
    const manner *manner;
    const char *form, *cost, *says;
} command;

/* A call: the words that are not taken yet, what the others said, and the key. `said` has, of each choice in the form, which word was there, from 1
 * on, or 0. A list that was made for a missing key is put there by `changed` only. */
struct call {
    RedisModuleCtx *ctx;
    const command *command;
    RedisModuleString **next;
    int count, left;
    unsigned kind, said[2];
    window window;
    int64_t x, time, span, most, index, second;
    const char *text;
    const int64_t *values;
    size_t length; /* of the text or the values */
    bool by_effect, is_ts; /* whether replicas get its effect, not its words; whether it is in a form of RedisTimeSeries */
    bool needs_range;
    livevec_window in; /* the range of the window */
    list_sort sort;
    RedisModuleString *name;
    RedisModuleKey *key;
    list *list;
    bool is_new;
};

extern RedisModuleType *list_type;
extern RedisModuleTypeMethods list_methods;

/* Takes words by a form. If they aren't there, an error is the reply, and the answer is false. */
bool take(call *it, const char *form);
bool take_number(call *it, int64_t *number);
extern const char *const kind_names[KINDS];

/* Runs a command; acts at a call's key, which is open meanwhile, and replies if that isn't possible. */
int run(const command *command, RedisModuleCtx *ctx, RedisModuleString **words, int count);
void at_key(call *it, action *act);

/* What ends an edit but for its reply; `edited` is for one that is replicated in its own words. */
void changed(call *it, const char *event);
void edited(call *it);
void arm(call *it);

int failed(RedisModuleCtx *ctx, const char *error);
int refused(RedisModuleCtx *ctx, uint32_t refusal);
/* Begins an array of so many entries with the edit number. */
void reply_edit(RedisModuleCtx *ctx, long length, uint64_t edit);
void reply_answer(RedisModuleCtx *ctx, unsigned kind, const answer *answer);
void answer_text(char *text, unsigned kind, const answer *answer);

#endif
