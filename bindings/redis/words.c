/* The words of a command. Its form has a letter for each thing that is taken or looked at, as `take_one` lists them. It has words in capitals with a
 * space behind them, of which one is there, as `FIRST|LAST `. What is in brackets is left out if none of its first words is there. */
#include "module.h"

#include <string.h>
#include <strings.h>

const char *const kind_names[KINDS] = {"sum", "min", "max", "best", "affine", "automaton", "count", "mean", "exactsum"};
static const char *const ts_names[KINDS] = {"sum", "min", "max", [KIND_COUNT] = "count", [KIND_MEAN] = "avg"};

static RedisModuleString *taken(call *it)
{
    it->left--;
    return *it->next++;
}

static bool took_of(call *it, const char *word, size_t length)
{
    size_t has = 0;
    const char *text = it->left ? RedisModule_StringPtrLen(*it->next, &has) : "";
    return has == length && !strncasecmp(text, word, length) && taken(it);
}
static bool took(call *it, const char *word) { return took_of(it, word, strlen(word)); }

static bool there(call *it) { return it->left || failed(it->ctx, "ERR syntax error"); }

static bool take_above(call *it, int64_t least, int64_t *number)
{
    long long found;
    if (!there(it))
        return false;
    if (RedisModule_StringToLongLong(*it->next, &found) != REDISMODULE_OK || found < least)
        return failed(it->ctx, "ERR value is not an integer or out of range");
    *number = found;
    return taken(it);
}
bool take_number(call *it, int64_t *number) { return take_above(it, INT64_MIN, number); }

static bool take_time(call *it)
{
    if (!took(it, "*"))
        return take_number(it, &it->time);
    it->by_effect = true;
    it->time = RedisModule_Milliseconds();
    return true;
}

static bool took_kind(call *it, const char *const *names, unsigned kinds)
{
    for (it->kind = 0; it->kind < kinds; it->kind++)
        if (names[it->kind] && took(it, names[it->kind]))
            return true;
    return false;
}
static bool take_kind(call *it, unsigned kinds)
{ return took_kind(it, kind_names, kinds) || (there(it) && refused(it->ctx, LIVEVEC_BAD_KIND)); }

static bool take_bounds(call *it)
{
    it->window.sort = BY_INDEX;
    return take_above(it, 0, &it->window.lo) && take_above(it, 0, &it->window.hi);
}

/* In the forms of RedisTimeSeries the last time is included. */
static bool take_times(call *it)
{
    window *window = &it->window;
    *window = (struct window){.sort = BY_TIME, .lo = INT64_MIN, .hi = INT64_MAX};
    if (!took(it, "-") && !take_number(it, &window->lo))
        return false;
    window->to_end = took(it, "+");
    if (!window->to_end && !take_number(it, &window->hi))
        return false;
    window->to_end |= it->is_ts && window->hi == INT64_MAX;
    window->hi += it->is_ts && !window->to_end;
    return true;
}

static bool take_window(call *it)
{
    if (took(it, "INDEX"))
        return take_bounds(it);
    if (took(it, "TIME"))
        return take_times(it);
    it->window.sort = took(it, "LAST") ? BY_LAST : took(it, "WITHIN") ? BY_SPAN : WHOLE;
    return it->window.sort == WHOLE ? took(it, "ALL") || true : take_above(it, 0, &it->window.lo);
}

static bool take_one(call *it, char letter)
{
    switch (letter) {
    case 'k': return (it->name = taken(it)); /* the key, */
    case 's': return (it->sort = SERIES_ONLY); /* which has a series, */
    case 'm': return (it->sort = SAMPLES_ONLY); /* or samples, */
    case 'o': return (it->needs_range = true); /* and at which the window's range is looked up */
    case 'n': return (it->text = RedisModule_StringPtrLen(taken(it), &it->length)); /* a name, or bytes */
    case 'x': return take_number(it, &it->x);
    case 't': return take_time(it); /* a time, or `*` */
    case 'u': return take_number(it, &it->time); /* a time */
    case 'i': return take_above(it, 0, &it->index);
    case 'j': return take_above(it, 0, &it->second); /* a second index */
    case 'r': return take_above(it, 0, &it->span); /* a retention */
    case 'd': return take_above(it, 1, &it->span); /* the duration of a bucket */
    case 'c': return take_above(it, 0, &it->most); /* a count of entries */
    case 'a': return take_kind(it, KINDS); /* any kind */
    case 'q': return take_kind(it, LIVEVEC_ALL_SIX);
    case 'p': return take_kind(it, LIVEVEC_AFFINE); /* a kind whose answer has a place, */
    case 'h': return it->kind != LIVEVEC_SUM || refused(it->ctx, LIVEVEC_BAD_KIND); /* as a sum's hasn't */
    case 'g': return took_kind(it, ts_names, KINDS) || failed(it->ctx, "ERR TSDB: Unknown aggregation type");
    case 'w': return take_window(it); /* a window, or none: all elements, */
    case 'v': return it->window.sort != BY_TIME || failed(it->ctx, "ERR a watch has no window TIME: use WITHIN"); /* but a moving one */
    case 'b': return !it->left || take_bounds(it); /* two indices, or none */
    case 'f': return take_times(it); /* two times */
    case '.': return !it->left || failed(it->ctx, "ERR syntax error"); /* no word is left */
    default: return true;
    }
}

/* Which word of a choice was taken, from 1 on, or 0. */
static unsigned took_one_of(call *it, const char *words)
{
    for (unsigned which = 1;; which++) {
        size_t length = strcspn(words, "| ");
        if (took_of(it, words, length))
            return which;
        if (words[length] != '|')
            return 0;
        words += length + 1;
    }
}

bool take(call *it, const char *form)
{
    unsigned *said = it->said;
    while (*form) {
        bool is_option = *form == '[';
        form += is_option;
        if (*form < 'A' || *form > 'Z') {
            if (!take_one(it, *form++))
                return false;
            continue;
        }
        *said = took_one_of(it, form);
        if (!*said && !is_option)
            return failed(it->ctx, "ERR syntax error");
        form = strchr(form, *said++ ? ' ' : ']');
    }
    return true;
}
