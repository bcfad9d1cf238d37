/* Replies: errors, numbers and answers. */
#include "module.h"

#include <stdio.h>
#include <string.h>

__extension__ typedef __int128 wide;
__extension__ typedef unsigned __int128 unsigned_wide;

/* An answer of kind `affine` has two numbers, and of `automaton` eight. */
enum { STATES = 8 };

/* Replies with an error, and answers 0: false, and what a command returns. */
int failed(RedisModuleCtx *ctx, const char *error)
{
    RedisModule_ReplyWithError(ctx, error);
    return 0;
}

int refused(RedisModuleCtx *ctx, uint32_t refusal)
{
    char text[128];
    if (refusal == LIVEVEC_NO_MEMORY)
        return failed(ctx, "OOM out of memory: nothing was changed");
    snprintf(text, sizeof text, "LV%u %s", refusal, livevec_refusal_text(refusal));
    return failed(ctx, text);
}

void reply_edit(RedisModuleCtx *ctx, long length, uint64_t edit)
{
    RedisModule_ReplyWithArray(ctx, length);
    RedisModule_ReplyWithLongLong(ctx, (long long)edit);
}

static wide wide_of(uint64_t low, int64_t high) { return (wide)((unsigned_wide)(uint64_t)high << 64 | low); }

static int put(wide *numbers, wide number, int count)
{
    numbers[0] = number;
    return count;
}

/* The whole numbers that an answer has: one, or those of a map or of states, or none. */
static int numbers_of(unsigned kind, const answer *answer, wide *numbers)
{
    const livevec_values *values = &answer->values;
    int any = answer->count != 0;
    switch (kind) {
    case LIVEVEC_SUM: return put(numbers, (int64_t)values->sum, 1);
    case LIVEVEC_LEAST: return put(numbers, values->least, any);
    case LIVEVEC_GREATEST: return put(numbers, values->greatest, any);
    case LIVEVEC_BEST: return put(numbers, wide_of(values->best_low, values->best_high), any);
    case LIVEVEC_AFFINE:
        numbers[1] = values->affine_b;
        return put(numbers, values->affine_a, 2);
    case KIND_COUNT: return put(numbers, answer->count, 1);
    case KIND_EXACT_SUM: return put(numbers, wide_of(answer->exact.low, answer->exact.high), 1);
    case LIVEVEC_AUTOMATON: break;
    default: return 0;
    }
    for (int state = 0; state < STATES; state++)
        numbers[state] = values->automaton[state];
    return STATES;
}

/* The mean to the nearest double or a neighbour of it. */
static double mean_of(const answer *answer)
{
    wide sum = wide_of(answer->exact.low, answer->exact.high), count = answer->count;
    return (double)((long double)(sum / count) + (long double)(sum % count) / (long double)count);
}

static int number_text(char *text, wide number)
{
    char digits[ANSWER_TEXT];
    unsigned_wide rest = number < 0 ? -(unsigned_wide)number : (unsigned_wide)number;
    int at = ANSWER_TEXT;
    digits[--at] = '\0';
    do
        digits[--at] = (char)('0' + (int)(rest % 10));
    while (rest /= 10);
    if (number < 0)
        digits[--at] = '-';
    memcpy(text, digits + at, (size_t)(ANSWER_TEXT - at));
    return ANSWER_TEXT - at - 1;
}

void answer_text(char *text, unsigned kind, const answer *answer)
{
    wide numbers[STATES];
    int count = numbers_of(kind, answer, numbers);
    if (kind == KIND_MEAN && answer->count)
        snprintf(text, ANSWER_TEXT, "%.17g", mean_of(answer));
    else if (!count)
        memcpy(text, "none", sizeof "none");
    for (int i = 0; i < count; i++) {
        if (i)
            *text++ = ' ';
        text += number_text(text, numbers[i]);
    }
}

static void reply_number(RedisModuleCtx *ctx, wide number)
{
    char text[ANSWER_TEXT];
    if (number == (int64_t)number)
        RedisModule_ReplyWithLongLong(ctx, (int64_t)number);
    else
        RedisModule_ReplyWithStringBuffer(ctx, text, (size_t)number_text(text, number));
}

void reply_answer(RedisModuleCtx *ctx, unsigned kind, const answer *answer)
{
    wide numbers[STATES];
    int count = numbers_of(kind, answer, numbers);
    if (kind == KIND_MEAN && answer->count)
        RedisModule_ReplyWithDouble(ctx, mean_of(answer));
    else if (!count)
        RedisModule_ReplyWithNull(ctx);
    if (count > 1)
        RedisModule_ReplyWithArray(ctx, count);
    for (int i = 0; i < count; i++)
        reply_number(ctx, numbers[i]);
}
