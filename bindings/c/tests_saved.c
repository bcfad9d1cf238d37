/* Series and samples as bytes: beside bytes that are laid out here by loops, as docs/formats.md says. */
#include "tests.h"
#include "tests_plain.h"
#include "tests_saved.h"

#include <stdlib.h>
#include <string.h>

enum { KINDS = 6 };

static uint64_t state = 41;

uint64_t put_number(uint8_t *bytes, uint64_t at, uint64_t number)
{
    for (int i = 0; i < 8; i++)
        bytes[at + i] = (uint8_t)(number >> 8 * i);
    return at + 8;
}

uint64_t checksum_of(const uint8_t *bytes, uint64_t length)
{
    uint64_t sum = 14695981039346656037u;
    for (uint64_t i = 0; i < length; i++)
        sum = (sum ^ bytes[i]) * 1099511628211u;
    return sum;
}

uint64_t laid_out(const twin *t, uint8_t *bytes)
{
    uint64_t count = t->size - t->first, at = 0;
    memcpy(bytes, "livevec:", 8);
    at = put_number(bytes, 8, 1);
    at = put_number(bytes, at, t->timed ? 2 : 1);
    at = put_number(bytes, at, t->first);
    at = put_number(bytes, at, t->edits);
    at = put_number(bytes, at, count);
    for (int rest = 0; rest < 4; rest++)
        for (int q = 0; q < 8; q++)
            bytes[at++] = (uint8_t)((2 * q + rest) % 8);
    for (uint64_t i = 0; i < count; i++)
        at = put_number(bytes, at, (uint64_t)t->values[t->first + i]);
    for (uint64_t i = 0; t->timed && i < count; i++)
        at = put_number(bytes, at, (uint64_t)t->times[t->first + i]);
    return put_number(bytes, at, checksum_of(bytes, at));
}

/* Some series, or samples, and its twin: so many pushes, then an expiry, a pop and a write. */
static void make(livevec_samples *s, twin *t, bool timed, uint64_t pushes)
{
    int64_t time = -7;
    *t = (twin){.timed = timed};
    IS(timed ? livevec_samples_new(s) : livevec_series_new(&s->values), 0);
    for (; t->size < pushes; t->size++, t->edits++) {
        t->values[t->size] = draw_element(&state);
        t->times[t->size] = time += draw(&state, 3);
        IS(timed ? livevec_samples_push(s, time, t->values[t->size]).refusal : livevec_series_push(&s->values, t->values[t->size]).refusal, 0);
    }
    if (pushes < 5)
        return;
    t->first = 2 + draw(&state, 3);
    IS(livevec_series_expire(&s->values, t->first).refusal, 0);
    IS(livevec_series_pop(&s->values).value, t->values[--t->size]);
    t->edits += 2;
}

/* Saves all of a slot in pieces of a buffer's length; what the buffer has behind a piece stays. */
static uint64_t save(livevec_series *s, uint8_t *bytes, size_t piece, uint64_t edits)
{
    uint8_t buffer[256];
    uint64_t at = 0;
    for (;;) {
        memset(buffer, 0xAA, sizeof buffer);
        livevec_series_scanned did = livevec_series_save(s, at, buffer, piece);
        IS(did.refusal, 0);
        IS(did.first, 0);
        IS(did.size, 0);
        IS(did.edit, edits);
        IS(did.length % 8, 0);
        IS(did.length <= piece, 1);
        for (size_t i = did.length; i < sizeof buffer; i++)
            if (buffer[i] != 0xAA)
                IS(i, did.length);
        memcpy(bytes + at, buffer, did.length);
        at += did.length;
        if (!did.length)
            return at;
    }
}

/* Loads bytes in pieces of a length, and tells what the end came to. */
static uint32_t load(livevec_samples *s, bool timed, const uint8_t *bytes, uint64_t length, size_t piece)
{
    IS(timed ? livevec_samples_begin_load(s) : livevec_series_begin_load(&s->values), 0);
    for (uint64_t at = 0; at < length; at += piece)
        IS(livevec_series_load(&s->values, bytes + at, length - at < piece ? length - at : piece), 0);
    return timed ? livevec_samples_end_load(s) : livevec_series_end_load(&s->values);
}

/* What a slot holds is the twin's, by all that it can be asked. */
static void holds(livevec_samples *s, const twin *t)
{
    int64_t read[TWIN_ROOM];
    uint64_t count = t->size - t->first;
    livevec_table table = usual_table();
    livevec_values all = plainly(t->values + t->first, count, &table);
    IS(livevec_series_first(&s->values).value, t->first);
    IS(livevec_series_size(&s->values).value, t->size);
    IS(livevec_series_edits(&s->values).value, t->edits);
    IS(livevec_series_read(&s->values, t->first, t->size, read, TWIN_ROOM).length, count);
    IS(memcmp(read, t->values + t->first, count * 8), 0);
    if (t->timed) {
        IS(livevec_samples_times(s, t->first, t->size, read, TWIN_ROOM).length, count);
        IS(memcmp(read, t->times + t->first, count * 8), 0);
    }
    alike(livevec_series_reduce(&s->values, t->first, t->size).values, all);
    for (uint32_t kind = 0; kind < KINDS; kind++)
        alike(livevec_series_value(&s->values, kind, t->first, t->size).values, only(all, kind));
}

/* What was loaded goes on under the next index and edit number. */
static void goes_on(livevec_samples *s, twin *t)
{
    int64_t time = t->size > t->first ? t->times[t->size - 1] : -9;
    livevec_series_edited e = t->timed ? livevec_samples_push(s, time, 77) : livevec_series_push(&s->values, 77);
    IS(e.refusal, 0);
    IS(e.place, t->size);
    IS(e.edit, ++t->edits);
    t->times[t->size] = time;
    t->values[t->size++] = 77;
    if (t->timed && t->size - t->first > 1)
        IS(livevec_samples_push(s, time - 1, 1).value, time);
    holds(s, t);
}

static void there_and_back(bool timed)
{
    static const uint64_t pushes[] = {0, 1, 2, 5, 7, 8, 9, 64, 500};
    static const size_t lengths[] = {8, 9, 16, 23, 88, 96, 256};
    static uint8_t wanted[ROOM], got[ROOM];
    static twin t;
    for (size_t i = 0; i < sizeof pushes / sizeof *pushes; i++)
        for (size_t j = 0; j < sizeof lengths / sizeof *lengths; j++) {
            livevec_samples s = {0}, back = {0};
            make(&s, &t, timed, pushes[i]);
            uint64_t length = laid_out(&t, wanted);
            IS(livevec_series_saved_length(&s.values).refusal, 0);
            IS(livevec_series_saved_length(&s.values).value, length);
            IS(save(&s.values, got, lengths[j], t.edits), length);
            IS(memcmp(got, wanted, length), 0);
            IS(load(&back, timed, got, length, 1 + j * j), 0);
            holds(&back, &t);
            holds(&s, &t);
            twin more = t;
            goes_on(&back, &more);
            holds(&s, &t);
            IS(livevec_free_samples(&s), 0);
            IS(livevec_free_samples(&back), 0);
        }
}

/* Bytes that are refused leave the slot empty, and so does the other's end. */
static void is_not_saved(bool timed, const uint8_t *bytes, uint64_t length)
{
    livevec_samples s = {0};
    IS(load(&s, timed, bytes, length, length ? length : 1), LIVEVEC_NOT_SAVED);
    IS(livevec_series_size(&s.values).refusal, LIVEVEC_NO_HANDLE);
    IS(livevec_free_samples(&s), LIVEVEC_NO_HANDLE);
}

/* Each bit of bytes flipped, each front of them, and bytes behind them. */
static void damaged(bool timed)
{
    static uint8_t bytes[ROOM];
    static twin t;
    livevec_samples s = {0};
    make(&s, &t, timed, 9);
    uint64_t length = save(&s.values, bytes, 256, t.edits);
    for (uint64_t at = 0; at < length; at++)
        for (int bit = 0; bit < 8; bit++) {
            bytes[at] ^= (uint8_t)(1 << bit);
            is_not_saved(timed, bytes, length);
            bytes[at] ^= (uint8_t)(1 << bit);
        }
    for (uint64_t less = 0; less < length; less++)
        is_not_saved(timed, bytes, less);
    for (uint64_t more = 1; more < 20; more++)
        is_not_saved(timed, bytes, length + more);
    is_not_saved(!timed, bytes, length);
    livevec_samples back = {0};
    IS(load(&back, timed, bytes, length, 7), 0);
    holds(&back, &t);
    IS(livevec_free_samples(&back), 0);
    IS(livevec_free_samples(&s), 0);
}

/* Bytes with a right checksum that are those of none: another layout, too many elements, states that aren't, times that fall. */
static void false_bytes(void)
{
    static const struct {
        uint64_t at, number;
    } numbers[] = {{8, 0}, {8, 2}, {16, 0}, {16, 1}, {16, 3}, {24, (1ull << 62) - 4}, {24, UINT64_MAX}, {40, 4}, {40, 6}, {40, UINT64_MAX},
                   {48, 8}, {56, 0x0800000000000000}, {72, 0x0800}, {80 + 8 * 5, 4}, {80 + 8 * 9, (uint64_t)-20}, {80 + 8 * 6, INT64_MAX}};
    static uint8_t bytes[ROOM];
    static twin t = {.size = 5, .edits = 5, .timed = true, .values = {4, 5, 6, 7, 8}, .times = {-3, -3, 0, 2, 2}};
    livevec_samples s = {0};
    for (size_t i = 0; i < sizeof numbers / sizeof *numbers; i++) {
        uint64_t length = laid_out(&t, bytes);
        put_number(bytes, numbers[i].at, numbers[i].number);
        put_number(bytes, length - 8, checksum_of(bytes, length - 8));
        is_not_saved(false, bytes, length);
        is_not_saved(true, bytes, length);
    }
    uint64_t length = laid_out(&t, bytes);
    IS(load(&s, true, bytes, length, 1), 0);
    holds(&s, &t);
    IS(livevec_free_samples(&s), 0);
    t.first = (1ull << 62) - 5;
    put_number(bytes, 24, t.first);
    put_number(bytes, length - 8, checksum_of(bytes, length - 8));
    IS(load(&s, true, bytes, length, 100), 0);
    IS(livevec_series_size(&s.values).value, 1ull << 62);
    IS(livevec_samples_push(&s, 9, 9).refusal, LIVEVEC_FULL);
    IS(livevec_free_samples(&s), 0);
}

/* All that a slot refuses while it is loaded, and what a slot that isn't loaded refuses. */
static void between_begin_and_end(void)
{
    static uint8_t bytes[ROOM];
    static twin t = {.size = 2, .edits = 2, .values = {4, 5}};
    uint64_t length = laid_out(&t, bytes);
    livevec_samples s = {0};
    livevec_series *values = &s.values;
    uint8_t buffer[8];
    IS(livevec_series_load(values, bytes, length), LIVEVEC_NO_HANDLE);
    IS(livevec_series_end_load(values), LIVEVEC_NO_HANDLE);
    IS(livevec_samples_end_load(&s), LIVEVEC_NO_HANDLE);
    IS(livevec_series_saved_length(values).refusal, LIVEVEC_NO_HANDLE);
    IS(livevec_series_save(values, 0, buffer, 8).refusal, LIVEVEC_NO_HANDLE);
    IS(livevec_series_begin_load(values), 0);
    IS(livevec_series_begin_load(values), LIVEVEC_IN_USE);
    IS(livevec_samples_begin_load(&s), LIVEVEC_IN_USE);
    IS(livevec_series_new(values), LIVEVEC_IN_USE);
    IS(livevec_series_push(values, 1).refusal, LIVEVEC_NO_HANDLE);
    IS(livevec_samples_push(&s, 1, 1).refusal, LIVEVEC_NO_HANDLE);
    IS(livevec_series_size(values).refusal, LIVEVEC_NO_HANDLE);
    IS(livevec_series_saved_length(values).refusal, LIVEVEC_NO_HANDLE);
    IS(livevec_series_save(values, 0, buffer, 8).refusal, LIVEVEC_NO_HANDLE);
    IS(livevec_series_load(values, NULL, 0), 0);
    IS(livevec_series_load(values, NULL, 1), LIVEVEC_NULL);
    values->busy_ = 1;
    IS(livevec_series_load(values, bytes, length), LIVEVEC_BUSY);
    IS(livevec_series_end_load(values), LIVEVEC_BUSY);
    IS(livevec_samples_end_load(&s), LIVEVEC_BUSY);
    IS(livevec_samples_begin_load(&s), LIVEVEC_BUSY);
    values->busy_ = 0;
    IS(livevec_series_load(values, bytes, length), 0);
    IS(livevec_series_end_load(values), 0);
    IS(livevec_series_end_load(values), LIVEVEC_NO_HANDLE);
    IS(livevec_series_load(values, bytes, 1), LIVEVEC_NO_HANDLE);
    holds(&s, &t);
    for (uint64_t from = 1; from < 8; from++)
        IS(livevec_series_save(values, from, buffer, 8).refusal, LIVEVEC_BAD_RANGE);
    IS(livevec_series_save(values, length, buffer, 8).length, 0);
    IS(livevec_series_save(values, length + 8, buffer, 8).length, 0);
    IS(livevec_series_save(values, UINT64_MAX - 7, buffer, 8).length, 0);
    IS(livevec_series_save(values, 0, buffer, 7).length, 0);
    IS(livevec_series_save(values, 0, NULL, 0).length, 0);
    IS(livevec_series_save(values, 0, NULL, 8).refusal, LIVEVEC_NULL);
    values->busy_ = 1;
    IS(livevec_series_save(values, 0, buffer, 8).refusal, LIVEVEC_BUSY);
    IS(livevec_series_saved_length(values).refusal, LIVEVEC_BUSY);
    values->busy_ = 0;
    IS(livevec_free_series(values), 0);
    /* given up half way */
    IS(livevec_samples_begin_load(&s), 0);
    IS(livevec_series_load(values, bytes, 50), 0);
    IS(livevec_free_samples(&s), 0);
}

static void null_pointers(void)
{
    IS(livevec_series_saved_length(NULL).refusal, LIVEVEC_NULL);
    IS(livevec_series_save(NULL, 0, NULL, 0).refusal, LIVEVEC_NULL);
    IS(livevec_series_begin_load(NULL), LIVEVEC_NULL);
    IS(livevec_series_load(NULL, NULL, 0), LIVEVEC_NULL);
    IS(livevec_series_end_load(NULL), LIVEVEC_NULL);
    IS(livevec_samples_begin_load(NULL), LIVEVEC_NULL);
    IS(livevec_samples_end_load(NULL), LIVEVEC_NULL);
    livevec_vector vector = {0};
    livevec_series *other = (livevec_series *)&vector;
    uint8_t byte = 0;
    IS(livevec_new(&vector, 1, 9), 0);
    IS(livevec_series_saved_length(other).refusal, LIVEVEC_NO_HANDLE);
    IS(livevec_series_save(other, 0, &byte, 1).refusal, LIVEVEC_NO_HANDLE);
    IS(livevec_series_load(other, &byte, 1), LIVEVEC_NO_HANDLE);
    IS(livevec_series_end_load(other), LIVEVEC_NO_HANDLE);
    IS(livevec_samples_end_load((livevec_samples *)&vector), LIVEVEC_NO_HANDLE);
    IS(livevec_push(&vector, 7).edit, 1);
    IS(livevec_free(&vector), 0);
}

/* The nth request for memory of a load fails, for each n: a piece that is refused has changed nothing, and an end leaves the slot empty. */
static bool loads_where_one_fails(bool timed, const uint8_t *bytes, uint64_t length, int nth, const twin *t)
{
    livevec_samples s = {0};
    until_failure = nth;
    uint32_t told = timed ? livevec_samples_begin_load(&s) : livevec_series_begin_load(&s.values);
    if (told) {
        until_failure = 0;
        IS(told, LIVEVEC_NO_MEMORY);
        IS(livevec_free_samples(&s), LIVEVEC_NO_HANDLE);
        return false;
    }
    for (uint64_t at = 0; at < length; at += 100) {
        size_t piece = length - at < 100 ? length - at : 100;
        while ((told = livevec_series_load(&s.values, bytes + at, piece)))
            IS(told, LIVEVEC_NO_MEMORY);
    }
    told = timed ? livevec_samples_end_load(&s) : livevec_series_end_load(&s.values);
    bool left = until_failure > 0;
    until_failure = 0;
    if (told) {
        IS(told, LIVEVEC_NO_MEMORY);
        IS(livevec_free_samples(&s), LIVEVEC_NO_HANDLE);
        return false;
    }
    holds(&s, t);
    IS(livevec_free_samples(&s), 0);
    return left;
}

static void want_of_memory(bool timed)
{
    static uint8_t bytes[ROOM];
    static twin t;
    livevec_samples s = {0};
    make(&s, &t, timed, 300);
    until_failure = 1;
    uint64_t length = save(&s.values, bytes, 256, t.edits);
    IS(until_failure, 1);
    until_failure = 0;
    int nth = 1;
    while (nth < 200 && !loads_where_one_fails(timed, bytes, length, nth, &t))
        nth++;
    IS(nth > 3 && nth < 200, 1);
    IS(livevec_free_samples(&s), 0);
}

void saved(void)
{
    null_pointers();
    between_begin_and_end();
    false_bytes();
    for (int timed = 0; timed < 2; timed++) {
        there_and_back(timed);
        damaged(timed);
        want_of_memory(timed);
    }
}
