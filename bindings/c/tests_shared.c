/* A vector, a series and samples that threads share: what each call answers and refuses, and who is told what, by one thread. Expected values are
 * worked out by hand. */
#include "tests_shared.h"

static const uint64_t at_once = 0, for_ever = UINT64_MAX;

/* Who enters twice, leaves without that, or comes after the close. */
static void enters_and_leaves(void)
{
    livevec_vector v = {0}, other = {0};
    livevec_series s = {0};
    livevec_shared shared = {0};
    IS(livevec_shared_new(NULL, &v), LIVEVEC_NULL);
    IS(livevec_shared_new(&shared, NULL), LIVEVEC_NULL);
    IS(livevec_shared_new_series(&shared, NULL), LIVEVEC_NULL);
    IS(livevec_shared_new(&shared, &v), LIVEVEC_NO_HANDLE);
    IS(livevec_shared_new_series(&shared, &s), LIVEVEC_NO_HANDLE);
    IS(livevec_shared_enter(&shared), LIVEVEC_NO_HANDLE);
    begin(&shared, &v, 100);
    IS(livevec_shared_new(&shared, &v), LIVEVEC_IN_USE);
    IS(livevec_shared_enter(NULL), LIVEVEC_NULL);
    IS(livevec_shared_leave(NULL).refusal, LIVEVEC_NULL);
    IS(livevec_shared_leave(&shared).refusal, LIVEVEC_NO_HANDLE);
    IS(livevec_shared_exchange(&shared, &other), LIVEVEC_NO_HANDLE);
    IS(livevec_shared_enter(&shared), 0);
    IS(livevec_shared_enter(&shared), LIVEVEC_BUSY);
    IS(livevec_shared_close(&shared), LIVEVEC_BUSY);
    IS(livevec_free_shared(&shared), LIVEVEC_BUSY);
    IS(livevec_shared_renew(&shared, NULL), LIVEVEC_NULL);
    IS(livevec_shared_exchange_series(&shared, &s), LIVEVEC_NO_HANDLE);
    livevec_left left = livevec_shared_leave(&shared);
    IS(left.refusal, 0);
    IS(left.is_edited, false);
    IS(left.edit, 0);
    IS(livevec_shared_enter(&shared), 0);
    IS(livevec_push(&v, 4).edit, 1);
    IS(livevec_push(&v, 5).edit, 2);
    left = livevec_shared_leave(&shared);
    IS(left.is_edited, true);
    IS(left.edit, 2);
    IS(livevec_shared_close(&shared), 0);
    IS(livevec_shared_close(&shared), LIVEVEC_NO_HANDLE);
    IS(livevec_shared_enter(&shared), LIVEVEC_NO_HANDLE);
    IS(livevec_shared_leave(&shared).refusal, LIVEVEC_NO_HANDLE);
    IS(livevec_push(&v, 6).edit, 3);
    IS(livevec_free_shared(&shared), 0);
    IS(livevec_free_shared(&shared), LIVEVEC_NO_HANDLE);
    IS(livevec_free(&v), 0);
}

/* A thread that has entered takes exact sums, saves the elements, and pushes what was saved: a subscriber is told of that as of any edit. */
static void saves_and_adds_up(void)
{
    livevec_vector v = {0};
    livevec_shared shared = {0};
    livevec_queries sum = {0};
    livevec_subscriber alerts = {0};
    livevec_note notes[1];
    uint8_t bytes[88 + 8 * 2];
    begin(&shared, &v, 100);
    watch(&sum, "sum", LIVEVEC_SUM);
    IS(livevec_shared_subscribe(&shared, &alerts, &sum), 0);
    IS(push(&shared, &v, INT64_MAX), 1);
    IS(push(&shared, &v, 4), 2);
    IS(livevec_shared_enter(&shared), 0);
    livevec_summed all = livevec_exact_sum(&v, 0, 2);
    IS(all.edit, 2);
    IS(all.sum.low, (uint64_t)INT64_MAX + 4);
    IS(all.sum.high, 0);
    IS(livevec_save(&v, 0, bytes, sizeof bytes).length, sizeof bytes);
    livevec_left left = livevec_shared_leave(&shared);
    IS(left.is_edited, false);
    IS(livevec_shared_enter(&shared), 0);
    IS(livevec_push_saved(&v, bytes, sizeof bytes).pushed, 2);
    all = livevec_exact_sum(&v, 0, 4);
    IS(all.sum.low, 6); /* twice the greatest is 2^64 - 2 */
    IS(all.sum.high, 1);
    left = livevec_shared_leave(&shared);
    IS(left.is_edited, true);
    IS(left.edit, 4);
    livevec_told told = livevec_subscriber_look(&alerts, notes, 1);
    IS(told.edit, 4);
    IS(told.count, 1);
    IS(notes[0].values.sum, 6);
    IS(livevec_free_subscriber(&alerts), 0);
    IS(livevec_free_queries(&sum), 0);
    IS(livevec_free_shared(&shared), 0);
    IS(livevec_free(&v), 0);
}

/* Subscribers of a vector: what they look at, what they are refused, and what they are told at the end. */
static void tells_of_a_vector(void)
{
    livevec_vector v = {0};
    livevec_shared shared = {0};
    livevec_queries sum = {0}, least = {0};
    livevec_subscriber alerts = {0}, late = {0};
    livevec_note notes[2];
    begin(&shared, &v, 100);
    watch(&sum, "sum", LIVEVEC_SUM);
    watch(&least, "least", LIVEVEC_LEAST);
    IS(livevec_shared_subscribe(&shared, &alerts, NULL), LIVEVEC_NULL);
    IS(livevec_subscriber_look(&alerts, notes, 2).refusal, LIVEVEC_NO_HANDLE);
    IS(livevec_shared_subscribe(&shared, &alerts, &sum), 0);
    IS(livevec_shared_subscribe(&shared, &alerts, &least), LIVEVEC_IN_USE);
    IS(livevec_shared_subscribe(&shared, &late, &least), 0);
    IS(livevec_subscriber_next(NULL, notes, 2, at_once).refusal, LIVEVEC_NULL);
    IS(livevec_subscriber_next(&alerts, NULL, 2, at_once).refusal, LIVEVEC_NULL);
    IS(livevec_subscriber_next(&alerts, notes, SIZE_MAX, at_once).refusal, LIVEVEC_TOO_LONG);
    IS(livevec_subscriber_set_pause(&alerts, 0), 0);
    IS(livevec_subscriber_next(&alerts, notes, 2, at_once).count, 0);
    IS(push(&shared, &v, 4), 1);
    IS(push(&shared, &v, 5), 2);
    livevec_told told = livevec_subscriber_next(&alerts, NULL, 0, for_ever);
    IS(told.refusal, LIVEVEC_SHORT_BUFFER);
    IS(told.detail, 1);
    told = livevec_subscriber_next(&alerts, notes, 2, for_ever);
    IS(told.refusal, 0);
    IS(told.count, 1);
    IS(told.edit, 2);
    IS(notes[0].edit, 2);
    IS(notes[0].values.sum, 9);
    IS(strcmp(notes[0].name, "sum"), 0);
    // what is done and undone between two looks isn't told, nor what changes no answer
    IS(push(&shared, &v, 1), 3);
    IS(livevec_shared_enter(&shared), 0);
    IS(livevec_subscriber_look(&alerts, notes, 2).refusal, LIVEVEC_BUSY);
    IS(livevec_pop(&v).edit, 4);
    IS(livevec_shared_leave(&shared).edit, 4);
    told = livevec_subscriber_look(&alerts, notes, 2);
    IS(told.count + told.refusal + told.edit, 0);
    IS(told.is_over, false);
    IS(push(&shared, &v, -9), 5);
    IS(livevec_shared_close(&shared), 0);
    told = livevec_subscriber_look(&alerts, NULL, 0);
    IS(told.refusal, LIVEVEC_SHORT_BUFFER);
    told = livevec_subscriber_next(&late, notes, 2, for_ever);
    IS(told.count, 1);
    IS(told.edit, 5);
    IS(notes[0].values.least, -9);
    IS(told.is_over, false);
    IS(livevec_subscriber_next(&late, notes, 2, for_ever).is_over, true);
    // it outlives what it listened to
    IS(livevec_free_shared(&shared), 0);
    IS(livevec_free(&v), 0);
    told = livevec_subscriber_next(&alerts, notes, 2, for_ever);
    IS(told.count, 1);
    IS(notes[0].values.sum, 0);
    told = livevec_subscriber_look(&alerts, notes, 2);
    IS(told.is_over, true);
    IS(told.count, 0);
    IS(livevec_free_subscriber(&alerts), 0);
    IS(livevec_free_subscriber(&alerts), LIVEVEC_NO_HANDLE);
    IS(livevec_free_subscriber(&late), 0);
    IS(livevec_free_queries(&sum), 0);
    IS(livevec_free_queries(&least), 0);
}

/* A vector of one kind, and a query by another: refused at each look, and once at the end. */
static void tells_what_is_refused(void)
{
    livevec_vector v = {0};
    livevec_shared shared = {0};
    livevec_queries least = {0};
    livevec_subscriber alerts = {0};
    livevec_note note;
    IS(livevec_new_of(&v, LIVEVEC_SUM, 1, 10), 0);
    IS(livevec_shared_new(&shared, &v), 0);
    watch(&least, "least", LIVEVEC_LEAST);
    IS(livevec_shared_subscribe(&shared, &alerts, &least), 0);
    IS(livevec_subscriber_look(&alerts, &note, 1).refusal, LIVEVEC_BAD_KIND);
    IS(livevec_shared_close(&shared), 0);
    IS(livevec_subscriber_next(&alerts, &note, 1, for_ever).refusal, LIVEVEC_BAD_KIND);
    IS(livevec_subscriber_next(&alerts, &note, 1, for_ever).is_over, true);
    IS(livevec_free_subscriber(&alerts), 0);
    IS(livevec_free_shared(&shared), 0);
    IS(livevec_free_queries(&least), 0);
    IS(livevec_free(&v), 0);
}

static void watch_range(livevec_queries *set, const char *name, uint32_t kind, uint64_t lo, uint64_t hi)
{
    IS(livevec_watch_query(set, name, strlen(name), &(livevec_query){.kind = kind, .lo = lo, .hi = hi}), 0);
}

/* Of a series: what is watched, of which an end may not be kept; and what each kind says of no elements is no news. */
static void tells_of_a_series(void)
{
    livevec_series s = {0};
    livevec_shared shared = {0};
    livevec_subscriber alerts = {0};
    livevec_worker worker = {0};
    livevec_queries set = {0};
    livevec_note notes[6];
    IS(livevec_series_new(&s), 0);
    IS(livevec_shared_new_series(&shared, &s), 0);
    IS(livevec_shared_hire(&shared, &worker), LIVEVEC_NO_HANDLE);
    IS(livevec_shared_enter(&shared), 0);
    IS(livevec_shared_renew(&shared, &(livevec_vector){0}), LIVEVEC_NO_HANDLE);
    IS(livevec_shared_leave(&shared).refusal, 0);
    IS(livevec_queries_new(&set), 0);
    watch_range(&set, "all", LIVEVEC_SUM, 0, UINT64_MAX);
    watch_range(&set, "front", LIVEVEC_LEAST, 0, 2);
    watch_range(&set, "later", LIVEVEC_GREATEST, 2, 9);
    watch_range(&set, "run", LIVEVEC_BEST, 5, 9);
    watch_range(&set, "map", LIVEVEC_AFFINE, 5, UINT64_MAX);
    watch_range(&set, "states", LIVEVEC_AUTOMATON, 5, 5);
    IS(livevec_shared_subscribe(&shared, &alerts, &set), 0);
    IS(livevec_subscriber_look(&alerts, notes, 6).count, 0);
    IS(livevec_shared_enter(&shared), 0);
    for (int64_t i = 1; i < 4; i++)
        IS(livevec_series_push(&s, 10 * i).edit, i);
    IS(livevec_shared_leave(&shared).edit, 3);
    IS(livevec_subscriber_look(&alerts, notes, 2).refusal, LIVEVEC_SHORT_BUFFER);
    livevec_told told = livevec_subscriber_look(&alerts, notes, 6);
    IS(told.count, 3);
    IS(told.edit, 3);
    IS(strcmp(notes[0].name, "all"), 0);
    IS(notes[0].values.sum, 60);
    IS(strcmp(notes[1].name, "front"), 0);
    IS(notes[1].kind, LIVEVEC_LEAST);
    IS(notes[1].values.least, 10);
    IS(notes[2].values.greatest, 30);
    IS(notes[2].edit, 3);
    // the first element expires: what of a range is kept is asked
    IS(livevec_shared_enter(&shared), 0);
    IS(livevec_series_expire(&s, 1).place, 1);
    IS(livevec_shared_leave(&shared).is_edited, true);
    told = livevec_subscriber_look(&alerts, notes, 6);
    IS(told.count, 2);
    IS(notes[0].values.sum, 50);
    IS(notes[1].values.least, 20);
    // another series takes its place: its own edit comes after one more
    livevec_series other = {0};
    IS(livevec_series_new(&other), 0);
    IS(livevec_series_push(&other, 7).edit, 1);
    IS(livevec_shared_enter(&shared), 0);
    IS(livevec_shared_exchange(&shared, NULL), LIVEVEC_NO_HANDLE);
    IS(livevec_shared_exchange_series(&shared, &other), 0);
    livevec_left left = livevec_shared_leave(&shared);
    IS(left.is_edited, true);
    IS(left.edit, 6);
    IS(livevec_free_series(&s), 0);
    told = livevec_subscriber_look(&alerts, notes, 6);
    IS(told.count, 3);
    IS(told.edit, 6);
    IS(notes[0].edit, 6);
    IS(notes[0].values.sum, 7);
    IS(notes[2].values.any, false);
    // while its elements are lent nothing is known of it
    IS(livevec_shared_enter(&shared), 0);
    IS(livevec_series_lend(&other, 0, 1).length, 1);
    IS(livevec_shared_leave(&shared).edit, 6);
    IS(livevec_series_give_back(&other), 0);
    IS(livevec_free_shared(&shared), 0);
    told = livevec_subscriber_look(&alerts, notes, 6);
    IS(told.is_over, true);
    IS(livevec_free_subscriber(&alerts), 0);
    IS(livevec_free_queries(&set), 0);
    IS(livevec_free_series(&other), 0);
}

/* Samples are shared by their values. */
static void tells_of_samples(void)
{
    livevec_samples load = {0};
    livevec_shared shared = {0};
    livevec_queries set = {0};
    livevec_subscriber alerts = {0};
    livevec_note note;
    IS(livevec_queries_new(&set), 0);
    watch_range(&set, "all", LIVEVEC_SUM, 0, UINT64_MAX);
    IS(livevec_samples_new(&load), 0);
    IS(livevec_shared_new_series(&shared, &load.values), 0);
    IS(livevec_shared_subscribe(&shared, &alerts, &set), 0);
    IS(livevec_shared_enter(&shared), 0);
    IS(livevec_samples_push(&load, 100, 20).edit, 1);
    IS(livevec_samples_push(&load, 160, 22).edit, 2);
    IS(livevec_shared_leave(&shared).edit, 2);
    IS(livevec_subscriber_next(&alerts, &note, 1, for_ever).edit, 2);
    IS(note.values.sum, 42);
    IS(livevec_shared_enter(&shared), 0);
    IS(livevec_samples_expire_before(&load, 101).place, 1);
    IS(livevec_shared_leave(&shared).is_edited, true);
    IS(livevec_shared_close(&shared), 0);
    IS(livevec_subscriber_next(&alerts, &note, 1, for_ever).edit, 3);
    IS(note.values.sum, 22);
    IS(livevec_free_subscriber(&alerts), 0);
    IS(livevec_free_queries(&set), 0);
    IS(livevec_free_shared(&shared), 0);
    IS(livevec_free_samples(&load), 0);
}

/* A vector that is worn goes on as its copy, and nobody notices. */
static void renews(void)
{
    livevec_vector v = {0}, fresh = {0}, narrow = {0}, none = {0};
    livevec_shared shared = {0};
    livevec_queries sum = {0};
    livevec_subscriber alerts = {0};
    livevec_note note;
    begin(&shared, &v, 4);
    watch(&sum, "sum", LIVEVEC_SUM);
    IS(livevec_shared_subscribe(&shared, &alerts, &sum), 0);
    for (int64_t i = 1; i < 4; i++)
        IS(push(&shared, &v, i), i);
    IS(livevec_shared_enter(&shared), 0);
    IS(livevec_pop(&v).edit, 4);
    IS(livevec_push(&v, 1).refusal, LIVEVEC_WORN);
    IS(livevec_shared_leave(&shared).edit, 4);
    IS(livevec_subscriber_look(&alerts, &note, 1).edit, 4);
    IS(livevec_new(&fresh, 17, 4), 0);
    IS(livevec_new(&narrow, 17, 1), 0);
    IS(livevec_shared_renew(&shared, &fresh), LIVEVEC_NO_HANDLE);
    IS(livevec_shared_enter(&shared), 0);
    IS(livevec_shared_renew(&shared, &none), LIVEVEC_NO_HANDLE);
    IS(livevec_shared_renew(&shared, &v), LIVEVEC_IN_USE);
    IS(livevec_shared_renew(&shared, &narrow), LIVEVEC_WORN);
    until_failure = 1;
    IS(livevec_shared_renew(&shared, &fresh), LIVEVEC_NO_MEMORY);
    until_failure = 0;
    IS(livevec_size(&fresh).value, 0);
    IS(livevec_shared_renew(&shared, &fresh), 0);
    livevec_left left = livevec_shared_leave(&shared);
    IS(left.is_edited, false);
    IS(left.edit, 4);
    IS(livevec_free(&v), 0);
    IS(livevec_edits(&fresh).value, 2);
    IS(livevec_subscriber_look(&alerts, &note, 1).count, 0);
    // edits go on: 5 and 6 are its third and its fourth
    IS(push(&shared, &fresh, 5), 5);
    livevec_told told = livevec_subscriber_look(&alerts, &note, 1);
    IS(told.edit, 5);
    IS(note.edit, 5);
    IS(note.values.sum, 8);
    IS(push(&shared, &fresh, 5), 6);
    IS(push(&shared, &fresh, 5), 0);
    left = livevec_shared_leave(&shared);
    IS(left.is_edited, false);
    IS(left.edit, 6);
    IS(livevec_shared_close(&shared), 0);
    IS(livevec_shared_renew(&shared, &narrow), LIVEVEC_NO_HANDLE);
    told = livevec_subscriber_next(&alerts, &note, 1, for_ever);
    IS(told.edit, 6);
    IS(note.values.sum, 13);
    IS(livevec_free_subscriber(&alerts), 0);
    IS(livevec_free_shared(&shared), 0);
    IS(livevec_free_queries(&sum), 0);
    IS(livevec_free(&fresh), 0);
    IS(livevec_free(&narrow), 0);
}

/* Where there is no memory nothing is held, and all goes on. */
static void wants_memory(void)
{
    livevec_vector v = {0};
    livevec_shared shared = {0};
    livevec_queries sum = {0};
    livevec_subscriber alerts = {0};
    livevec_worker worker = {0};
    size_t before = memory_held();
    IS(livevec_new(&v, 17, 100), 0);
    watch(&sum, "sum", LIVEVEC_SUM);
    until_failure = 1;
    IS(livevec_shared_new(&shared, &v), LIVEVEC_NO_MEMORY);
    IS(livevec_shared_new(&shared, &v), 0);
    until_failure = 1;
    IS(livevec_shared_subscribe(&shared, &alerts, &sum), LIVEVEC_NO_MEMORY);
    until_failure = 1;
    IS(livevec_shared_hire(&shared, &worker), LIVEVEC_NO_MEMORY);
    IS(livevec_shared_hire(&shared, &worker), 0);
    IS(livevec_shared_hire(&shared, &worker), LIVEVEC_IN_USE);
    IS(livevec_shared_subscribe(&shared, &alerts, &sum), 0);
    IS(livevec_worker_dismiss(&worker), 0);
    IS(livevec_worker_work(&worker), 0);
    // the last one frees the lock
    IS(livevec_free_shared(&shared), 0);
    IS(livevec_free_subscriber(&alerts), 0);
    IS(livevec_free_worker(&worker), 0);
    IS(livevec_free_worker(&worker), LIVEVEC_NO_HANDLE);
    IS(livevec_worker_work(&worker), LIVEVEC_NO_HANDLE);
    IS(livevec_worker_dismiss(NULL), LIVEVEC_NULL);
    IS(livevec_free_queries(&sum), 0);
    IS(livevec_free(&v), 0);
    IS(memory_held(), before);
}

void shared_forms(void)
{
    enters_and_leaves();
    saves_and_adds_up();
    tells_of_a_vector();
    tells_what_is_refused();
    tells_of_a_series();
    tells_of_samples();
    renews();
    wants_memory();
    shared_by_threads();
}
