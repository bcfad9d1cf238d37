/* Vectors as bytes, and back: beside the bytes of a series of the same elements, laid out by loops. */
#include "tests.h"
#include "tests_plain.h"
#include "tests_saved.h"

#include <string.h>

enum { KINDS = 6, PIECES = 5 };

static uint64_t state = 97;

/* A vector of so many elements, which took more edits than these, and what it should be saved as. */
static void make(livevec_vector *v, twin *t, uint32_t elements)
{
    *t = (twin){.size = elements, .edits = elements};
    IS(livevec_new(v, 17, 100000), 0);
    for (uint32_t i = 0; i < elements; i++) {
        t->values[i] = draw_element(&state);
        IS(livevec_push(v, i % 3 ? t->values[i] : 1).refusal, 0);
        if (i % 3 == 0)
            IS(livevec_write(v, i, t->values[i]).refusal, 0);
    }
    IS(livevec_push(v, 5).refusal, 0);
    IS(livevec_pop(v).value, 5);
}

/* A vector has these elements, by all that it can be asked, and was edited so often. */
static void holds(livevec_vector *v, const int64_t *elements, uint32_t count, uint32_t edits)
{
    static int64_t read[2 * TWIN_ROOM];
    livevec_table table = usual_table();
    livevec_values all = plainly(elements, count, &table);
    IS(livevec_size(v).value, count);
    IS(livevec_edits(v).value, edits);
    IS(livevec_read(v, 0, count, read, 2 * TWIN_ROOM).length, count);
    IS(memcmp(read, elements, count * sizeof *read), 0);
    alike(livevec_reduce(v, 0, count).values, all);
    for (uint32_t kind = 0; kind < KINDS; kind++)
        alike(livevec_value(v, kind, 0, count).values, only(all, kind));
}

/* Saves all of a vector in pieces of a buffer's length; what the buffer has behind a piece stays. */
static uint64_t save(livevec_vector *v, uint8_t *bytes, size_t piece)
{
    static uint8_t buffer[ROOM];
    uint64_t at = 0;
    for (;;) {
        memset(buffer, 0xAA, piece + 8);
        livevec_scanned did = livevec_save(v, at, buffer, piece);
        IS(did.refusal, 0);
        IS(did.detail, 0);
        IS(did.edit, livevec_edits(v).value);
        IS(did.length <= piece && did.length % 8 == 0, 1);
        for (size_t i = did.length; i < piece + 8; i++)
            if (buffer[i] != 0xAA)
                IS(i, did.length);
        memcpy(bytes + at, buffer, did.length);
        at += did.length;
        if (!did.length)
            return at;
    }
}

/* So many elements are saved as a series of them is, and come back: into a vector, behind the elements of one, and into a series. */
static void there_and_back(uint32_t elements)
{
    static const size_t pieces[PIECES] = {88, 1000, 1003, 8192, 88 + 8 * TWIN_ROOM};
    static uint8_t wanted[ROOM], got[ROOM];
    static twin t;
    static int64_t twice[2 * TWIN_ROOM];
    livevec_vector v = {0}, back = {0};
    livevec_series s = {0};
    make(&v, &t, elements);
    uint32_t edits = livevec_edits(&v).value;
    uint64_t length = laid_out(&t, wanted);
    IS(livevec_saved_length(&v).refusal, 0);
    IS(livevec_saved_length(&v).value, length);
    for (int i = 0; i < PIECES; i++) {
        memset(got, 0, sizeof got);
        IS(save(&v, got, pieces[i]), length);
        IS(memcmp(got, wanted, length), 0);
    }
    holds(&v, t.values, elements, edits);

    IS(livevec_new(&back, 10, 2 * TWIN_ROOM), 0);
    livevec_pushed did = livevec_push_saved(&back, got, length);
    IS(did.refusal, 0);
    IS(did.pushed, elements);
    IS(did.edit, elements);
    holds(&back, t.values, elements, elements);
    IS(livevec_push_saved(&back, got, length).pushed, elements);
    memcpy(twice, t.values, elements * sizeof *twice);
    memcpy(twice + elements, t.values, elements * sizeof *twice);
    holds(&back, twice, 2 * elements, 2 * elements);

    IS(livevec_series_begin_load(&s), 0);
    IS(livevec_series_load(&s, got, length), 0);
    IS(livevec_series_end_load(&s), 0);
    IS(livevec_series_first(&s).value, 0);
    IS(livevec_series_size(&s).value, elements);
    IS(livevec_series_edits(&s).value, elements);
    IS(livevec_free_series(&s), 0);
    IS(livevec_free(&back), 0);
    IS(livevec_free(&v), 0);
}

/* What a series has kept is pushed, under the vector's own indices; in pieces by way of the series. A vector has its own kind, limits and table. */
static void of_a_series(void)
{
    static twin t = {.first = 3, .size = 9, .edits = 11, .values = {1, 2, 3, -4, 5, INT64_MIN, 7, INT64_MAX, 9}};
    static uint8_t bytes[ROOM];
    uint64_t length = laid_out(&t, bytes);
    livevec_table table = {{{0}}};
    livevec_vector v = {0};
    table.next[0][0] = 3;
    IS(livevec_new_with_table(&v, 1, 6, &table), 0);
    livevec_pushed did = livevec_push_saved(&v, bytes, length);
    IS(did.refusal + did.detail, 0);
    IS(did.pushed, 6);
    IS(did.edit, 6);
    IS(livevec_get(&v, 0).value, -4);
    IS(livevec_get(&v, 5).value, 9);
    IS(livevec_value(&v, LIVEVEC_AUTOMATON, 0, 1).values.automaton[0], 3);
    IS(livevec_push(&v, 1).refusal, LIVEVEC_WORN);
    IS(livevec_saved_length(&v).value, 88 + 8 * 6);
    IS(livevec_free(&v), 0);

    IS(livevec_new_of(&v, LIVEVEC_LEAST, 1, 100), 0);
    IS(livevec_push_saved(&v, bytes, length).pushed, 6);
    IS(livevec_value(&v, LIVEVEC_LEAST, 0, 6).values.least, INT64_MIN);
    IS(livevec_save(&v, 0, bytes, ROOM).length, 88 + 8 * 6);
    IS(livevec_free(&v), 0);

    livevec_series s = {0};
    length = laid_out(&t, bytes);
    IS(livevec_series_begin_load(&s), 0);
    for (uint64_t at = 0; at < length; at++)
        IS(livevec_series_load(&s, bytes + at, 1), 0);
    IS(livevec_series_end_load(&s), 0);
    livevec_series_view lent = livevec_series_lend(&s, 3, 9);
    IS(livevec_new(&v, 1, 100), 0);
    IS(livevec_push_many(&v, lent.elements, lent.length).pushed, 6);
    IS(livevec_series_give_back(&s), 0);
    holds(&v, t.values + 3, 6, 6);
    IS(livevec_free_series(&s), 0);
    IS(livevec_free(&v), 0);
}

/* Bytes that are refused, for whatever reason, leave a vector as it was. */
static void refused(livevec_vector *v, const uint8_t *bytes, size_t length, uint32_t why)
{
    livevec_pushed did = livevec_push_saved(v, bytes, length);
    IS(did.refusal, why);
    IS(did.detail + did.edit + did.pushed, 0);
}

/* Each bit flipped, each front, and bytes behind them; samples; more elements, or edits, than the limits allow. */
static void not_these_bytes(void)
{
    static const int64_t sevens[] = {7, 7};
    static uint8_t bytes[ROOM];
    static twin t = {.size = 5, .edits = 5, .values = {4, 5, 6, 7, 8}, .times = {1, 2, 3, 4, 5}};
    uint64_t length = laid_out(&t, bytes);
    livevec_vector v = {0};
    IS(livevec_new(&v, 1, 8), 0);
    IS(livevec_push_many(&v, sevens, 2).pushed, 2);
    for (uint64_t at = 0; at < length; at++)
        for (int bit = 0; bit < 8; bit++) {
            bytes[at] ^= (uint8_t)(1 << bit);
            refused(&v, bytes, length, LIVEVEC_NOT_SAVED);
            bytes[at] ^= (uint8_t)(1 << bit);
        }
    for (uint64_t less = 0; less < length; less++)
        refused(&v, bytes, less, LIVEVEC_NOT_SAVED);
    for (uint64_t more = 1; more < 20; more++)
        refused(&v, bytes, length + more, LIVEVEC_NOT_SAVED);
    refused(&v, NULL, 0, LIVEVEC_NOT_SAVED);
    t.timed = true;
    refused(&v, bytes, laid_out(&t, bytes), LIVEVEC_NOT_SAVED);
    t.timed = false;
    t.size = 7;
    refused(&v, bytes, laid_out(&t, bytes), LIVEVEC_WORN);
    holds(&v, sevens, 2, 2);
    t.size = 6;
    IS(livevec_push_saved(&v, bytes, laid_out(&t, bytes)).edit, 8);
    IS(livevec_free(&v), 0);
    IS(livevec_new(&v, 1, 100), 0);
    IS(livevec_push_many(&v, sevens, 2).pushed, 2);
    t.size = 7;
    refused(&v, bytes, laid_out(&t, bytes), LIVEVEC_FULL);
    holds(&v, sevens, 2, 2);
    t.size = 0;
    livevec_pushed did = livevec_push_saved(&v, bytes, laid_out(&t, bytes));
    IS(did.refusal + did.edit + did.pushed, 0);
    holds(&v, sevens, 2, 2);
    IS(livevec_free(&v), 0);
}

/* Slots, pointers and places that aren't right. */
static void misuse(void)
{
    static twin t = {.size = 1, .edits = 1, .values = {4}};
    static uint8_t bytes[ROOM];
    uint64_t length = laid_out(&t, bytes);
    uint8_t buffer[8] = {1};
    livevec_vector v = {0};
    livevec_series s = {0};
    IS(livevec_saved_length(NULL).refusal, LIVEVEC_NULL);
    IS(livevec_save(NULL, 0, buffer, 8).refusal, LIVEVEC_NULL);
    refused(NULL, bytes, length, LIVEVEC_NULL);
    IS(livevec_saved_length(&v).refusal, LIVEVEC_NO_HANDLE);
    IS(livevec_saved_length(&v).value, 0);
    IS(livevec_save(&v, 1, buffer, 8).refusal, LIVEVEC_NO_HANDLE);
    refused(&v, bytes, length - 1, LIVEVEC_NO_HANDLE);
    IS(livevec_series_new(&s), 0);
    IS(livevec_saved_length((livevec_vector *)&s).refusal, LIVEVEC_NO_HANDLE);
    IS(livevec_save((livevec_vector *)&s, 0, buffer, 8).refusal, LIVEVEC_NO_HANDLE);
    refused((livevec_vector *)&s, bytes, length, LIVEVEC_NO_HANDLE);
    IS(livevec_series_edits(&s).value, 0);
    IS(livevec_free_series(&s), 0);
    IS(livevec_new(&v, 1, 9), 0);
    IS(livevec_save(&v, 0, NULL, 8).refusal, LIVEVEC_NULL);
    IS(livevec_save(&v, 0, NULL, 0).length, 0);
    refused(&v, NULL, 8, LIVEVEC_NULL);
    for (uint64_t from = 1; from < 8; from++)
        IS(livevec_save(&v, from, buffer, 8).refusal, LIVEVEC_BAD_RANGE);
    IS(livevec_save(&v, 88, buffer, 8).length, 0);
    IS(livevec_save(&v, UINT64_MAX - 7, buffer, 8).length, 0);
    v.busy_ = 1;
    IS(livevec_saved_length(&v).refusal, LIVEVEC_BUSY);
    IS(livevec_save(&v, 0, buffer, 8).refusal, LIVEVEC_BUSY);
    refused(&v, bytes, length, LIVEVEC_BUSY);
    v.busy_ = 0;
    IS(buffer[0], 1);
    IS(livevec_edits(&v).value, 0);
    IS(livevec_free(&v), 0);
}

/* The nth request for memory fails, for each n: nothing has changed then, nothing is written, and no memory is held. */
static void want_of_memory(void)
{
    static uint8_t bytes[ROOM], buffer[ROOM];
    static twin t;
    livevec_vector v = {0};
    make(&v, &t, 2100);
    uint64_t length = laid_out(&t, bytes);
    bool failed = true;
    int saves = 0, loads = 0;
    for (int nth = 1; failed && nth < 100; nth++) {
        size_t held = memory_held();
        buffer[0] = 0xAA;
        until_failure = nth;
        livevec_scanned did = livevec_save(&v, 0, buffer, ROOM);
        failed = until_failure == 0;
        until_failure = 0;
        saves += failed;
        IS(did.refusal, failed ? LIVEVEC_NO_MEMORY : 0);
        IS(did.length, failed ? 0 : length);
        IS(buffer[0], failed ? 0xAA : 'l');
        IS(memory_held(), held);
    }
    IS(failed, false);
    IS(memcmp(buffer, bytes, length), 0);
    IS(livevec_free(&v), 0);
    failed = true;
    for (int nth = 1; failed && nth < 100; nth++) {
        IS(livevec_new(&v, 17, 100000), 0);
        until_failure = nth;
        livevec_pushed did = livevec_push_saved(&v, bytes, length);
        failed = until_failure == 0;
        until_failure = 0;
        loads += failed;
        IS(did.refusal, failed ? LIVEVEC_NO_MEMORY : 0);
        if (failed)
            holds(&v, t.values, 0, 0);
        else
            holds(&v, t.values, 2100, 2100);
        IS(livevec_free(&v), 0);
    }
    IS(failed, false);
    IS(saves > 2 && loads > 4, 1);
}

/* As many elements as a vector has at most. */
static void greatest(void)
{
    enum { MOST = 1048568, BYTES = 88 + 8 * MOST };
    static uint8_t bytes[BYTES + 1];
    static int64_t elements[MOST], read[MOST];
    livevec_vector v = {0}, back = {0};
    livevec_series s = {0};
    for (int64_t i = 0; i < MOST; i++)
        elements[i] = i % 2 ? i * i : -i;
    IS(livevec_new(&v, 17, 16777215), 0);
    IS(livevec_push_many(&v, elements, MOST).pushed, MOST);
    IS(livevec_saved_length(&v).value, BYTES);
    IS(livevec_save(&v, 0, bytes, sizeof bytes).length, BYTES);
    IS(livevec_new(&back, 17, 16777215), 0);
    IS(livevec_push_saved(&back, bytes, BYTES).pushed, MOST);
    IS(livevec_read(&back, 0, MOST, read, MOST).length, MOST);
    IS(memcmp(read, elements, sizeof read), 0);
    refused(&back, bytes, BYTES, LIVEVEC_FULL);
    IS(livevec_edits(&back).value, MOST);
    IS(livevec_free(&back), 0);
    /* a series of one element more isn't a vector's */
    IS(livevec_series_begin_load(&s), 0);
    IS(livevec_series_load(&s, bytes, BYTES), 0);
    IS(livevec_series_end_load(&s), 0);
    IS(livevec_series_push(&s, 0).refusal, 0);
    static uint8_t more[BYTES + 8];
    IS(livevec_series_save(&s, 0, more, sizeof more).length, sizeof more);
    IS(livevec_new(&back, 17, 16777215), 0);
    refused(&back, more, sizeof more, LIVEVEC_FULL);
    IS(livevec_edits(&back).value, 0);
    IS(livevec_free(&back), 0);
    IS(livevec_free_series(&s), 0);
    IS(livevec_free(&v), 0);
}

void saved_vectors(void)
{
    static const uint32_t sizes[] = {0, 1, 2, 7, 8, 9, 64, 1023, 1024, 1025, 2048, TWIN_ROOM};
    for (size_t i = 0; i < sizeof sizes / sizeof *sizes; i++)
        there_and_back(sizes[i]);
    of_a_series();
    not_these_bytes();
    misuse();
    want_of_memory();
    greatest();
}
