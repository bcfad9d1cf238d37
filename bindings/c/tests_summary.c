/* Summaries that travel: their joins beside a plain loop over the same elements, their bytes by the places that docs/engines.md gives
 * them, and what is refused. */
#include "tests.h"
#include "tests_plain.h"

#include <string.h>

static void says(const livevec_summary *summary, const int64_t *xs, size_t length, const livevec_table *table)
{
    livevec_opened o = livevec_summary_values(summary);
    IS(o.refusal, LIVEVEC_OK);
    IS(o.count, length);
    alike(o.values, plainly(xs, length, table));
    IS(memcmp(&o.table, table, sizeof *table), 0);
}

static uint64_t drawn(void)
{
    static uint64_t state = 88172645463325252u;
    state ^= state << 13;
    state ^= state >> 7;
    state ^= state << 17;
    return state;
}

/* Of 64 bits, of few, or one of the ends. */
static int64_t element(void)
{
    switch (drawn() % 4) {
    case 0: return (int64_t)drawn();
    case 1: return drawn() % 2 ? INT64_MAX : INT64_MIN;
    default: return (int64_t)(drawn() % 2001) - 1000;
    }
}

/* A summary that was not refused. */
static livevec_summary taken(livevec_summarised answer)
{
    IS(answer.refusal, LIVEVEC_OK);
    IS(answer.detail, 0);
    return answer.summary;
}

/* Lists that are cut in two places, by any table: both groupings of the parts come to the whole. */
static void cut_lists(void)
{
    for (int round = 0; round < 300; round++) {
        int64_t xs[40];
        size_t length = drawn() % 41, first = drawn() % (length + 1), second = first + drawn() % (length - first + 1);
        livevec_table table = usual_table();
        for (int i = 0; i < 32 && round % 2; i++)
            table.next[i / 4][i % 4] = (uint8_t)(drawn() % 8);
        for (size_t i = 0; i < length; i++)
            xs[i] = element();
        livevec_summary empty = taken(livevec_summary_empty_with_table(&table));
        livevec_summary a = taken(livevec_summary_extend(&empty, xs, first));
        livevec_summary b = taken(livevec_summary_extend(&empty, xs + first, second - first));
        livevec_summary c = taken(livevec_summary_extend(&empty, xs + second, length - second));
        livevec_summary ab = taken(livevec_summary_join(&a, &b)), bc = taken(livevec_summary_join(&b, &c));
        livevec_summary left = taken(livevec_summary_join(&ab, &c)), right = taken(livevec_summary_join(&a, &bc));
        says(&left, xs, length, &table);
        IS(memcmp(&left, &right, sizeof left), 0);
        left = taken(livevec_summary_join(&empty, &right));
        IS(memcmp(&left, &right, sizeof left), 0);
        left = taken(livevec_summary_join(&right, &empty));
        IS(memcmp(&left, &right, sizeof left), 0);
    }
}

/* Ranges of a vector, and how they are refused. */
static void ranges(void)
{
    int64_t xs[100];
    livevec_table table = usual_table();
    livevec_vector v = {0};
    IS(livevec_summary_of(&v, 0, 0).refusal, LIVEVEC_NO_HANDLE);
    IS(livevec_new(&v, 9, 1000), LIVEVEC_OK);
    for (int i = 0; i < 100; i++) {
        xs[i] = element();
        IS(livevec_push(&v, xs[i]).refusal, LIVEVEC_OK);
    }
    for (uint32_t lo = 0; lo <= 100; lo += 7)
        for (uint32_t hi = lo; hi <= 100; hi += 9) {
            livevec_summary s = taken(livevec_summary_of(&v, lo, hi));
            says(&s, xs + lo, hi - lo, &table);
            IS(livevec_summary_values(&s).edit, 100);
            IS(livevec_summary_values(&s).at_edit, true);
        }
    livevec_summary front = taken(livevec_summary_of(&v, 0, 60)), back = taken(livevec_summary_of(&v, 60, 100));
    livevec_summary all = taken(livevec_summary_join(&front, &back));
    says(&all, xs, 100, &table);
    IS(livevec_summary_values(&all).at_edit, false);
    IS(livevec_summary_values(&all).edit, 0);
    IS(livevec_summary_of(&v, 4, 3).refusal, LIVEVEC_BAD_RANGE);
    IS(livevec_summary_of(&v, 4, 101).refusal, LIVEVEC_OUT_OF_RANGE);
    IS(livevec_summary_of(&v, 4, 101).detail, 100);
    IS(livevec_free(&v), LIVEVEC_OK);
}

/* An array of more elements than go into one call of the proved part, and of none. */
static void long_array(void)
{
    static int64_t xs[5000];
    livevec_table table = usual_table();
    for (int i = 0; i < 5000; i++)
        xs[i] = element();
    for (size_t length = 0; length <= 5000; length += length < 1023 ? 1023 : 1 + length / 3) {
        livevec_summary s = taken(livevec_summary_of_elements(xs, length));
        says(&s, xs, length, &table);
    }
    livevec_summary none = taken(livevec_summary_of_elements(0, 0)), empty = taken(livevec_summary_empty());
    IS(memcmp(&none, &empty, sizeof none), 0);
}

/* ---- bytes */

static void put(livevec_summary *summary, size_t offset, uint64_t number)
{
    for (int i = 0; i < 8; i++)
        summary->bytes[offset + i] = (uint8_t)(number >> (8 * i));
}

static uint64_t at(const livevec_summary *summary, size_t offset)
{
    uint64_t number = 0;
    for (int i = 7; i >= 0; i--)
        number = number << 8 | summary->bytes[offset + i];
    return number;
}

/* Writes the checksum that the other bytes have. */
static void seal(livevec_summary *summary)
{
    uint64_t hash = 14695981039346656037u;
    for (int i = 0; i < 176; i++)
        hash = (hash ^ summary->bytes[i]) * 1099511628211u;
    put(summary, 176, hash);
}

/* The number at an offset is another, and the checksum is right. */
static uint32_t forged(livevec_summary summary, size_t offset, uint64_t number)
{
    put(&summary, offset, number);
    seal(&summary);
    return livevec_summary_values(&summary).refusal;
}

static void summary_places(const livevec_summary *s)
{
    const uint64_t minus_nine = (uint64_t)-9;
    IS(at(s, 0), 1);
    IS(at(s, 8), 3);
    IS(at(s, 16), 1);
    IS(at(s, 24), 3);
    IS(at(s, 32), (uint64_t)-2);
    IS(at(s, 40), minus_nine);
    IS(at(s, 48), 4);
    IS(at(s, 56), (uint64_t)-2);
    IS(at(s, 64), UINT64_MAX);
    IS(at(s, 72), 3);
    IS(at(s, 88), 4);
    IS(at(s, 104), 4);
    IS(at(s, 112), 0);
    IS(at(s, 120), 0);
    IS(at(s, 128), 4);
    /* 3, -9 and 4 are 3, 3 and 0 modulo 4: from q the last two bits come to be those of 3, 3, 0, shifted by one each */
    for (int q = 0; q < 8; q++)
        IS(s->bytes[136 + q], (2 * ((2 * ((2 * q + 3) % 8) + 3) % 8)) % 8);
    for (int c = 0; c < 4; c++)
        for (int q = 0; q < 8; q++)
            IS(s->bytes[144 + 8 * c + q], (2 * q + c) % 8);
    livevec_summary again = *s;
    seal(&again);
    IS(memcmp(&again, s, sizeof again), 0);
}

/* Each byte that is changed is noticed, alone and in a join. */
static void each_byte(const livevec_summary *s)
{
    for (int i = 0; i < LIVEVEC_SUMMARY_BYTES; i++)
        for (int flip = 1; flip < 256; flip += 127) {
            livevec_summary changed = *s;
            changed.bytes[i] ^= (uint8_t)flip;
            uint32_t wanted = i < 8 ? LIVEVEC_OTHER_VERSION : LIVEVEC_DAMAGED;
            IS(livevec_summary_values(&changed).refusal, wanted);
            IS(livevec_summary_join(&changed, s).refusal, wanted);
            IS(livevec_summary_join(s, &changed).refusal, wanted);
            IS(livevec_summary_extend(&changed, 0, 0).refusal, wanted);
        }
}

/* Bytes with a right checksum that no elements come to. */
static void no_such_summary(const livevec_summary *s)
{
    livevec_summary empty = taken(livevec_summary_empty()), zeros = {{0}};
    IS(forged(*s, 8, 3), LIVEVEC_OK);
    IS(forged(*s, 0, 2), LIVEVEC_OTHER_VERSION);
    IS(forged(*s, 8, 0), LIVEVEC_DAMAGED);
    IS(forged(*s, 8, (1ull << 62) + 1), LIVEVEC_DAMAGED);
    IS(forged(*s, 16, 2), LIVEVEC_DAMAGED);
    IS(forged(*s, 16, 0), LIVEVEC_DAMAGED);
    IS(forged(*s, 24, 1ull << 32), LIVEVEC_DAMAGED);
    IS(forged(*s, 64, 2), LIVEVEC_DAMAGED);
    IS(forged(*s, 112, (uint64_t)INT64_MIN), LIVEVEC_DAMAGED);
    IS(forged(*s, 120, 1ull << 32), LIVEVEC_DAMAGED);
    IS(forged(*s, 128, 1ull << 32), LIVEVEC_DAMAGED);
    IS(forged(*s, 136, 8), LIVEVEC_DAMAGED);
    IS(forged(*s, 144, 1ull << 59), LIVEVEC_DAMAGED);
    IS(forged(empty, 32, 1), LIVEVEC_DAMAGED);
    IS(forged(empty, 40, 1), LIVEVEC_DAMAGED);
    IS(forged(empty, 120, 0), LIVEVEC_DAMAGED);
    IS(livevec_summary_values(&zeros).refusal, LIVEVEC_OTHER_VERSION);
    livevec_summarised refused = livevec_summary_join(&zeros, s);
    IS(memcmp(&refused.summary, &zeros, sizeof zeros), 0);
}

static void bytes(void)
{
    livevec_vector v = {0};
    IS(livevec_new(&v, 1, 9), LIVEVEC_OK);
    IS(livevec_push(&v, 3).refusal | livevec_push(&v, -9).refusal | livevec_push(&v, 4).refusal, LIVEVEC_OK);
    livevec_summary s = taken(livevec_summary_of(&v, 0, 3));
    IS(livevec_free(&v), LIVEVEC_OK);
    summary_places(&s);
    each_byte(&s);
    no_such_summary(&s);
}

/* Tables that differ in one entry, and a table with an entry above 7. */
static void tables(void)
{
    livevec_table table = usual_table();
    livevec_summary one = taken(livevec_summary_empty());
    for (int i = 0; i < 32; i++) {
        livevec_table other = table;
        other.next[i / 4][i % 4] ^= 1;
        livevec_summary two = taken(livevec_summary_empty_with_table(&other));
        IS(livevec_summary_join(&one, &two).refusal, LIVEVEC_OTHER_TABLE);
        other.next[i / 4][i % 4] = 8;
        IS(livevec_summary_empty_with_table(&other).refusal, LIVEVEC_BAD_TABLE);
    }
}

/* One element, doubled up to 2^62 of it; one more is too many. */
static void too_many(void)
{
    int64_t x = -5;
    livevec_summary one = taken(livevec_summary_of_elements(&x, 1)), all = one;
    for (int i = 0; i < 62; i++)
        all = taken(livevec_summary_join(&all, &all));
    livevec_opened o = livevec_summary_values(&all);
    IS(o.count, 1ull << 62);
    IS(o.values.sum, 0 - (5ull << 62));
    IS(o.values.best_low, (uint64_t)-5);
    IS(o.values.best_high, -1);
    IS(at(&all, 64), (uint64_t)(((wide)-5 * ((wide)1 << 62)) >> 64));
    IS(livevec_summary_join(&all, &one).refusal, LIVEVEC_TOO_LONG);
    IS(livevec_summary_extend(&all, &x, 1).refusal, LIVEVEC_TOO_LONG);
    IS(livevec_summary_extend(&all, &x, 0).refusal, LIVEVEC_OK);
}

static void null_pointers(void)
{
    livevec_summary s = taken(livevec_summary_empty());
    IS(livevec_summary_empty_with_table(0).refusal, LIVEVEC_NULL);
    IS(livevec_summary_of(0, 0, 0).refusal, LIVEVEC_NULL);
    IS(livevec_summary_extend(0, 0, 0).refusal, LIVEVEC_NULL);
    IS(livevec_summary_extend(&s, 0, 1).refusal, LIVEVEC_NULL);
    IS(livevec_summary_of_elements(0, 1).refusal, LIVEVEC_NULL);
    IS(livevec_summary_join(0, &s).refusal, LIVEVEC_NULL);
    IS(livevec_summary_join(&s, 0).refusal, LIVEVEC_NULL);
    IS(livevec_summary_values(0).refusal, LIVEVEC_NULL);
}

void summaries(void)
{
    cut_lists();
    ranges();
    long_array();
    bytes();
    tables();
    too_many();
    null_pointers();
}
