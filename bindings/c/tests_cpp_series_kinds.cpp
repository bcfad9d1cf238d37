/* livevec.hpp from outside: series by one kind, their columns, and many pushes: beside plain loops over the same numbers. */
#include "tests_cpp.hpp"

#include <algorithm>
#include <array>
#include <cstdint>
#include <fstream>
#include <numeric>
#include <vector>

#ifdef __linux__
#include <sys/resource.h>
#endif

/* A sanitizer takes address space of its own, which can't be limited. */
#if defined(__SANITIZE_ADDRESS__) || defined(__SANITIZE_THREAD__)
#define IS_SANITIZED 1
#elif defined(__has_feature)
#if __has_feature(address_sanitizer) || __has_feature(thread_sanitizer)
#define IS_SANITIZED 1
#endif
#endif

using numbers = std::vector<std::int64_t>;

/* One column of a series, as a whole and in pieces, beside what a loop has in its variable after each element. */
template <livevec::kind Kind, class Cell, class Step, class Same> static void column_of(const livevec::series &readings, const numbers &row, Cell none, Step step, Same same)
{
    const std::uint64_t first = readings.first(), size = readings.size();
    const auto whole = readings.scan_inclusive<Kind>(first, size), before = readings.scan_exclusive<Kind>(first, size);
    IS(whole.size() == size - first && before.size() == size - first);
    std::array<Cell, 7> room;
    Cell so_far = none;
    for (std::uint64_t i = first; i < size; i++) {
        IS(same(before[i - first], so_far));
        so_far = step(so_far, i == first, row[i]);
        IS(same(whole[i - first], so_far));
        if ((i - first) % 7 == 0) {
            const std::size_t took = readings.scan_inclusive_into<Kind>(first, i, size, room);
            IS(took == std::min<std::uint64_t>(7, size - i) && same(room[0], so_far) && same(room[took - 1], whole[i + took - 1 - first]));
            IS(readings.scan_exclusive_into<Kind>(first, i, size, room) == took && same(room[0], before[i - first]));
        }
    }
}

/* A series by one kind: one range, many, and columns. */
static void goes_on_by_one_kind()
{
    numbers row{7, -9, 4, 1000, -3, 260, -70000, 12};
    for (std::int64_t i = 0; i < 40; i++)
        row.push_back(i * 7919 % 2003 - 1000);
    livevec::series readings{livevec::array_view(row)};
    readings.expire(2);
    const auto from = row.begin() + 2;
    IS(readings.value(livevec::kind::least, 2, 9).values.least == *std::min_element(from, row.begin() + 9));
    IS(readings.value(livevec::kind::least, 2, 9).values.greatest == 0 && readings.value(livevec::kind::least, 2, 2).values.any == false);
    const std::vector<livevec_values> sums = readings.value_many(livevec::kind::sum, {{2, 9}, {5, 5}, {3, 48}});
    IS(static_cast<std::int64_t>(sums[0].sum) == std::accumulate(from, row.begin() + 9, std::int64_t(0)) && !sums[1].any);
    IS(static_cast<std::int64_t>(sums[2].sum) == std::accumulate(from + 1, row.end(), std::int64_t(0)));
    try {
        (void)readings.value_many(livevec::kind::sum, {{2, 9}, {1, 5}});
        IS(false);
    } catch (const livevec::not_kept_at &refused) {
        IS(refused.place() == 1 && refused.first() == 2 && refused.size() == 48);
    }
    try {
        (void)readings.value_many(livevec::kind::sum, {{2, 9}, {5, 6}, {4, 3}});
        IS(false);
    } catch (const livevec::refused_at &refused) {
        IS(refused.place() == 2 && refused.number() == LIVEVEC_BAD_RANGE);
    }
    IS(refusal_of([&] { (void)readings.value(livevec::kind{6}, 2, 9); }) == LIVEVEC_BAD_KIND);
    const auto equal = [](auto a, auto b) { return a == b; };
    column_of<livevec::kind::sum>(readings, row, std::int64_t(0), [](std::int64_t s, bool, std::int64_t x) { return s + x; }, equal);
    column_of<livevec::kind::least>(readings, row, std::int64_t(0), [](std::int64_t s, bool one, std::int64_t x) { return one || x < s ? x : s; }, equal);
    column_of<livevec::kind::greatest>(readings, row, std::int64_t(0), [](std::int64_t s, bool one, std::int64_t x) { return one || x > s ? x : s; }, equal);
    std::int64_t ending = 0;
    column_of<livevec::kind::best>(
        readings, row, livevec_total{0, 0},
        [&](livevec_total s, bool one, std::int64_t x) {
            ending = one || ending < 0 ? x : ending + x;
            const livevec::int128 best = one || livevec::total(s) < ending ? livevec::int128(ending) : livevec::total(s);
            return livevec_total{static_cast<std::uint64_t>(best), static_cast<std::int64_t>(best >> 64)};
        },
        [](livevec_total a, livevec_total b) { return livevec::total(a) == livevec::total(b); });
    column_of<livevec::kind::affine>(
        readings, row, livevec_map{1, 0},
        [](livevec_map s, bool, std::int64_t x) {
            const std::int64_t low = (x % 256 + 256) % 256;
            const std::uint32_t a = static_cast<std::uint32_t>((x - low) / 256);
            return livevec_map{a * s.a, a * s.b + static_cast<std::uint32_t>(low)};
        },
        [](livevec_map a, livevec_map b) { return a.a == b.a && a.b == b.b; });
    column_of<livevec::kind::automaton>(
        readings, row, livevec_states{{0, 1, 2, 3, 4, 5, 6, 7}},
        [](livevec_states s, bool, std::int64_t x) {
            for (std::uint8_t &q : s.to)
                q = static_cast<std::uint8_t>((2 * q + (x % 4 + 4) % 4) % 8);
            return s;
        },
        [](livevec_states a, livevec_states b) { return std::equal(a.to, a.to + 8, b.to); });
    try {
        (void)readings.scan_inclusive<livevec::kind::sum>(1, 5);
        IS(false);
    } catch (const livevec::not_kept &refused) {
        IS(refused.first() == 2 && refused.size() == 48);
    }
}

/* Many pushes at a series, all of them or none, also where memory is wanting. */
static void goes_on_by_all_or_none()
{
    livevec::series readings{5, 7};
    readings.push_many({});
    IS(readings.edits() == 2 && readings.size() == 2);
#if defined(__linux__) && !defined(IS_SANITIZED)
    const numbers more(4000000, 3);
    std::uint64_t pages = 0;
    std::ifstream("/proc/self/statm") >> pages;
    rlimit before, tight;
    IS(getrlimit(RLIMIT_AS, &before) == 0);
    tight = {pages * 4096 + (16u << 20), before.rlim_max};
    IS(setrlimit(RLIMIT_AS, &tight) == 0);
    std::uint32_t why = 0;
    try {
        readings.push_many(more);
    } catch (const livevec::stopped_long &stopped) {
        why = stopped.number() + static_cast<std::uint32_t>(stopped.pushed());
    }
    IS(setrlimit(RLIMIT_AS, &before) == 0);
    IS(why == LIVEVEC_NO_MEMORY && readings.edits() == 2 && readings.elements() == numbers({5, 7}));
    readings.push_many(more);
    IS(readings.size() == more.size() + 2 && readings.edits() == more.size() + 2 && readings.unsigned_sum(0, readings.size()) == 12 + 3 * more.size());
#endif
}

/* Many writes, all of them or none, over trees that were made before. */
static void writes_all_or_none()
{
    livevec::series readings{9, 20, 22, 19, 25};
    readings.prepare(livevec::kind::sum);
    readings.expire(1);
    IS(readings.write_many({4, 1, 4}, {24, 21, 23}) == 9 && readings.elements() == numbers({21, 22, 19, 23}) && readings.sum(1, 5) == 85);
    IS(readings.write_many({}, {}) == 9);
    try {
        readings.write_many({1, 0}, {7, 7});
        IS(false);
    } catch (const livevec::not_kept_at &refused) {
        IS(refused.first() == 1 && refused.size() == 5 && refused.place() == 1 && readings.edits() == 9 && readings[1] == 21);
    }
    try {
        readings.write_many({1}, {});
        IS(false);
    } catch (const livevec::refused &refused) {
        IS(refused.number() == LIVEVEC_SHORT_BUFFER && readings.edits() == 9);
    }
}

void series_kinds()
{
    writes_all_or_none();
    goes_on_by_one_kind();
    goes_on_by_all_or_none();
}
