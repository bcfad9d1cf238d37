/* livevec.hpp from outside: series. */
#include "tests_cpp.hpp"

#include <algorithm>
#include <array>
#include <cstdint>
#include <numeric>
#include <utility>
#include <vector>

using numbers = std::vector<std::int64_t>;

/* What a call at a series told to be kept, where it was refused for that. */
template <class Call> static std::pair<std::uint64_t, std::uint64_t> kept_by(Call call)
{
    try {
        call();
    } catch (const livevec::not_kept &refused) {
        IS(refused.number() == LIVEVEC_OUT_OF_RANGE);
        return {refused.first(), refused.size()};
    }
    return {0, 0};
}

/* A series beside a plain row, while a window of one shard slides over four. */
void series()
{
    using window = std::pair<std::uint64_t, std::uint64_t>;
    const std::uint64_t shard = 32760;
    livevec::series readings{5, -2};
    numbers row{5, -2};
    IS(readings.push(9) == 2 && readings.pop() == 9 && readings.write(1, 4) == -2);
    row[1] = 4;
    readings.swap_elements(0, 1);
    std::swap(row[0], row[1]);
    std::uint64_t first = 0;
    for (int hour = 0; hour < 14; hour++) {
        numbers more(10000);
        for (std::size_t i = 0; i < more.size(); i++)
            more[i] = static_cast<std::int64_t>((row.size() + i) * 7919 % 2003) - 1000;
        readings.push_many(more);
        row.insert(row.end(), more.begin(), more.end());
        if (row.size() > shard) {
            const std::uint64_t to = row.size() - shard;
            IS(readings.expire(to) == to - first);
            first = to;
            IS(kept_by([&] { (void)readings[to - 1]; }) == window(first, row.size()));
            IS(kept_by([&] { readings.write(row.size(), 1); }) == window(first, row.size()));
        }
        const auto from = row.begin() + static_cast<std::ptrdiff_t>(first);
        IS(readings.first() == first && readings.size() == row.size() && readings.length() == row.size() - first);
        IS(static_cast<std::int64_t>(readings.sum(first, row.size())) == std::accumulate(from, row.end(), std::int64_t(0)));
        IS(readings.least(first, row.size()) == *std::min_element(from, row.end()) && readings.greatest(first, row.size()) == *std::max_element(from, row.end()));
        IS(readings.elements() == numbers(from, row.end()));
    }
    IS(readings.reduce(first, first).values.any == false && !readings.least(first, first) && !readings.best(first, first));
    IS(readings[first] == row[first] && readings.read(first + 1, first + 3) == numbers(row.begin() + static_cast<std::ptrdiff_t>(first) + 1, row.begin() + static_cast<std::ptrdiff_t>(first) + 3));

    const std::uint64_t hi = first + 1000;
    const std::vector<livevec_values> whole = readings.scan_inclusive(first, hi), before = readings.scan_exclusive(first, hi);
    std::int64_t sum = 0;
    for (std::uint64_t i = first; i < hi; i++) {
        IS(static_cast<std::int64_t>(before[i - first].sum) == sum);
        sum += row[i];
        IS(static_cast<std::int64_t>(whole[i - first].sum) == sum);
    }
    std::array<livevec_values, 300> room;
    for (std::uint64_t at = first, took; at < hi; at += took) {
        took = readings.scan_inclusive_into(first, at, hi, room);
        IS(took == std::min<std::uint64_t>(300, hi - at) && room[took - 1].sum == whole[at + took - 1 - first].sum);
        IS(readings.scan_exclusive_into(first, at, hi, room) == took && room[0].sum == before[at - first].sum);
    }
    std::array<std::int64_t, 4> some;
    IS(readings.read_into(hi, readings.size(), some) == 4 && some[3] == row[hi + 3]);
    IS(refusal_of([&] { (void)readings.reduce(hi, first); }) == LIVEVEC_BAD_RANGE && refusal_of([&] { (void)readings.read(hi, first); }) == LIVEVEC_BAD_RANGE);

    IS(readings.truncate(first + 5) == row.size() - first - 5 && readings.length() == 5);
    livevec::series moved = std::move(readings);
    IS(moved.expire(moved.size()) == 5 && moved.empty() && refusal_of([&] { moved.pop(); }) == LIVEVEC_EMPTY);
    IS(refusal_of([&] { readings.push(1); }) == LIVEVEC_NULL);
    IS(refusal_of([&] { moved.push_many(livevec::array_view(nullptr, 1)); }) == LIVEVEC_NULL);
}
