/* livevec.hpp from outside: samples and windows of time; series and samples as bytes. */
#include "tests_cpp.hpp"

#include <algorithm>
#include <cstdint>
#include <numeric>
#include <stdexcept>
#include <utility>
#include <vector>

using numbers = std::vector<std::int64_t>;
using window = std::pair<std::uint64_t, std::uint64_t>;

static window ends(const livevec_window &told)
{
    return {told.lo, told.hi};
}

/* Samples beside two plain rows, whose times rise by 0 to 2, while those of the front expire. */
static void windows_beside_rows()
{
    livevec::samples load;
    numbers times, values;
    std::uint64_t first = 0;
    for (std::int64_t i = 0; i < 3000; i++) {
        times.push_back((times.empty() ? -1000 : times.back()) + i * 7919 % 3);
        values.push_back(i * 104729 % 2003 - 1000);
        IS(load.push(times.back(), values.back()) == static_cast<std::uint64_t>(i));
        if (i % 100 == 99) {
            const std::int64_t before = times[first + 60];
            const auto kept = std::lower_bound(times.begin() + static_cast<std::ptrdiff_t>(first), times.end(), before) - times.begin();
            IS(load.expire_before(before) == static_cast<std::uint64_t>(kept) - first);
            first = static_cast<std::uint64_t>(kept);
        }
        if (i % 7)
            continue;
        const auto index = [&](std::int64_t time) {
            return static_cast<std::uint64_t>(std::lower_bound(times.begin() + static_cast<std::ptrdiff_t>(first), times.end(), time) - times.begin());
        };
        const std::int64_t since = times.back() - i % 90, until = times.back() - i % 13;
        const window wanted{index(std::min(since, until)), index(std::max(since, until))}, last{index(times.back() - i % 40 + 1), times.size()};
        IS(ends(load.between(std::min(since, until), std::max(since, until))) == wanted);
        IS(ends(load.last(static_cast<std::uint64_t>(i % 40))) == last);
        const auto at = [&](std::uint64_t place) { return values.begin() + static_cast<std::ptrdiff_t>(place); };
        const std::int64_t sum = std::accumulate(at(wanted.first), at(wanted.second), std::int64_t(0));
        IS(static_cast<std::int64_t>(load.value_between(livevec::kind::sum, std::min(since, until), std::max(since, until)).values.sum) == sum);
        const livevec_series_reduced most = load.value_of_last(livevec::kind::greatest, static_cast<std::uint64_t>(i % 40));
        IS(most.values.any == (last.first < last.second) && (!most.values.any || most.values.greatest == *std::max_element(at(last.first), at(last.second))));
        IS(most.edit == load.edits() && load.size() == times.size() && load.first() == first);
    }
    IS(load.times() == numbers(times.begin() + static_cast<std::ptrdiff_t>(first), times.end()));
    IS(load.elements() == numbers(values.begin() + static_cast<std::ptrdiff_t>(first), values.end()));
    IS(load.at(first + 3).time == times[first + 3] && load.at(first + 3).value == values[first + 3] && load[first + 3] == values[first + 3]);
}

/* By hand: what is refused, and edits of the values. */
static void samples_by_hand()
{
    livevec::samples load{{-5, 10}, {-5, 20}, {7, 30}};
    IS(ends(load.last(0)) == window(3, 3) && ends(load.last(1)) == window(2, 3) && ends(load.last(UINT64_MAX)) == window(0, 3));
    IS(ends(load.between(-5, 7)) == window(0, 2) && ends(load.between(8, 9)) == window(3, 3) && ends(load.between(INT64_MIN, -5)) == window(0, 0));
    IS(refusal_of([&] { (void)load.last(-1); }) == LIVEVEC_OUT_OF_RANGE);
    try {
        (void)load.value_of_last(livevec::kind::sum, -60);
        IS(false);
    } catch (const std::out_of_range &refused) {
        IS(refused.what() == std::string("out of range: -60 is below 0"));
    }
    IS(refusal_of([&] { (void)load.between(7, 6); }) == LIVEVEC_BAD_RANGE && refusal_of([&] { (void)load.value_between(livevec::kind::sum, 7, 6); }) == LIVEVEC_BAD_RANGE);
    try {
        load.push(6, 1);
        IS(false);
    } catch (const livevec::earlier &refused) {
        IS(refused.number() == LIVEVEC_EARLIER && refused.newest() == 7 && refused.what() == std::string("a time before that of the last sample (time 6, the last one's 7)"));
    }
    try {
        load.push_many(numbers{7, 9, 8, 10}, numbers{1, 2, 3, 4});
        IS(false);
    } catch (const livevec::refused_at &refused) {
        IS(refused.number() == LIVEVEC_EARLIER && refused.place() == 2 && refused.done() == 2 && load.size() == 5);
    }
    IS(load.push_many(numbers{9}, numbers{5}) == 6 && refusal_of([&] { load.push_many(numbers{9}, numbers{}); }) == LIVEVEC_SHORT_BUFFER);
    IS(load.write(0, 11) == 10 && load.pop() == 5 && load.truncate(4) == 1 && load.expire(1) == 1 && load.length() == 3 && !load.empty());
    IS((load.elements() == numbers{20, 30, 1}) && (load.times(1, 3) == numbers{-5, 7}) && load.sum(1, 4) == 51 && load.where_greatest(1, 4)->index == 2);
    std::int64_t room[2] = {0, 0};
    IS(load.times_into(1, 4, room) == 2 && room[1] == 7);
    load.prepare(livevec::kind::best);
    IS(load.best(1, 4) == 51 && load.scan_inclusive<livevec::kind::sum>(1, 3).back() == 50);
    IS(refusal_of([&] { (void)load.at(0); }) == LIVEVEC_OUT_OF_RANGE && refusal_of([&] { (void)load.times(3, 2); }) == LIVEVEC_BAD_RANGE);
    IS(livevec_series_push(load.series_slot(), 1).refusal == LIVEVEC_NO_HANDLE);
    livevec::samples moved = std::move(load);
    IS(moved.size() == 4 && refusal_of([&] { load.push(9, 9); }) == LIVEVEC_NULL && refusal_of([&] { (void)load.size(); }) == LIVEVEC_NULL);
}

/* All bytes, pieces of them, and back by pieces; what was loaded goes on. */
template <class Whole> static std::vector<std::uint8_t> there_and_back(const Whole &whole)
{
    const std::vector<std::uint8_t> bytes = whole.save();
    std::vector<std::uint8_t> pieces, room(37);
    for (std::size_t took; (took = whole.save_into(pieces.size(), room));)
        pieces.insert(pieces.end(), room.begin(), room.begin() + static_cast<std::ptrdiff_t>(took));
    IS(bytes == pieces && bytes.size() == whole.saved_length() && refusal_of([&] { (void)whole.save_into(4, room); }) == LIVEVEC_BAD_RANGE);
    livevec::loading<Whole> loading;
    for (std::size_t at = 0; at < bytes.size(); at += 29)
        loading.give(livevec::byte_view(bytes.data() + at, std::min<std::size_t>(29, bytes.size() - at)));
    Whole back = loading.end();
    IS(refusal_of([&] { loading.give(bytes); }) != 0 && refusal_of([&] { (void)loading.end(); }) != 0);
    IS(back.elements() == whole.elements() && back.first() == whole.first() && back.edits() == whole.edits() && back.save() == bytes);
    IS(back.write(back.first(), 1) == whole[whole.first()] && back.edits() == whole.edits() + 1);
    std::vector<std::uint8_t> wrong = bytes;
    for (std::uint8_t &byte : wrong) {
        byte ^= 16;
        IS(refusal_of([&] { (void)Whole::load(wrong); }) == LIVEVEC_NOT_SAVED);
        byte ^= 16;
    }
    wrong.pop_back();
    IS(refusal_of([&] { (void)Whole::load(wrong); }) == LIVEVEC_NOT_SAVED && refusal_of([] { (void)Whole::load({}); }) == LIVEVEC_NOT_SAVED);
    return bytes;
}

static void as_bytes()
{
    livevec::series readings{9, -20, INT64_MIN, 19};
    readings.expire(1);
    const std::vector<std::uint8_t> of_series = there_and_back(readings);
    IS(of_series.size() == 88 + 3 * 8 && of_series[16] == 1 && of_series[24] == 1 && of_series[32] == 5 && of_series[80] == 236);
    livevec::samples load{{-5, 10}, {-5, 20}, {7, 30}};
    const std::vector<std::uint8_t> of_samples = there_and_back(load);
    IS(of_samples.size() == 88 + 3 * 16 && of_samples[16] == 2);
    livevec::samples back = livevec::samples::load(of_samples);
    IS(back.times() == load.times() && back.push(7, 40) == 3 && refusal_of([&] { back.push(6, 1); }) == LIVEVEC_EARLIER);
    IS(refusal_of([&] { (void)livevec::series::load(of_samples); }) == LIVEVEC_NOT_SAVED && refusal_of([&] { (void)livevec::samples::load(of_series); }) == LIVEVEC_NOT_SAVED);
    livevec::loading<livevec::samples> given_up;
    given_up.give(of_samples);
}

void samples()
{
    windows_beside_rows();
    samples_by_hand();
    as_bytes();
}
