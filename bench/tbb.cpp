// What oneTBB takes of the work that `figures/` and `board/` time: `tbb wholes` reduces and scans all elements, on the same elements; `tbb pushes` has so
// many threads grow a concurrent_vector to 4,000 elements of 16 bits, then one clears it. Each line that it prints is a label, nanoseconds, and how
// often the work was done in them, by each of the threads.
#include <algorithm>
#include <barrier>
#include <chrono>
#include <cstdint>
#include <iostream>
#include <limits>
#include <string>
#include <thread>
#include <vector>

#include <oneapi/tbb/blocked_range.h>
#include <oneapi/tbb/concurrent_vector.h>
#include <oneapi/tbb/parallel_reduce.h>
#include <oneapi/tbb/parallel_scan.h>

constexpr std::size_t all = 1048560;
constexpr int run = 4000, rounds = 100;
using Range = tbb::blocked_range<std::size_t>;

struct Sum {
    std::uint64_t total = 0;
    static Sum of(std::int64_t x) { return {static_cast<std::uint64_t>(x)}; }
    Sum join(const Sum &next) const { return {total + next.total}; }
    bool operator==(const Sum &) const = default;
};

struct Best {
    bool some = false;
    __int128 total = 0, prefix = 0, suffix = 0, best = 0;
    static Best of(std::int64_t x) { return {true, x, x, x, x}; }
    Best join(const Best &next) const {
        if (!some) return next;
        if (!next.some) return *this;
        return {true, total + next.total, std::max(prefix, total + next.prefix), std::max(next.suffix, next.total + suffix),
                std::max({best, next.best, suffix + next.prefix})};
    }
    bool operator==(const Best &) const = default;
};

template <typename Work> static void show(const std::string &label, int tries, int turns, Work work) {
    auto least = std::numeric_limits<std::int64_t>::max();
    for (int time = 0; time < tries; ++time) {
        auto start = std::chrono::steady_clock::now();
        work(time % 8);
        least = std::min<std::int64_t>(least, std::chrono::nanoseconds(std::chrono::steady_clock::now() - start).count());
    }
    std::cout << label << ": " << least << " " << turns << "\n";
}

template <typename S> static void show_both(const std::string &kind, const std::vector<std::int64_t> &elements) {
    auto fold = [&](const Range &range, S sum) {
        for (auto i = range.begin(); i != range.end(); ++i) sum = sum.join(S::of(elements[i]));
        return sum;
    };
    auto join = [](const S &a, const S &b) { return a.join(b); };
    S last;
    std::uint64_t same = 0;
    show("tbb reduce " + kind, 40, 1, [&](std::size_t lo) {
        S sum = tbb::parallel_reduce(Range(lo, all), S{}, fold, join);
        same += sum == last;
        last = sum;
    });
    show("tbb scan " + kind, 40, 1, [&](std::size_t lo) {
        std::vector<S> values(all - lo);
        auto scan = [&](const Range &range, S sum, bool final) {
            for (auto i = range.begin(); i != range.end(); ++i) {
                sum = sum.join(S::of(elements[i]));
                if (final) values[i - lo] = sum;
            }
            return sum;
        };
        tbb::parallel_scan(Range(lo, all), S{}, scan, join);
        same += values.back() == last;
        last = values.back();
    });
    std::cerr << same << "\n";
}

static void grow(int threads) {
    tbb::concurrent_vector<std::int16_t> elements;
    elements.reserve(4088);
    auto clear = [&]() noexcept { elements.clear(); };
    std::barrier grown(threads, clear);
    auto push = [&] {
        for (int round = 0; round < rounds; ++round) {
            for (int k = 0; k < run / threads; ++k) elements.push_back(static_cast<std::int16_t>(k % 1000));
            grown.arrive_and_wait();
        }
    };
    std::vector<std::thread> each;
    for (int number = 0; number < threads; ++number) each.emplace_back(push);
    for (auto &thread : each) thread.join();
}

int main(int count, char **words) {
    if (count > 1 && std::string(words[1]) == "pushes") {
        for (int threads : {1, 2, 4}) show("tbb push by " + std::to_string(threads), 5, rounds * (run / threads), [&](int) { grow(threads); });
        return 0;
    }
    std::vector<std::int64_t> elements;
    std::uint64_t number = 1;
    for (std::size_t i = 0; i < all; ++i) {
        number = number * 6364136223846793005u + 1442695040888963407u;
        elements.push_back(static_cast<std::int64_t>((number >> 8) - (std::uint64_t{1} << 55)));
    }
    show_both<Sum>("sum", elements);
    show_both<Best>("best", elements);
}
