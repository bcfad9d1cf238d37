/* livevec.hpp from outside: where in a range something stands, in vectors, series and samples, beside plain loops over the same numbers. */
#include "tests_cpp.hpp"

#include <algorithm>
#include <cstdint>
#include <optional>
#include <vector>

using numbers = std::vector<std::int64_t>;
using place = std::optional<std::uint64_t>;

/* An index of a plain row, as an answer has it: none where it is the row's end. */
static place index_of(const numbers &row, std::uint64_t hi, numbers::const_iterator at)
{
    const auto told = static_cast<std::uint64_t>(at - row.begin());
    return told < hi ? place(told) : std::nullopt;
}

/* The first number of a range of a row for which something holds, and the last. */
template <class Holds> static place first_of(const numbers &row, std::uint64_t lo, std::uint64_t hi, Holds holds)
{
    for (std::uint64_t i = lo; i < hi; i++)
        if (holds(row[i]))
            return i;
    return std::nullopt;
}
template <class Holds> static place last_of(const numbers &row, std::uint64_t lo, std::uint64_t hi, Holds holds)
{
    for (std::uint64_t i = hi; i > lo; i--)
        if (holds(row[i - 1]))
            return i - 1;
    return std::nullopt;
}

/* The end of a range up to which its numbers come to a sum, and the start from which on they do. */
static place end_of(const numbers &row, std::uint64_t lo, std::uint64_t hi, std::int64_t sum)
{
    livevec::int128 so_far = 0;
    for (std::uint64_t end = lo; end <= hi; so_far += end < hi ? row[end] : 0, end++)
        if (so_far >= sum)
            return end;
    return std::nullopt;
}
static place start_of(const numbers &row, std::uint64_t lo, std::uint64_t hi, std::int64_t sum)
{
    livevec::int128 so_far = 0;
    for (std::uint64_t start = hi;; so_far += row[--start])
        if (so_far >= sum || start == lo)
            return so_far >= sum ? place(start) : std::nullopt;
}

/* The best of all runs, in the order of their ends, and of one end the shortest first. */
static livevec::best_run_long run_of(const numbers &row, std::uint64_t lo, std::uint64_t hi)
{
    livevec::best_run_long best{lo, lo, 0};
    for (std::uint64_t end = lo + 1; end <= hi; end++) {
        livevec::int128 sum = 0;
        for (std::uint64_t start = end; start > lo; start--) {
            sum += row[start - 1];
            if (best.lo == best.hi || sum > best.sum)
                best = {start - 1, end, sum};
        }
    }
    return best;
}

/* All searches of a range by some numbers. */
template <class Asked, class Index> static void found_in(const Asked &asked, const numbers &row, Index lo, Index hi)
{
    const auto from = row.begin() + static_cast<std::ptrdiff_t>(lo), to = row.begin() + static_cast<std::ptrdiff_t>(hi);
    const auto least = asked.where_least(lo, hi), greatest = asked.where_greatest(lo, hi);
    IS(index_of(row, hi, std::min_element(from, to)) == (least ? place(least->index) : std::nullopt));
    IS(index_of(row, hi, std::max_element(from, to)) == (greatest ? place(greatest->index) : std::nullopt));
    IS(!least || (least->value == row[least->index] && greatest->value == row[greatest->index]));
    const auto best = asked.where_best(lo, hi);
    const livevec::best_run_long run = run_of(row, lo, hi);
    IS(bool(best) == (lo < hi) && (!best || (best->lo == run.lo && best->hi == run.hi && best->sum == run.sum)));
    for (std::int64_t x : {INT64_MIN, std::int64_t(-3), std::int64_t(0), std::int64_t(2), std::int64_t(9), INT64_MAX}) {
        const auto at_least = [x](std::int64_t y) { return y >= x; };
        const auto at_most = [x](std::int64_t y) { return y <= x; };
        IS(asked.where_first_at_least(lo, hi, x) == first_of(row, lo, hi, at_least) && asked.where_last_at_least(lo, hi, x) == last_of(row, lo, hi, at_least));
        IS(asked.where_first_at_most(lo, hi, x) == first_of(row, lo, hi, at_most) && asked.where_last_at_most(lo, hi, x) == last_of(row, lo, hi, at_most));
        IS(asked.where_reaches(lo, hi, x) == end_of(row, lo, hi, x) && asked.where_reaches_back(lo, hi, x) == start_of(row, lo, hi, x));
    }
}

template <class Index, class Asked> static void found(const Asked &asked, const numbers &row, Index first)
{
    const Index size = static_cast<Index>(row.size());
    for (Index lo = first; lo <= size; lo += 7)
        for (Index hi = lo; hi <= size; hi += 13)
            found_in(asked, row, lo, hi);
}

void places()
{
    numbers row;
    livevec::samples load;
    for (std::int64_t i = 0; i < 150; i++) {
        row.push_back(i % 29 == 28 ? INT64_MAX - i : i % 31 == 30 ? INT64_MIN + i : i * 7919 % 13 - 6);
        load.push(i / 4 - 20, row.back());
    }
    livevec::vector all{livevec::array_view(row)};
    livevec::series readings{livevec::array_view(row)};
    found<std::uint32_t>(all, row, 0);
    readings.expire(20);
    load.expire(33);
    found<std::uint64_t>(readings, row, 20);
    found<std::uint64_t>(load, row, 33);

    const std::int64_t most = INT64_MAX;
    livevec::series wide{4, most, most, most, -1};
    wide.expire(1);
    const auto best = wide.where_best(1, 5);
    IS(best && best->lo == 1 && best->hi == 4 && best->sum == livevec::int128(most) * 3 && wide.where_reaches_back(1, 5, most) == 2);
    IS(refusal_of([&] { (void)all.where_first_at_least(1, 0, 3); }) == LIVEVEC_BAD_RANGE);
    IS(refusal_of([&] { (void)readings.where_last_at_most(30, 20, 3); }) == LIVEVEC_BAD_RANGE);
    try {
        (void)readings.where_least(19, 30);
        IS(false);
    } catch (const livevec::not_kept &refused) {
        IS(refused.first() == 20 && refused.size() == 150);
    }
}
